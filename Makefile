# The programs, proved and built, with their man pages.
#
#   make                        builds both
#   make install PREFIX=DIR     puts them and their man pages below DIR, which is /usr/local where nothing is said

PREFIX ?= /usr/local

programs:
	bin/build ragel ragel
	bin/build ragel-run ragel_run

install: programs
	install -d $(DESTDIR)$(PREFIX)/bin $(DESTDIR)$(PREFIX)/share/man/man1
	install crates/ragel/out/ragel $(DESTDIR)$(PREFIX)/bin/ragel
	install crates/ragel_run/out/ragel_run $(DESTDIR)$(PREFIX)/bin/ragel-run
	install -m 644 man/ragel.1 man/ragel-run.1 $(DESTDIR)$(PREFIX)/share/man/man1

.PHONY: programs install
