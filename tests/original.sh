#!/usr/bin/env bash
# The examples of docs/LANGUAGE.md of where the original differs, against the original, where it is installed.
#
#   tests/original.sh
#
# In each block of the page that begins with ```original a source stands above inputs with two lines each, of which those
# marked with `original` are looked at here. It has `ragel -T0` make C of each source, compiles that with gcc, runs it on the
# inputs, and wants exactly these lines; `no machine` says that ragel fails. A token's own action is shown with the ends of the
# token, and an action that a source defines, `action E { .. }`, without its control statements. The status is 1 where a line is
# another, and 0 where none is, or where ragel (Debian's package of this name) or gcc are missing.
. "$(dirname "${BASH_SOURCE[0]}")/common.sh"
make_room ragel gcc grep sed timeout
inputs=0 wrong=0

begins() {
  rm -rf "$work/run" && mkdir "$work/run" || exit 1
  made=
}
source_line() { printf '%s\n' "$2" >>"$work/run/source"; }
is_refused() { :; }

# The source with actions that print themselves, and a program around it; with a word it leaves the input open.
whole() {
  local name
  printf '%s\n' '#include <stdio.h>' 'static int said;' \
    'static void put(const char *kind, const char *name, long at) { printf("%s%s %s %ld", said++ ? ", " : "", kind, name, at); }' \
    'static void token(const char *name, long from, long to) { printf("%stoken %s %ld %ld", said++ ? ", " : "", name, from, to); }' \
    '%%{' 'machine m;'
  for name in A B C D; do printf 'action %s { put(p == eof ? "eof" : "do", "%s", (long)(p - data)); }\n' "$name" "$name"; done
  sed -E -e 's/=> ([A-D]);/=> { token("\1", (long)(ts - data), (long)(te - data)); };/g' \
    -e 's/action ([E-Z]) \{/action \1 { put(p == eof ? "eof" : "do", "\1", (long)(p - data));/g' "$work/run/source"
  printf '%s\n' 'write data;' '}%%' 'int main(int words, char **word) {' 'static char data[4096];' \
    'const char *p = data, *pe = data + fread(data, 1, sizeof data, stdin), *eof = words > 1 ? 0 : pe, *ts = 0, *te = 0;' \
    'int cs, act = 0, top = 0, stack[64];' '%% write init;' '%% write exec;' \
    'if (cs == m_error) put("stop", "error", (long)(p - data));' \
    'put(words > 1 ? "left" : "end", cs == m_error ? "error" : cs >= m_first_final ? "final" : "partial", (long)(p - data));' \
    'return 0;' '}'
}

make_it() {
  [ -z "$made" ] || return
  whole >"$work/run/o.rl"
  made=no
  (cd "$work/run" && ragel -T0 o.rl -o o.c && gcc -w o.c -o o) >"$work/out" 2>&1 && made=yes
}

is_run() {
  local want=$1 got open= text
  case $want in 'original '*) want=${want#original}; want=${want#"${want%%[! ]*}"} ;; *) return ;; esac
  make_it
  is_left "$want" && open=open
  printf -v text '%s' "${pieces[@]}"
  if [ "$made" = yes ]; then got=$(printf '%b' "$text" | timeout 10 "$work/run/o" $open); else got='no machine'; fi
  inputs=$((inputs + 1))
  [ "$got" = "$want" ] && return
  say "want '$want', got '$got' for \"$text\" of:"
  cat "$work/run/source"
  wrong=1
}

ragel --version 2>/dev/null | grep -q 'version 6\.10 ' || skip "another ragel than 6.10"
read_examples "$top/docs/LANGUAGE.md"
[ "$inputs" -gt 0 ] || { say "the page has no examples"; wrong=1; }
[ "$wrong" -eq 0 ] && say "the original has the lines of the page for $inputs inputs"
exit "$wrong"
