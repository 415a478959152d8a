#!/usr/bin/env bash
# Printed files, against an independent reading.
#
#   tests/printed.sh
#
# Each case with words for ragel has to give exactly its printed file, its output, its line on the error output and its status; cases that ask for
# certificates, which are not printed yet, are left out. Where there is gcc, it compiles the sections of each printed file without a word; the rest of
# these files is no C. The status is 1 where a case gives something else, and 0 where none does or nothing could be run. RAGEL names another program
# than bin/ragel.
. "$(dirname "${BASH_SOURCE[0]}")/common.sh"
program=${RAGEL:-$top/bin/ragel}
[ -d "$top/crates/ragel" ] && [ -x "$program" ] || skip "no ragel"
[ -n "${RAGEL:-}" ] || [ -x "$top/crates/ragel/out/ragel" ] || command -v rt >/dev/null 2>&1 || skip "no program, and no rt to build it"
make_room awk
find_cases
good=0 left=0 compiled=0 wrong=0

# Whether a case has words for ragel and all that they must give.
is_printing() { [ -f "$1/c.words" ] && [ -f "$1/c.out" ] && [ -f "$1/c.err" ] && [ -f "$1/c.status" ]; }

# Runs the words of a case for ragel in a folder of its own.
run_printing() {
  local file word
  words=()
  while IFS= read -r word || [ -n "$word" ]; do words+=("$word"); done <"$1/c.words"
  rm -rf "$work/run" && mkdir "$work/run" || exit 1
  for file in "$1"/*; do
    case ${file##*/} in words | out | err | status | c.words | c.out | c.err | c.status | m.c | in | why) ;; *) cp -R "$file" "$work/run/" || exit 1 ;; esac
  done
  (cd "$work/run" && exec "$program" ${words[@]+"${words[@]}"}) </dev/null >"$work/out" 2>"$work/err"
  status=$?
}

# Whether it gave exactly what it must, the printed file included.
is_printed() {
  first_line "$1/c.status"
  [ "$status" = "$line" ] && cmp -s "$1/c.err" "$work/err" && cmp -s "$1/c.out" "$work/out" || return 1
  if [ -f "$1/m.c" ]; then cmp -s "$1/m.c" "$work/run/m.c"; else [ ! -f "$work/run/m.c" ]; fi
}

# The sections of a printed file, compiled without a word.
compile_sections() {
  [ -f "$work/run/m.c" ] && command -v gcc >/dev/null 2>&1 || return
  awk '/^\/\* rl-data / { inside = 1 } inside { print } /^\/\* rl-end / { inside = 0 }' "$work/run/m.c" >"$work/section.c"
  if gcc -c -o "$work/section.o" "$work/section.c" >"$work/said" 2>&1 && [ ! -s "$work/said" ]; then
    compiled=$((compiled + 1))
  else
    say "${1#"$cases"/}: gcc does not take the sections"
    wrong=1
  fi
}

for folder in "$cases"/*/*/; do
  folder=${folder%/}
  is_printing "$folder" || continue
  if grep -qx -e '--certify' "$folder/c.words"; then left=$((left + 1)); continue; fi
  run_printing "$folder"
  if is_printed "$folder"; then
    good=$((good + 1))
    compile_sections "$folder"
  else
    say "${folder#"$cases"/} is printed otherwise, status $status"
    wrong=1
  fi
done
say "$good cases give their printed file, $left ask for certificates; gcc takes the sections of $compiled files"
exit "$wrong"
