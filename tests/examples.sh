#!/usr/bin/env bash
# The folders of examples/, against the program.
#
#   tests/examples.sh
#
# A folder NAME has the source NAME.rl or the printed file NAME.c, the script NAME.script and, in `expected`, what the program
# prints for them. It prints the same where each piece of the script is cut into single bytes. The status is 1 where it prints
# something else, and 0 where it does not or nothing could be run. RAGEL_RUN names another program than bin/ragel-run.
. "$(dirname "${BASH_SOURCE[0]}")/common.sh"
set_up
good=0 wrong=0

# A script, with a piece for each byte of its pieces.
in_bytes() {
  local text head rest
  local piece='^(piece [^ ]+ )"(.*)"$' byte='^(\\x[0-9A-Fa-f]{2}|\\.|.)(.*)$'
  while IFS= read -r text || [ -n "$text" ]; do
    if [[ $text =~ $piece ]]; then
      head=${BASH_REMATCH[1]} rest=${BASH_REMATCH[2]}
      while [[ $rest =~ $byte ]]; do
        printf '%s"%s"\n' "$head" "${BASH_REMATCH[1]}"
        rest=${BASH_REMATCH[2]}
      done
    else
      printf '%s\n' "$text"
    fi
  done
}

# Runs the source of a folder with a script, and compares.
compare() {
  (cd "$top" && exec "$program" "$1" "$2") </dev/null >"$work/out" 2>"$work/err"
  if cmp -s "$folder/expected" "$work/out" && [ ! -s "$work/err" ]; then
    good=$((good + 1))
  else
    first_line "$work/err"
    say "$name prints other lines$3${line:+: $line}"
    wrong=1
  fi
}

for folder in "$top"/examples/*/; do
  name=${folder%/}
  name=${name##*/}
  [ -f "$folder/$name.script" ] || continue
  file=examples/$name/$name.rl
  [ -f "$top/$file" ] || file=examples/$name/$name.c
  compare "$file" "examples/$name/$name.script" ''
  LC_ALL=C in_bytes <"$folder/$name.script" >"$work/bytes.script"
  compare "$file" "$work/bytes.script" ' for single bytes'
done
say "$good runs of examples print their lines"
exit "$wrong"
