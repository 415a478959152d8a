#!/usr/bin/env bash
# The cases of an independent reading, against the program.
#
#   tests/cases.sh [GROUP ..]
#
# Every case of the groups of sources, of printed files, of words and of alphabets (`whole`, below), or of those that are named, has to
# give exactly its status, its output and its line on the error output. The groups are run by check.py of the cases where it is
# there. The status is 1 where a case gives something else or check.py fails, and 0 where none does or nothing could be run.
. "$(dirname "${BASH_SOURCE[0]}")/common.sh"
set_up
find_cases
wrong=0

run_group() {
  local folder good=0 all=0
  for folder in "$cases/$1"/*/; do
    folder=${folder%/}
    is_case "$folder" || continue
    all=$((all + 1))
    run_case "$folder"
    if is_right "$folder"; then
      good=$((good + 1))
    else
      first_line "$work/err"
      [ -n "$line" ] || first_line "$work/out"
      say "$1/${folder##*/}: wrong, status $status, '$line'"
      wrong=1
    fi
  done
  say "$1: $good of $all are good"
}

whole=(01-one-literal 01-several-literals 02-source-faults 03-names 04-operators 05-actions 06-priorities 07-state-actions
  08-conditions 09-control 10-scanners 11-sessions 12-printed-2 13-sections 13-sections-2 14-words-2 15-wide
  16-made-and-input)
[ $# -gt 0 ] || set -- "${whole[@]}"
there=()
for group; do
  if [ -d "$cases/$group" ]; then there+=("$group"); else say "no group $group: skipped"; fi
done
[ ${#there[@]} -gt 0 ] || exit 0
if command -v python3 >/dev/null 2>&1 && [ -f "$cases/check.py" ]; then
  python3 "$cases/check.py" --run "$program" "${there[@]}" || wrong=1
else
  for group in "${there[@]}"; do run_group "$group"; done
fi
exit "$wrong"
