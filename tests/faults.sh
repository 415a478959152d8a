#!/usr/bin/env bash
# The faults and limits that are told, against cases of an independent reading.
#
#   tests/faults.sh [GROUP ..]
#
# Of each group (02-source-faults, 03-names, 10-scanners, 11-sessions, 15-wide) it takes the cases that are to end with one of the
# faults F1 to F19 or of the limits L1 to L10, runs the program on each, and wants exactly the case's line on the error output,
# its status and its output. It says how many have their lines, and which of these faults and limits no case had; it names the
# cases that have not. The status is 1 where one has not, and 0 where all have or nothing could be run.
. "$(dirname "${BASH_SOURCE[0]}")/common.sh"
set_up
find_cases
told='F1 F2 F3 F4 F5 F6 F7 F8 F9 F10 F11 F12 F13 F14 F15 F16 F17 F18 F19 L1 L2 L3 L4 L5 L6 L7 L8 L9 L10'

# The number of the fault or limit that a line of the error output tells, `FILE:LINE:COL: NUMBER WORDS`.
number_of() {
  local rest=${1#*: }
  number=${rest%% *}
}

# Whether the fault or limit with this number is told.
is_told() { [[ " $told " = *" $1 "* ]]; }

[ $# -gt 0 ] || set -- 02-source-faults 03-names 10-scanners 11-sessions 15-wide
wrong=0 seen=' '
for group; do
  [ -d "$cases/$group" ] || { say "no group $group: skipped"; continue; }
  good=0 all=0
  for folder in "$cases/$group"/*/; do
    folder=${folder%/}
    is_case "$folder" || continue
    first_line "$folder/err"
    want=$line
    number_of "$want"
    is_told "$number" || continue
    run_case "$folder"
    first_line "$work/err"
    got=$line
    all=$((all + 1))
    seen+="$number "
    if is_right "$folder"; then
      good=$((good + 1))
    else
      say "$group/${folder##*/}: want '$want', got '$got' with status $status"
      wrong=1
    fi
  done
  say "$group: $good of $all have their line"
done
without=
for number in $told; do [[ $seen = *" $number "* ]] || without+=" $number"; done
[ -z "$without" ] || say "without a case:$without"
exit "$wrong"
