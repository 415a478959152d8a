#!/usr/bin/env bash
# Rows on conditions, control statements and scanners that are too long for a page, against the program.
#
#   tests/control.sh
#
# Eight conditions make too many cells; a character that is given back again and again stops the session, and so does a call
# too many, and a token that does not end. The status is 1 where the program prints something else, and 0 where it does not or
# nothing could be run. RAGEL_RUN names another program than bin/ragel-run.
. "$(dirname "${BASH_SOURCE[0]}")/common.sh"
set_up
wrong=0 good=0

# Runs a source on one piece, and compares its status, its output and its line on the error output with what is wanted.
row() {
  local name=$1 source=$2 piece=$3 want_status=$4 want_err=$5
  rm -rf "$work/run" && mkdir "$work/run" || exit 1
  printf '%s\n' "$source" >"$work/run/m.rl"
  printf 'open s\npiece s "%s"\nend s\n' "$piece" >"$work/run/t"
  (cd "$work/run" && exec "$program" m.rl t) </dev/null >"$work/out" 2>"$work/err"
  status=$?
  first_line "$work/err"
  if [ "$status" = "$want_status" ] && [ "$line" = "$want_err" ] && cmp -s "$work/want" "$work/out"; then
    good=$((good + 1))
  else
    say "$name: status $status, '$line', or another output"
    wrong=1
  fi
}

: >"$work/want"
row 'eight conditions' "%%{ machine m; main := ( any* 'a' any{13} ) when { a } when { b } when { c } when { d } when { e } when { f } when { g } when { h }; }%%" a 3 'm.rl:1:24: L8 cells'

for ((i = 0; i < 65536; i++)); do printf 's do spin 0 hold goto main\n'; done >"$work/want"
printf 's stop stuck 1\ns end error 1\n' >>"$work/want"
row 'back for good' "%%{ machine m; action spin { fhold; fgoto main; } main := 'a' @spin; }%%" a 0 ''

for ((i = 0; i < 65; i++)); do printf 's do deep %d call main\n' "$i"; done >"$work/want"
printf 's stop stack-full 65\ns end error 65\n' >>"$work/want"
row 'a call too many' "%%{ machine m; action deep { fcall main; } main := 'c' @deep; }%%" "$(printf 'c%.0s' {1..66})" 0 ''

printf 's do back 0 ret\ns stop stack-empty 1\ns end error 1\n' >"$work/want"
row 'nothing to return to' "%%{ machine m; action back { fret; } main := 'r' @back; }%%" r 0 ''

printf 's do jump 0 exec 5\ns stop past-end 5\ns end error 5\n' >"$work/want"
row 'past the end' "%%{ machine m; action jump { fexec p + 5; } main := any* \$jump; }%%" a 0 ''

letters=$(printf 'a%.0s' {1..65535})
printf 's token word 65535 0 65535\ns end final 65536\n' >"$work/want"
row 'a token as long as may be' "%%{ machine m; action word { } main := |* [a-z]+ => word; ' '; *|; }%%" "$letters " 0 ''

printf 's stop overlong 65536\ns end error 65536\n' >"$work/want"
row 'a token too long' "%%{ machine m; action word { } main := |* [a-z]+ => word; ' '; *|; }%%" "${letters}aa" 0 ''
row 'a token that may still be longer' "%%{ machine m; action word { } main := |* [a-z]+ => word; ' '; *|; }%%" "${letters}a " 0 ''

printf 's end partial 0\n' >"$work/want"
row 'a pattern with the empty word, in a machine that does not run' \
  "%%{ machine m; main := 'a'; machine n; main := |* ''; *|; }%%" '' 0 ''

say "$good rows come as they are to"
exit "$wrong"
