#!/usr/bin/env bash
# The examples of docs/LANGUAGE.md, against the program.
#
#   tests/language.sh
#
# In a block of the page that begins with ```refused a source stands above the line that the program prints for it; in one
# with ```run above inputs, each with the lines that it prints for them; in one with ```original too, where only the lines
# marked with `here` are looked at. An input is one piece or several, and is ended, unless its lines end with `left`. It runs the
# program on each source and wants exactly these lines. The status is 1 where a line is another, and 0 where none is or nothing
# could be run. RAGEL_RUN names another program than bin/ragel-run.
. "$(dirname "${BASH_SOURCE[0]}")/common.sh"
set_up
refused=0 inputs=0 wrong=0 header=

begins() {
  rm -rf "$work/run" && mkdir "$work/run" || exit 1
  # A source that is run has its machine and its actions in front of it, in a line of its own.
  [ "$1" = refused ] && header= || header='%%{ machine m; action A { } action B { } action C { } action D { }'
}

source_line() {
  [ -z "$header" ] || [ -f "$work/run/$1" ] || printf '%s\n' "$header" >"$work/run/$1"
  printf '%s\n' "$2" >>"$work/run/$1"
}

# Runs the source with the script t: its lines are then in `got`, joined, with the first line on the error output.
run_it() {
  (cd "$work/run" && exec "$program" "$1" t) </dev/null >"$work/out" 2>"$work/err"
  got=
  while IFS= read -r line; do got+="${got:+, }${line#s }"; done <"$work/out"
  first_line "$work/err"
  got+=${line/#whole.rl:/m.rl:}
}

compare() {
  [ "$got" = "$1" ] && return
  say "want '$1', got '$got', for:"
  cat "$work/run/m.rl"
  wrong=1
}

is_refused() {
  printf 'open s\nend s\n' >"$work/run/t"
  run_it m.rl
  refused=$((refused + 1))
  compare "$1"
}

is_run() {
  local want=$1 piece
  case $want in 'original '*) return ;; 'here '*) want=${want#here}; want=${want#"${want%%[! ]*}"} ;; esac
  { cat "$work/run/m.rl"; printf '}%%%%\n'; } >"$work/run/whole.rl"
  {
    printf 'open s\n'
    for piece in "${pieces[@]}"; do printf 'piece s "%s"\n' "$piece"; done
    is_left "$want" || printf 'end s\n'
  } >"$work/run/t"
  run_it whole.rl
  inputs=$((inputs + 1))
  compare "$want"
}

read_examples "$top/docs/LANGUAGE.md"
[ "$refused" -gt 0 ] && [ "$inputs" -gt 0 ] || { say "the page has no examples"; wrong=1; }
[ "$wrong" -eq 0 ] && say "$refused refused sources and $inputs inputs have the lines of the page"
exit "$wrong"
