# What the tests of this folder share; sourced by them.
# RAGEL_RUN names another program than bin/ragel-run, and CASES another folder of cases than the one beside the checkout.
set -u
top=$(cd "$(dirname "${BASH_SOURCE[0]}")/.." && pwd) || exit 1
program=${RAGEL_RUN:-$top/bin/ragel-run}
cases=${CASES:-$top/../shared/cases}
test_name=${0##*/}
test_name=${test_name%.sh}

say() { printf '%s: %s\n' "$test_name" "$*"; }
skip() { say "$*: skipped"; exit 0; }

# Skips all where a tool is missing, and else makes the folder `work`.
make_room() {
  local tool
  for tool in mktemp mkdir cp cmp rm "$@"; do command -v "$tool" >/dev/null 2>&1 || skip "no $tool"; done
  work=$(mktemp -d) || skip "no temporary folder"
  trap 'rm -rf "$work"' EXIT
}

# Skips all where the program or a tool is missing, and else makes the folder `work`.
set_up() {
  [ -x "$program" ] || skip "no program"
  [ -n "${RAGEL_RUN:-}" ] || [ -x "$top/crates/ragel_run/out/ragel_run" ] || command -v rt >/dev/null 2>&1 || skip "no program, and no rt to build it"
  make_room
}

# The first line of a file, in `line`.
first_line() {
  line=
  IFS= read -r line <"$1" || :
}

# ---- cases of an independent reading. A case is a folder GROUP/NAME: `words` are the words of the program, one a line; `out`,
# `err` and `status` are what it must give; the files that belong to no program (`c.words`, `m.c`, ..) aside, every other file
# is there when it runs.

# Finds the cases beside the checkout, or else lays out the fewer ones that tests/data has.
find_cases() {
  [ -d "$cases" ] && return
  command -v python3 >/dev/null 2>&1 || skip "no cases beside the checkout, and no python3 to lay out those of tests/data"
  say "no cases beside the checkout: those of tests/data are taken"
  cases=$work/cases
  python3 "$top/tests/unpack.py" "$cases" || skip "the cases of tests/data could not be laid out"
}

# Whether a folder is a case for this program.
is_case() { [ -f "$1/words" ] && [ -f "$1/out" ] && [ -f "$1/err" ] && [ -f "$1/status" ]; }

# Runs a case in a folder of its own: its output is then in out and err of `work`, and its status in `status`.
run_case() {
  local file word
  words=()
  while IFS= read -r word || [ -n "$word" ]; do words+=("$word"); done <"$1/words"
  rm -rf "$work/run" && mkdir "$work/run" || exit 1
  for file in "$1"/*; do
    case ${file##*/} in words | out | err | status | c.words | c.out | c.err | c.status | m.c | in | why) ;; *) cp -R "$file" "$work/run/" || exit 1 ;; esac
  done
  local input=/dev/null
  [ -f "$1/stdin" ] && input=$1/stdin
  (cd "$work/run" && exec "$program" ${words[@]+"${words[@]}"}) <"$input" >"$work/out" 2>"$work/err"
  status=$?
}

# Whether the case that was run gave exactly what it must.
is_right() {
  first_line "$1/status"
  [ "$status" = "$line" ] && cmp -s "$1/err" "$work/err" && cmp -s "$1/out" "$work/out"
}

# ---- examples of the page of the language

# Whether the lines of an input end with that of a session that is not ended.
is_left() { [[ ", $1" = *', left '* ]]; }

# Reads the examples of a page. It calls
#   begins KIND            where a source begins, of a block ```refused, ```run or ```original
#   source_line NAME TEXT  for each line of the file NAME of the source
#   is_refused LINE        for the line that is printed for a refused source, which ends it
#   is_run LINES           for an input of a source that is run: its pieces are in `pieces`, and LINES are printed for it
read_examples() {
  local text kind= target=m.rl
  local piece='^"(([^"\\]|\\.)*)" +(.*)$'
  while IFS= read -r text; do
    case $kind in
      '')
        case $text in
          '```refused' | '```run' | '```original') kind=${text#'```'} target=m.rl; begins "$kind" ;;
        esac
        ;;
      *)
        if [ "$text" = '```' ]; then
          kind=
        elif [ "$kind" = refused ] && [[ $text =~ ^[a-z0-9]+\.rl:([0-9]+:[0-9]+:\ [FL][0-9]+\ |\ missing$) ]]; then
          is_refused "$text"
          target=m.rl
          begins "$kind"
        elif [ "$kind" = refused ] && [[ $text =~ ^---\ ([a-z0-9]+\.rl)$ ]]; then
          target=${BASH_REMATCH[1]}
        elif [ "$kind" != refused ] && [[ $text =~ $piece ]]; then
          pieces=()
          while [[ $text =~ $piece ]]; do pieces+=("${BASH_REMATCH[1]}") text=${BASH_REMATCH[3]}; done
          is_run "$text"
        else
          source_line "$target" "$text"
        fi
        ;;
    esac
  done <"$1"
}
