#!/usr/bin/env bash
# Sources and the files that are printed for them, run alike.
#
#   tests/pairs.sh [GROUP ..]
#
# For each case of an independent reading that runs a script on an accepted source of one machine, `write data` is added at the end of its last
# block where it has none; ragel prints the file, and ragel-run writes for its tables what the case has for the source. The status is 1 where it
# writes something else, and 0 where it does not or nothing could be run. RAGEL and RAGEL_RUN name other programs than those of bin/.
. "$(dirname "${BASH_SOURCE[0]}")/common.sh"
set_up
compiler=${RAGEL:-$top/bin/ragel}
[ -d "$top/crates/ragel" ] && [ -x "$compiler" ] || skip "no ragel"
find_cases
good=0 wrong=0 refused=0

# Whether a case runs a script on one source of one machine, and is accepted.
is_run() {
  is_case "$1" && [ "$(cat "$1/words")" = "$(printf 'm.rl\nt')" ] && [ -f "$1/m.rl" ] || return 1
  first_line "$1/status"
  [ "$line" = 0 ] && [ "$(grep -cE '(^|[^A-Za-z0-9_])machine[[:space:]]' "$1/m.rl")" = 1 ] && grep -q '}%%' "$1/m.rl"
}

# The source with `write data` at the end of its last block.
with_data() {
  if grep -qE 'write[[:space:]]+data' "$1"; then cat "$1"; return; fi
  awk '
    { line[NR] = $0; if (index($0, "}%%")) last = NR }
    END {
      for (i = 1; i <= NR; i++) {
        if (i == last) { match(line[i], /.*}%%/); line[i] = substr(line[i], 1, RLENGTH - 3) "\nwrite data;\n" substr(line[i], RLENGTH - 2) }
        print line[i]
      }
    }' "$1"
}

try_case() {
  rm -rf "$work/run" && mkdir "$work/run" && cp -R "$1"/* "$work/run/" && with_data "$1/m.rl" >"$work/run/m.rl"
  if ! (cd "$work/run" && "$compiler" -o m.c m.rl) >"$work/out" 2>"$work/err"; then
    refused=$((refused + 1))
    first_line "$work/err"
    [ "${VERBOSE:-}" ] && say "${1#"$cases"/}: not printed: $line"
    return
  fi
  (cd "$work/run" && exec "$program" m.c t) </dev/null >"$work/out" 2>"$work/err"
  if cmp -s "$1/out" "$work/out" && [ ! -s "$work/err" ]; then
    good=$((good + 1))
  else
    say "${1#"$cases"/} runs otherwise as a printed file"
    wrong=1
  fi
}

for folder in "$cases"/*/*/; do
  folder=${folder%/}
  group=${folder%/*} group=${group##*/}
  [ $# -eq 0 ] || [[ " $* " = *" $group "* ]] || continue
  is_run "$folder" && try_case "$folder"
done
say "$good sources run alike as printed files${refused:+, $refused are not printed so}"
exit "$wrong"
