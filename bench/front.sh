#!/usr/bin/env bash
# Times the front end: parts, tokens, syntax and names of a source of ordinary statements.
#
#   bench/front.sh [BYTES]
#
# The source has BYTES bytes, or the 4,194,304 that a source file may have at most. It stands in a temporary folder, which
# is removed. It has no entry and is refused with F18, which is told only behind the names and the keys of the whole file,
# so the seconds are those of reading the file, its parts, its tokens, its trees, its names and its keys. RAGEL_RUN names
# another program than bin/ragel-run, and RUNS how often it is run (3): the least time counts.
set -u
top=$(cd "$(dirname "$0")/.." && pwd) || exit 1
program=${RAGEL_RUN:-$top/bin/ragel-run}
bytes=${1:-4194304}
runs=${RUNS:-3}
case $bytes in '' | *[!0-9]*) echo "bench: BYTES is a number" >&2; exit 2 ;; esac
[ "$bytes" -ge 1024 ] || { echo "bench: at least 1024 bytes" >&2; exit 2; }
[ -x "$program" ] || { echo "bench: no program $program" >&2; exit 1; }

work=$(mktemp -d) || exit 1
trap 'rm -rf "$work"' EXIT
cd "$work" || exit 1

# The statements with this number: an action, a comment, literals, sets, ranges, operators and embeddings.
statements() {
  printf -v text '%s\n' \
    "action a$1 { if ( n > $1 ) { count += n; } /* word $1 */ }" \
    "# the words of group $1" \
    "w$1 = \"group $1\\n\" . [a-z0-9_]+ ( ' ' | '\\t' )* ;" \
    "x$1 = ( w$1 >a$1 | digit+ ){1,3} %a$1 @(order,$1) ;" \
    "y$1 = ( 0x41..'z' - 'q' ) & !x$1 :>> /[a-f]*x/i ;"
}

# All statements, and a comment that fills the file up to the end of the block.
source_text() {
  local left=$((bytes - 4)) i=0 text=$'%%{\nmachine m;\n'
  while [ $((left - ${#text})) -gt 512 ]; do
    printf '%s' "$text"
    left=$((left - ${#text}))
    i=$((i + 1))
    statements "$i"
  done
  printf '#%*s\n}%%%%\n' $((left - 2)) ''
}

LC_ALL=C source_text >m.rl
printf 'open s\nend s\n' >t
size=$(wc -c <m.rl)
[ "$size" -eq "$bytes" ] || { echo "bench: the source has $size bytes" >&2; exit 1; }

# Once without the clock: the program may have to be built.
told=$("$program" m.rl t 2>&1)
case $told in
  *': F18 no instance') ;;
  *) echo "bench: not refused with F18: $told" >&2; exit 1 ;;
esac

TIMEFORMAT=%R
least=
for ((run = 0; run < runs; run++)); do
  seconds=$({ time "$program" m.rl t >/dev/null 2>&1; } 2>&1)
  echo "bench: $bytes bytes, $seconds s"
  if [ -z "$least" ] || [ "${seconds/./}" -lt "${least/./}" ] 2>/dev/null; then least=$seconds; fi
done
echo "bench: least $least s, $told"
