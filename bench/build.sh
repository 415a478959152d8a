#!/usr/bin/env bash
# Times the building of machines: a source is read, its machine built, and a short input run.
#
#   bench/build.sh [any | chain | words | alphabets] ..
#
# any     `main := any* 'a' any{n};` for n = 4 to 13, whose machine has 2 to the n + 1 configurations
# chain   a word of 10,000 characters, as 100 literals of 100 characters one behind another
# words   250, 500 and 1,000 words, a literal each, joined by `|`, with a finishing action on each or on all of them
# alphabets  one source under `char` and under `unsigned int`: 300 sets by `^`, `any` and ranges in a row, and `any* 'a' any{12}`
#
# Without a word it times all four. A line has the seconds, the configurations, the seconds for each of them and, where GNU
# time is there, the most memory that the program had. The sources stand in a temporary folder, which is removed. RAGEL_RUN
# names another program than bin/ragel-run, RUNS how often each is run (1; the least time counts), MOST the greatest n (13),
# and LIMIT the seconds after which a run is given up (600). The status is 1 where a run did not print what it must.
set -u
top=$(cd "$(dirname "$0")/.." && pwd) || exit 1
program=${RAGEL_RUN:-$top/bin/ragel-run}
runs=${RUNS:-1}
most=${MOST:-13}
limit=${LIMIT:-600}
for number in "$runs" "$most" "$limit"; do
  case $number in '' | *[!0-9]*) echo "bench: RUNS, MOST and LIMIT are numbers" >&2; exit 2 ;; esac
done
[ -x "$program" ] || { echo "bench: no program $program" >&2; exit 1; }
case $program in /*) ;; *) program=$PWD/$program ;; esac
[ $# -gt 0 ] || set -- any chain words alphabets
for what; do
  case $what in any | chain | words | alphabets) ;; *) echo "bench: any, chain, words or alphabets" >&2; exit 2 ;; esac
done

work=$(mktemp -d) || exit 1
trap 'rm -rf "$work"' EXIT
cd "$work" || exit 1
before=() wrong=0
command -v timeout >/dev/null 2>&1 && before=(timeout "$limit")
memory=()
[ -x /usr/bin/time ] && memory=(/usr/bin/time -q -f %M -o memory)
TIMEFORMAT=%R

# Runs m.rl and t. A line with the least time for so many configurations; the last line of the output must be the third word.
measure() {
  local name=$1 configurations=$2 want=$3 least= seconds thousandths line last= each kilobytes=
  for ((run = 0; run < runs; run++)); do
    seconds=$({ time ${memory[@]+"${memory[@]}"} ${before[@]+"${before[@]}"} "$program" m.rl t >out 2>err; } 2>&1)
    seconds=${seconds##*$'\n'}
    thousandths=$((10#${seconds/./}))
    if [ -z "$least" ] || [ "$thousandths" -lt "$least" ]; then least=$thousandths; fi
  done
  while IFS= read -r line; do last=$line; done <out
  if [ "$last" != "$want" ]; then
    if [ "$thousandths" -ge $((limit * 1000)) ]; then line="given up after $limit s"; else IFS= read -r line <err || line='no line'; fi
    echo "bench: $name: '$want' is not its last line: $line"
    wrong=1
    return
  fi
  [ -f memory ] && IFS= read -r kilobytes <memory
  # in thousand-millionths of a second
  each=$((least * 1000000 / configurations))
  printf 'bench: %-26s %4d.%03d s, %6d configurations, %d.%09d s each%s\n' "$name" $((least / 1000)) $((least % 1000)) \
    "$configurations" $((each / 1000000000)) $((each % 1000000000)) "${kilobytes:+, $((kilobytes / 1024)) MiB}"
}

script() { printf 'open s\npiece s "%s"\nend s\n' "$1" >t; }

any() {
  local n configurations=32 text=xxxx
  for ((n = 4; n <= most; n++)); do
    printf "%%%%{ machine m; main := any* 'a' any{%d}; }%%%%\n" "$n" >m.rl
    script "a$text"
    measure "any* 'a' any{$n}" "$configurations" "s end final $((n + 1))"
    configurations=$((configurations * 2))
    text+=x
  done
}

chain() {
  local i j word all=
  {
    printf '%%%%{\nmachine m;\nmain :=\n'
    for ((i = 0; i < 100; i++)); do
      word=
      for ((j = 0; j < 20; j++)); do word+=${letters:$(((i * 7 + j * 3) % 22)):5}; done
      printf "  '%s'\n" "$word"
      all+=$word
    done
    printf ';\n}%%%%\n'
  } >m.rl
  script "$all"
  measure 'a chain' 10001 's end final 10000'
}

# The first words of a list that is the same each time, in `words`: of 4 to 8 letters each, no one a beginning of another.
make_words() {
  local count=$1 seed=1 word i length
  local -A seen=()
  words=()
  while [ ${#words[@]} -lt "$count" ]; do
    seed=$(((seed * 1103515245 + 12345) % 2147483648))
    length=$((3 + seed / 65536 % 5))
    word=
    for ((i = 0; i < length; i++)); do
      seed=$(((seed * 1103515245 + 12345) % 2147483648))
      word+=${letters:$((seed / 65536 % 26)):1}
    done
    [ -z "${seen[$word]:-}" ] || continue
    seen[$word]=yes
    # A sign that stands in no word ends each of them.
    words+=("$word;")
  done
}

# How many beginnings these words have, the empty one included, in `configurations`: one for each configuration.
count_beginnings() {
  local word i
  local -A seen=()
  configurations=1
  for word in "${words[@]}"; do
    for ((i = 1; i <= ${#word}; i++)); do
      [ -z "${seen[${word:0:i}]:-}" ] || continue
      seen[${word:0:i}]=yes
      configurations=$((configurations + 1))
    done
  done
}

alternatives() {
  local how word sign=' '
  for how in each all; do
    {
      printf '%%%%{\nmachine m;\naction f { }\nmain := (\n'
      sign=' '
      for word in "${words[@]}"; do
        if [ "$how" = each ]; then printf "  %s '%s' @f\n" "$sign" "$word"; else printf "  %s '%s'\n" "$sign" "$word"; fi
        sign='|'
      done
      if [ "$how" = each ]; then printf ');\n}%%%%\n'; else printf ') @f;\n}%%%%\n'; fi
    } >m.rl
    word=${words[${#words[@]} / 2]}
    script "$word"
    measure "${#words[@]} words, @f on $how" "$configurations" "s end final ${#word}"
  done
}

words() {
  local count
  for count in 250 500 1000; do
    make_words "$count"
    count_beginnings
    alternatives
  done
}

# The characters of a text in an alphabet of so many bytes each, the low byte first, as a script has them.
wide() {
  local text=$1 width=$2 i zeros=
  for ((i = 1; i < width; i++)); do zeros+='\x00'; done
  for ((i = 0; i < ${#text}; i++)); do printf '%s%s' "${text:i:1}" "$zeros"; done
}

alphabets() {
  local alphabet width i text=
  for ((i = 0; i < 300; i++)); do text+=${letters:$((i % 20 + 3)):1}; done
  for alphabet in char 'unsigned int'; do
    width=1
    [ "$alphabet" = char ] || width=4
    {
      printf '%%%%{\nmachine m;\nalphtype %s;\nmain :=\n' "$alphabet"
      for ((i = 0; i < 300; i++)); do printf "  ( [^a%s] & any - ( 'a'..'b' | [^!-~] ) )\n" "${letters:$((i % 20 + 4)):1}"; done
      printf ';\n}%%%%\n'
    } >m.rl
    script "$(wide "$text" "$width")"
    measure "300 sets, $alphabet" 301 's end final 300'
    printf "%%%%{ machine m; alphtype %s; main := any* 'a' any{12}; }%%%%\n" "$alphabet" >m.rl
    script "$(wide axxxxxxxxxxxx "$width")"
    measure "any* 'a' any{12}, $alphabet" 8192 's end final 13'
  done
}

letters=abcdefghijklmnopqrstuvwxyz

# Once without the clock: the program may have to be built.
printf "%%%%{ machine m; main := 'a'; }%%%%\n" >m.rl
script a
"$program" m.rl t >out 2>&1
for what; do "$what"; done
exit "$wrong"
