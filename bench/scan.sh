#!/usr/bin/env bash
# Times scanners, beside what the original makes of the same source where it is installed.
#
#   bench/scan.sh [tokens | keywords] ..
#
# tokens    3,145,728 characters of words, numbers and blanks, an action on each, as pieces of 4,096 characters; the original's
#           tables (`ragel -T0`, gcc -O2) read the same text and print the same lines
# keywords  a lexer of 200 keywords and names, on a text of three tokens; beside the time that `ragel -T0` takes to compile it
#
# Without a word it times both. A line has the seconds, the most memory that the program had where GNU time is there, and then
# the original's seconds and how many times as long this program took. All files stand in a temporary folder, which is removed.
# RAGEL_RUN names another program than bin/ragel-run, RUNS how often each is run (3; the least time counts), BYTES how many
# characters are scanned. The status is 1 where the program did not print what it must.
set -u
top=$(cd "$(dirname "$0")/.." && pwd) || exit 1
program=${RAGEL_RUN:-$top/bin/ragel-run}
runs=${RUNS:-3}
bytes=${BYTES:-3145728}
for number in "$runs" "$bytes"; do
  case $number in '' | 0 | *[!0-9]*) echo "bench: RUNS and BYTES are numbers" >&2; exit 2 ;; esac
done
[ -x "$program" ] || { echo "bench: no program $program" >&2; exit 1; }
case $program in /*) ;; *) program=$PWD/$program ;; esac
[ $# -gt 0 ] || set -- tokens keywords
for what; do
  case $what in tokens | keywords) ;; *) echo "bench: tokens or keywords" >&2; exit 2 ;; esac
done

work=$(mktemp -d) || exit 1
trap 'rm -rf "$work"' EXIT
cd "$work" || exit 1
wrong=0
original=no
command -v ragel >/dev/null 2>&1 && command -v gcc >/dev/null 2>&1 && original=yes
memory=()
[ -x /usr/bin/time ] && memory=(/usr/bin/time -q -f %M -o memory)
TIMEFORMAT=%R

# The least time of a command in thousandths of a second, in `least`, and its memory in MiB in `most`; its output is in the file out.
measure() {
  local seconds thousandths kilobytes=
  least=
  for ((run = 0; run < runs; run++)); do
    seconds=$({ time ${memory[@]+"${memory[@]}"} "$@" <input >out 2>err; } 2>&1)
    seconds=${seconds##*$'\n'}
    thousandths=$((10#${seconds/./}))
    if [ -z "$least" ] || [ "$thousandths" -lt "$least" ]; then least=$thousandths; fi
  done
  most=
  [ -f memory ] && IFS= read -r kilobytes <memory && most=", $((kilobytes / 1024)) MiB"
}

seconds_of() { printf '%d.%03d' $(($1 / 1000)) $(($1 % 1000)); }

# A line for a name, with this program's thousandths and memory, and the original's thousandths or none.
tell() {
  local beside=', no original'
  if [ -n "$4" ]; then
    [ "$4" -gt 0 ] || set -- "$1" "$2" "$3" 1
    beside=", the original $(seconds_of "$4") s: $(($2 * 10 / $4 / 10)).$(($2 * 10 / $4 % 10)) times as long"
  fi
  printf 'bench: %-26s %s s%s%s\n' "$1" "$(seconds_of "$2")" "$3" "$beside"
}

# Words of one to eight letters and numbers of one to six digits, a blank behind each, cut at `bytes`: the same each time.
text() {
  awk -v bytes="$bytes" '
    function next_one(n) { seed = (seed * 16807) % 2147483647; return int(seed / 64) % n }
    BEGIN {
      seed = 1
      while (made < bytes) {
        one = ""
        if (next_one(4)) { for (left = 1 + next_one(8); left > 0; left--) one = one substr("abcdefghijklmnopqrstuvwxyz", 1 + next_one(26), 1) }
        else { for (left = 1 + next_one(6); left > 0; left--) one = one next_one(10) }
        one = substr(one " ", 1, bytes - made)
        made += length(one)
        printf "%s", one
      }
    }'
}

# The scanner, with the code of its three actions.
scanner() {
  printf '%s\n' '%%{' 'machine m;' "action word { $1 }" "action number { $2 }" "action blank { $3 }" \
    "main := |* [a-z]+ => word; [0-9]+ => number; ' '+ => blank; *|;" 'write data;' '}%%'
}

# A program around the original's tables, which prints the lines that are printed here.
original_program() {
  printf '%s\n' '#include <stdio.h>' '#include <stdlib.h>' \
    '#define SAY(name) printf("s token " name " %ld %ld %ld\n", (long)(te - data), (long)(ts - data), (long)(te - data));'
  scanner 'SAY("word")' 'SAY("number")' 'SAY("blank")'
  printf '%s\n' 'int main(void) {' "char *data = malloc($bytes);" \
    "const char *p = data, *pe = data + fread(data, 1, $bytes, stdin), *eof = pe, *ts = 0, *te = 0;" 'int cs, act = 0;' \
    '%% write init;' '%% write exec;' 'printf("s end final %ld\n", (long)(p - data));' 'return 0;' '}'
}

tokens() {
  local here memory_here there=
  scanner '' '' '' >m.rl
  text >input
  { printf 'open s\n'; fold -b -w 4096 input | sed -e '$a\' | sed -e 's/.*/piece s "&"/'; printf 'end s\n'; } >t
  measure "$program" m.rl t
  here=$least memory_here=$most
  if [ "$(tail -n 1 out)" != "s end final $bytes" ]; then
    echo "bench: tokens: 's end final $bytes' is not the last line: $(head -n 1 err)"
    wrong=1
    return
  fi
  mv out lines
  if [ "$original" = yes ]; then
    original_program >o.rl
    ragel -T0 o.rl -o o.c && gcc -w -O2 o.c -o o || { echo 'bench: the original made no program'; wrong=1; return; }
    measure ./o
    there=$least
    cmp -s lines out || { echo 'bench: tokens: the original prints other lines'; wrong=1; }
  fi
  tell "$bytes characters" "$here" "$memory_here" "$there"
}

# 200 words of four to nine letters, each once.
make_words() {
  local seed=1 word i length
  local -A seen=()
  words=()
  while [ ${#words[@]} -lt 200 ]; do
    seed=$(((seed * 1103515245 + 12345) % 2147483648))
    length=$((4 + seed / 65536 % 6))
    word=
    for ((i = 0; i < length; i++)); do
      seed=$(((seed * 1103515245 + 12345) % 2147483648))
      word+=${letters:$((seed / 65536 % 26)):1}
    done
    [ -z "${seen[$word]:-}" ] || continue
    seen[$word]=yes
    words+=("$word")
  done
}

keywords() {
  local word here memory_here there=
  make_words
  {
    printf '%s\n' '%%{' 'machine m;' 'action keyword { }' 'action name { }' 'main := |*'
    for word in "${words[@]}"; do printf "  '%s' => keyword;\n" "$word"; done
    printf '%s\n' '  [a-z]+ => name;' "  ' ';" '*|;' 'write data;' '}%%'
  } >m.rl
  word=${words[100]}
  printf 'open s\npiece s "%s %sx"\nend s\n' "$word" "$word" >t
  : >input
  measure "$program" m.rl t
  here=$least memory_here=$most
  printf 's token keyword %d 0 %d\ns token name %d %d %d\ns end final %d\n' ${#word} ${#word} \
    $((2 * ${#word} + 2)) $((${#word} + 1)) $((2 * ${#word} + 2)) $((2 * ${#word} + 2)) >want
  cmp -s want out || { echo "bench: keywords: other lines: $(head -n 1 err)"; wrong=1; return; }
  if [ "$original" = yes ]; then
    measure ragel -T0 m.rl -o m.c
    there=$least
  fi
  tell '200 keywords' "$here" "$memory_here" "$there"
}

letters=abcdefghijklmnopqrstuvwxyz

# Once without the clock: the program may have to be built.
printf "%%%%{ machine m; main := 'a'; }%%%%\n" >m.rl
printf 'open s\nend s\n' >t
"$program" m.rl t >out 2>&1
for what; do "$what"; done
exit "$wrong"
