#!/usr/bin/env bash
# The printed files, compiled by C compilers.
#
#   tests/c.sh
#
# Each folder NAME of examples/c has the source NAME.rl of a whole program, its input and its output: ragel prints the C, gcc and clang
# compile it without a word, with plain char signed and unsigned, and the program prints the output where it reads the input in blocks of
# 1, 2, 3 and 4,096 bytes. The status is 1 where something else comes, and 0 where it does not or nothing could be run. RAGEL names
# another program than bin/ragel.
. "$(dirname "${BASH_SOURCE[0]}")/common.sh"
program=${RAGEL:-$top/bin/ragel}
[ -d "$top/crates/ragel" ] || skip "no ragel"
[ -x "$program" ] || skip "no program"
[ -n "${RAGEL:-}" ] || [ -x "$top/crates/ragel/out/ragel" ] || command -v rt >/dev/null 2>&1 || skip "no program, and no rt to build it"
make_room
compilers=()
for compiler in gcc clang; do command -v "$compiler" >/dev/null 2>&1 && compilers+=("$compiler"); done
[ ${#compilers[@]} -gt 0 ] || skip "no C compiler"
good=0 wrong=0
fails() { say "$*"; wrong=1; }

# Compiles a file without a word.
compile() {
  "$1" "$2" -o "$work/program" "$3" >"$work/said" 2>&1 && [ ! -s "$work/said" ] && return
  first_line "$work/said"
  fails "$1 $2 on ${3##*/}: $line"
  return 1
}

# Runs the compiled program of a folder on its input, block by block.
run_blocks() {
  local block
  for block in 1 2 3 4096; do
    if "$work/program" "$block" <"$1/input" >"$work/out" 2>&1 && cmp -s "$1/output" "$work/out"; then
      good=$((good + 1))
    else
      fails "$2 prints something else in blocks of $block"
    fi
  done
}

for folder in "$top"/examples/c/*/; do
  folder=${folder%/}
  name=${folder##*/}
  cp "$folder/$name.rl" "$work/" && (cd "$work" && "$program" "$name.rl") >"$work/out" 2>"$work/err" || { first_line "$work/err"; fails "$name: $line"; continue; }
  for compiler in "${compilers[@]}"; do
    for char in -fsigned-char -funsigned-char; do
      compile "$compiler" "$char" "$work/$name.c" && run_blocks "$folder" "$name"
    done
  done
done
say "$good runs of compiled examples print their output"
exit "$wrong"
