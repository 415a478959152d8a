#!/usr/bin/env bash
# Mutated sources, scripts and printed files.
#
#   tests/fuzz.sh [SEED [COUNT [SECONDS]]]
#
# Takes the cases of an independent reading, changes bytes, words and lines of one of their files by the numbers that follow from SEED (1 where
# none is given), and runs the program on COUNT of them (200), for at most SECONDS (60), each with ten seconds, 1 GiB of memory and a stack
# of 1 MiB. A crash, a hang, a status above 7, want of memory, and an error output that is not one line behind a status that is not 0, or that is
# there behind a 0, are failures: each is told with the seed that makes it again. The status is 1 where there is one. RAGEL_RUN names another
# program than bin/ragel-run.
. "$(dirname "${BASH_SOURCE[0]}")/common.sh"
set_up
command -v python3 >/dev/null 2>&1 || skip "no python3"
find_cases
exec python3 "$top/tests/fuzz.py" "$program" "$cases" "${1:-1}" "${2:-200}" "${3:-60}"
