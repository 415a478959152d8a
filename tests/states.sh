#!/usr/bin/env bash
# The numbers of states of random machines, beside those of the original, where it is installed; not run by the gate.
#
#   tests/states.sh [COUNT [SEED]]
#
# COUNT sources, 300 where nothing is said, from SEED on. RAGEL names another program than bin/ragel.
. "$(dirname "${BASH_SOURCE[0]}")/common.sh"
compiler=${RAGEL:-$top/bin/ragel}
for tool in python3 ragel; do command -v "$tool" >/dev/null 2>&1 || skip "no $tool"; done
[ -x "$compiler" ] || skip "no program"
exec python3 "$top/tests/states.py" "$compiler" "${1:-300}" "${2:-1}"
