#!/usr/bin/env bash
# All tests: what `rt ci` proves and runs, then the rows in tests/ over the programs that it built. `rt ci`'s closing line
# is the last line, and the status is 0 if both passed.
set -uo pipefail
cd "$(dirname "$0")"
told=$(mktemp)
trap 'rm -f "$told"' EXIT
rt ci 2>&1 | tee "$told"
proved=$?
python3 tests/run.py
rows=$?
tail -n 1 "$told"
[ $proved -eq 0 ] && [ $rows -eq 0 ]
