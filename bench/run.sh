#!/usr/bin/env bash
# All benches, one after another; each prints its own table. Nothing else should run beside them.
#
# Usage: bench/run.sh [PROGRAM]     crates/flow/out/flow where it is not given
#
# Ends with 1 where one of them found what should not be. turns.sh and planted.py build programs of their own and take
# some minutes.
set -u
cd "$(dirname "$0")" || exit
program=$(realpath "${1:-../crates/flow/out/flow}")
status=0
echo "== documents"
./documents.py "$program" || status=1
echo "== model"
./model.py "$program" || status=1
for bench in worst folded sessions traces audits duties large hostile; do
    echo "== $bench"
    "./$bench.py" "$program" || status=1
done
for bench in words.py turns.sh planted.py; do
    echo "== ${bench%.*}"
    "./$bench" || status=1
done
exit $status
