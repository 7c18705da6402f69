#!/usr/bin/env bash
# Turns a second at the lock of flow_turn and at std's Mutex, by one, two and four threads. In a turn one entry is added
# to a list that was reserved beforehand. Each figure is that of the middle of five runs, and the runs of the two go by
# turns. '% over' says of how many turns in a hundred another thread had the one before: few mean that the threads
# hardly met. The ratio is that of the turns a second, the lock of flow_turn by the Mutex.
#
# Usage: bench/turns.sh [TURNS [THREADS ..]]   TURNS of each thread in each run (300,000), and the numbers of threads (1 2 4)
#
# The program is bench/turns/main.txt. It is proved and built in a temporary folder, over the crates of this repository.
set -euo pipefail
top=$(cd "$(dirname "$0")/.." && pwd)
turns=${1:-300000}
shift || true
threads=("$@")
[ $# -gt 0 ] || threads=(1 2 4)

place=$(mktemp -d)
trap 'rm -rf "$place"' EXIT
cp "$top/HANDLES" "$top/crates.txt" "$place"
echo "turn_bench: flow_turn" >>"$place/crates.txt"
(cd "$top" && tar -c --exclude=out crates) | tar -x -C "$place"
# What was proved here is not proved again.
for crate in flow_model flow_turn; do
    [ ! -d "$top/crates/$crate/out" ] || cp -a "$top/crates/$crate/out" "$place/crates/$crate/out"
done

bench=$place/crates/turn_bench
put() { mkdir -p "$(dirname "$bench/$2")" && cp "$top/bench/turns/$1.txt" "$bench/$2"; }
put main src/main.rt
put write_all proofs/write_all/Invariants.antt
for function in write_beside lock_beside; do
    put $function "proofs/+fn-$function-join+arg3+$function/Invariants.antt"
done

cd "$bench"
if ! rt check --jobs 1 >"$place/log" 2>&1; then
    tail -n 60 "$place/log" >&2
    exit 1
fi
rt run --jobs 1 -- "$turns" "${threads[@]}" 2>"$place/log" || { tail -n 60 "$place/log" >&2; exit 1; }
