#!/usr/bin/env python3
"""`flow large` beside the same algorithm in plain Rust with no proof (bench/plain/large.rs), with and without a lock, by turns in one
run.

Usage: bench/large.py [PROGRAM] [SEED SIZE [WORKERS ..]]   3 128 and 1 4 64 where they are not given; needs rustc

Prints for each number of workers the least milliseconds out of fifteen calls each: of the program, of plain Rust by as many workers
behind std's Mutex, of plain Rust by none, with no lock, and the ratios; then the same of the run alone, which for the program is
what a call takes more than one by one worker with a single step. All must write the same line. The run alone is told only on a machine
that does nothing else.
"""
import pathlib
import subprocess
import tempfile
import time

from measuring import TOP, arguments, keep_results

CALLS = 15


def spent(words):
    """The milliseconds of a call, what it wrote, and what it told on standard error."""
    begun = time.perf_counter()
    call = subprocess.run(words, capture_output=True, check=False)
    return 1000 * (time.perf_counter() - begun), call.stdout.strip(), call.stderr


def table_row(what, workers, ours, beside, alone):
    print(f"{what:<14}{workers:>3} workers: flow {ours:8.1f} ms, plain Rust {beside:8.1f} ms, ratio {ours / beside:6.2f}, without a lock {alone:8.1f} ms, ratio {ours / alone:6.2f}")


def main():
    program, words = arguments()
    seed, size = words[:2] or ["3", "128"]
    flow = [program, "large", "--seed", seed, "--size", size]
    rows = []
    with tempfile.TemporaryDirectory() as place:
        plain = str(pathlib.Path(place) / "large")
        subprocess.run(["rustc", "-O", "--edition", "2021", "-o", plain, str(TOP / "bench/plain/large.rs")], check=True)
        for workers in words[2:] or ["1", "4", "64"]:
            calls = [[*flow, "--workers", workers], [plain, seed, size, workers], [plain, seed, size, "0"], [*flow, "--workers", "1", "--steps", "1"]]
            told = list(zip(*[[spent(call) for call in calls] for _ in range(CALLS)]))
            assert len({line for one in told[:3] for _, line, _ in one}) == 1, "they write different lines"
            ours, beside, alone, before = [min(took for took, _, _ in one) for one in told]
            rows.append((workers, ours, beside, alone))
            table_row("all", workers, ours, beside, alone)
            table_row("the run alone", workers, ours - before, *[min(int(run) for _, _, run in one) / 1000 for one in told[1:3]])

    if not words:
        keep_results("large", ["workers", "ms", "plain Rust behind a lock, ms", "plain Rust, ms"], rows)


if __name__ == "__main__":
    main()
