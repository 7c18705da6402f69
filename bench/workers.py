#!/usr/bin/env python3
"""What runs by workers take, over a gate whose tasks take no time, are busy on a processor, or sleep, for as many events beside one another.

Usage: bench/workers.py [PROGRAM]     one that an earlier run made and left; else it is made

Prints for each kind of task and number of workers the least milliseconds of several runs, and how many times the milliseconds of one
worker that is, or how many times as fast. The numbers of workers take turns in one call. Ends with 1 where four workers take more than
1.3 times one worker's time though tasks take none, where four are less than 3.6 times as fast over busy tasks (on four processors or
more), or sixteen less than 12 times as fast over tasks that sleep. The last table has eight busy processes beside four processors, or
twice as many as there are.

The program is bench/workers/main.txt. `prove` proves and builds it in a temporary folder, over a copy of the crates of this repository:
what `./prove` proved here is not proved again, so it takes some two minutes after it, and half as long as all of `./prove` without.
"""
import os
import pathlib
import shutil
import subprocess
import sys
import tempfile

from measuring import TOP, keep_results

CRATE = "worker_bench"
LINE = f"{CRATE}: flow_model flow_form flow_text flow_workflow flow_expand flow_plan flow_excise flow_core flow_gate flow_crew\n"
PLACES = {"main": "src/main.rt", "start": "proofs/start/Answers.antt"}

# kind of task, microseconds, events, how often, numbers of workers
TABLES = [
    ("none", 0, 1000, 15, [1, 4, 16, 64]),
    ("busy", 1000, 256, 3, [1, 4]),
    ("asleep", 1000, 512, 3, [1, 4, 16, 64]),
]


def build(place):
    """The program, proved and built in the folder over a copy of the crates. What was proved here is not proved again."""
    shutil.copytree(TOP / "crates", place / "crates", symlinks=True)
    for name in ["HANDLES", "prove"]:
        shutil.copy(TOP / name, place)
    (place / "crates.txt").write_text((TOP / "crates.txt").read_text() + LINE)
    crate = place / "crates" / CRATE
    for name, file in PLACES.items():
        (crate / file).parent.mkdir(parents=True, exist_ok=True)
        shutil.copy(TOP / f"bench/workers/{name}.txt", crate / file)
    made = subprocess.run(["./prove", CRATE], cwd=place, stdout=subprocess.PIPE, stderr=subprocess.STDOUT, text=True, check=False)
    if made.returncode != 0:
        sys.exit(made.stdout[-4000:])
    return crate / "out" / CRATE


def measured(call, kind, micros, events, times, workers):
    """The least milliseconds by each number of workers."""
    words = [kind, *map(str, [micros, events, times, *workers])]
    lines = subprocess.run([*call, *words], stdout=subprocess.PIPE, text=True, check=True).stdout.splitlines()
    least = {}
    for line in lines:
        number, nanos = map(int, line.split())
        least[number] = min(least.get(number, nanos), nanos)
    return {number: nanos / 1e6 for number, nanos in least.items()}


def told(title, took):
    for number, millis in took.items():
        times = millis / took[1]
        print(f"{title:<40}{number:>3} workers: {millis:9.2f} ms, {times:6.2f} times one worker's, {1 / times:6.2f} times as fast", flush=True)


def is_fine(kind, took):
    """Whether the workers are as fast as they should be."""
    if kind == "none":
        return took[4] <= 1.3 * took[1]
    if kind == "busy":
        return (os.cpu_count() or 1) < 4 or took[1] >= 3.6 * took[4]
    return took[1] >= 12 * took[16]


def main():
    fine, rows = True, []
    with tempfile.TemporaryDirectory() as folder:
        program = sys.argv[1] if sys.argv[1:] else build(pathlib.Path(folder))
        call = [os.path.abspath(program)]
        for kind, *rest in TABLES:
            took = measured(call, kind, *rest)
            told(f"{kind}, {rest[0]} microseconds", took)
            rows += [(f"{kind}, {rest[0]} us", workers, millis) for workers, millis in took.items()]
            fine = fine and is_fine(kind, took)
        busy = [subprocess.Popen([sys.executable, "-c", "while True: pass"]) for _ in range(2 * (os.cpu_count() or 1))]
        try:
            told("none, busy processes beside it", measured(call, *TABLES[0]))
        finally:
            for one in busy:
                one.kill()
                one.wait()
    keep_results("workers", ["tasks", "workers", "ms"], rows)
    return 0 if fine else 1


if __name__ == "__main__":
    sys.exit(main())
