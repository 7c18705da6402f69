#!/usr/bin/python3
"""A log checked by workers of dask (examples/dask): the same counts as in one process, and how it grows from 1 to 4 workers.

Usage: bench/dask.py [--cases COUNT] [--kinds COUNT] [--times COUNT] [--seed SEED]

A log of a small workflow is made: COUNT cases (20,000) of KINDS sequences (2,000), some of which are cut short or have two events
exchanged. It is checked in this process, and by 1, 2 and 4 workers, each a process that is reached by TCP: on the loopback, and, where the
bench is run by root and iproute2 is there, each on a host of its own (a network namespace). The seconds are the least of --times runs (3);
they tell something only on a machine that does nothing else. The processor's seconds of the busiest worker tell it on any machine: as long
takes the log where each worker has a processor. Needs ./prove flow_c and dask.distributed for Python (python3-distributed). The script ends
with 1 where the counts differ.
"""
import argparse
import contextlib
import os
import pathlib
import random
import subprocess
import sys
import time

TOP = pathlib.Path(__file__).resolve().parent.parent
sys.path[:0] = [str(TOP / "examples/dask"), str(TOP / "bindings/python")]
import servers  # noqa: E402
from measuring import keep_results  # noqa: E402

# this file must not stand in the way of the package of its name
sys.path = [it for it in sys.path if pathlib.Path(it or ".").resolve() != TOP / "bench"]
import conform  # noqa: E402
from dask.distributed import Client  # noqa: E402
from flow import Case, Workflow  # noqa: E402

TEXT = """
event a, b, c, d, e, f, g, h, i, j, k, l, m, n;
goal a * (b * c | d * (e + f) | g | k * l | m * n) * (h + i) * j;
constraint precedes c e;
constraint needs f i;
"""
PARTS = 16
WORKERS = (1, 2, 4)


def sequence(rng, workflow):
    """The events of a case that is driven at random, with some damage in one of four."""
    case = Case(workflow)
    while case.next() != "finished":
        case.done(case.take(rng.choice(case.enabled())).claim)
    events = [workflow.labels[leaf] for leaf in case.journal()]
    if rng.random() < 0.25:
        place = rng.randrange(1, len(events))
        events = events[:place] if rng.random() < 0.5 else [*events[: place - 1], events[place], events[place - 1], *events[place + 1 :]]
    return events


def log_of(rng, cases, kinds):
    workflow = Workflow(TEXT)
    made = [sequence(rng, workflow) for _ in range(kinds)]
    return [f"case{number},{event}" for number in range(cases) for event in rng.choice(made)]


@contextlib.contextmanager
def started(words):
    """A process, which is gone afterwards."""
    apart = {**os.environ, "PYTHONPATH": f"{TOP}/examples/dask:{TOP}/bindings/python", "DASK_LOGGING__DISTRIBUTED": "error"}
    child = subprocess.Popen(words, env=apart, stdout=subprocess.DEVNULL, stderr=subprocess.DEVNULL)
    try:
        yield
    finally:
        child.terminate()
        child.wait()


@contextlib.contextmanager
def cluster(count, hosts):
    """A client of so many workers, each on its host; where there are none, on the loopback."""
    port = servers.free_port()
    command = [sys.executable, "-m", "distributed.cli.dask_scheduler", "--host", "0.0.0.0" if hosts else "127.0.0.1", "--port", str(port), "--no-dashboard"]
    with contextlib.ExitStack() as stack:
        stack.enter_context(started(command))
        for place in range(count):
            own, there = (hosts[place].address, hosts[place].outside) if hosts else ("127.0.0.1", "127.0.0.1")
            words = [sys.executable, "-m", "distributed.cli.dask_worker", f"tcp://{there}:{port}", "--host", own]
            words += ["--nworkers", "1", "--nthreads", "1", "--no-nanny", "--no-dashboard"]
            stack.enter_context(started(hosts[place].words(*words) if hosts else words))
        client = stack.enter_context(Client(f"tcp://127.0.0.1:{port}", timeout=120))
        client.wait_for_workers(count, timeout=300)
        yield client


def measured(call, wanted, times, busy):
    """The least seconds of some calls, and the least processor's seconds of the busiest process; nothing where a call finds something else."""
    spent, used = [], []
    for _ in range(times):
        before, begun = busy(), time.perf_counter()
        found = call()
        spent.append(time.perf_counter() - begun)
        used.append(max(after - earlier for after, earlier in zip(busy(), before)))
        if found != wanted:
            return None
    return min(spent), min(used)


def alone(lines, times):
    """What the log comes to, and the seconds in this process, part after part."""
    found = conform.folded([conform.checked(TEXT, lines)])
    parts = lambda: conform.folded(conform.checked(TEXT, part) for part in conform.parts_of(lines, PARTS))  # noqa: E731
    return found, measured(parts, found, times, lambda: [time.process_time()])


def together(client, lines, wanted, times):
    """The seconds by the workers of a cluster."""
    busy = lambda: list(client.run(time.process_time).values())  # noqa: E731
    return measured(lambda: conform.conform(client, TEXT, lines, PARTS), wanted, times, busy)


def main():
    parser = argparse.ArgumentParser(usage=__doc__)
    parser.add_argument("--cases", type=int, default=20_000)
    parser.add_argument("--kinds", type=int, default=2000)
    parser.add_argument("--times", type=int, default=3)
    parser.add_argument("--seed", type=int, default=1)
    words = parser.parse_args()
    servers.end_by_sigterm()
    lines = log_of(random.Random(words.seed), words.cases, words.kinds)
    wanted, (spent, used) = alone(lines, words.times)
    print(f"{words.cases} cases, {len(lines)} events: {dict(wanted[0])}; {PARTS} parts in this process: {spent:.2f} s, {used:.2f} s busy", flush=True)
    status, rows = 0, [("in one process", 1, spent, used, 1000 * used / PARTS)]
    with servers.hosts(max(WORKERS) if servers.can_have_hosts() else 0) as hosts:
        for where, machines in [("on the loopback", []), ("on hosts of their own", hosts)][: 2 if hosts else 1]:
            for count in WORKERS:
                with cluster(count, machines) as client:
                    found = together(client, lines, wanted, words.times)
                if found is None:
                    print(f"WRONG: other counts by {count} workers {where}")
                    status = 1
                    continue
                spent, used = found
                print(f"{count} workers {where}: {spent:.2f} s, the busiest {used:.2f} s busy", flush=True)
                rows.append((where, count, spent, used, 1000 * used * count / PARTS))
    keep_results("dask", ["where", "workers", "seconds", "busiest, s", "busy ms a part"], rows)
    return status


if __name__ == "__main__":
    sys.exit(main())
