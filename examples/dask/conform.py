#!/usr/bin/env python3
"""Which cases of a log conform to a workflow, by many workers: a map over parts of the log, and a fold.

Usage: conform.py WORKFLOW LOG [--scheduler ADDRESS | --workers COUNT] [--parts COUNT]

The log has a line `CASE,EVENT` for each event, those of a case in order. It is cut into parts by case. A worker groups a part by case,
checks each sequence of events that stands in it once, by the library in its own process, and gives back how many cases came to what; the
parts' counts are added. Each event of the workflow has one leaf, and it has no tests of facts.

Needs dask.distributed (python3-distributed) and the package flow (bindings/python), on each worker too.
"""
import argparse
import pathlib
import sys
import zlib
from collections import Counter

HERE = pathlib.Path(__file__).resolve().parent
try:
    import flow
except ImportError:
    sys.path.insert(0, str(HERE.parent.parent / "bindings/python"))
    import flow


def parts_of(lines, count):
    """The lines of a log in parts, each case in one."""
    parts = [[] for _ in range(count)]
    for line in lines:
        case, _, _ = line.partition(",")
        parts[zlib.crc32(case.encode()) % count].append(line)
    return parts


def checked(text, lines):
    """How many cases of a part are executions, prefixes of one, or neither; and the sequences that are neither."""
    workflow = flow.Workflow(text)
    leaves = {label: leaf for leaf, label in enumerate(workflow.labels)}
    cases = {}
    for line in lines:
        case, _, event = line.rstrip("\n").partition(",")
        cases.setdefault(case, []).append(event)
    counts, wrong = Counter(), Counter()
    for sequence, times in Counter(map(tuple, cases.values())).items():
        known = all(event in leaves for event in sequence)
        verdict = workflow.trace([leaves[event] for event in sequence]).verdict if known else "unknown event"
        counts[verdict if verdict in ("execution", "prefix") else "other"] += times
        if verdict not in ("execution", "prefix"):
            wrong[sequence] += times
    return counts, wrong


def folded(results):
    """What all parts came to."""
    counts, wrong = Counter(), Counter()
    for part, others in results:
        counts += part
        wrong += others
    return counts, wrong


def conform(client, text, lines, parts):
    """The same, by the workers of a cluster."""
    return folded(client.gather(client.map(checked, [text] * parts, parts_of(lines, parts), pure=False)))


def main():
    from dask.distributed import Client, LocalCluster

    parser = argparse.ArgumentParser(usage=__doc__)
    parser.add_argument("workflow")
    parser.add_argument("log")
    parser.add_argument("--scheduler")
    parser.add_argument("--workers", type=int, default=4)
    parser.add_argument("--parts", type=int, default=16)
    words = parser.parse_args()
    text = pathlib.Path(words.workflow).read_text()
    lines = pathlib.Path(words.log).read_text().splitlines()
    where = words.scheduler or LocalCluster(n_workers=words.workers, threads_per_worker=1, dashboard_address=None)
    with Client(where) as client:
        counts, wrong = conform(client, text, lines, words.parts)
    for verdict, count in sorted(counts.items()):
        print(f"{verdict} {count}")
    for sequence, count in wrong.most_common(10):
        print(f"{count} times: {' '.join(sequence)}")


if __name__ == "__main__":
    main()
