#!/usr/bin/env python3
"""A hundred thousand cases through GNU parallel, by one and by four processors: cases a second of `check`, `trace`, `drive` and
`flowkeep`, beside `audit`, one process of which takes 1,024 journals.

Usage: bench/scale.py [FLOW [FLOWKEEP]] [--cases COUNT] [--kept COUNT] [--folder FOLDER] [--disk FOLDER]

FLOW and FLOWKEEP are crates/flow/out/flow and crates/flowkeep/out/flowkeep where they are not given. A case is a file: the order desk
with a session, or a journal, that goes up to a random line (a tenth of the journals have two lines exchanged). A job of GNU parallel is
a loop of sh over 500 cases; each case is a process that reads its file and writes its answer to a file beside it. The files lie in
FOLDER (/dev/shm, in memory); flowkeep has a further row, with COUNT of --kept cases in the folder --disk, each step with two syncs.
Prints the table of docs/SCALE.md. Ends with 1 where two ways to ask the same differ in how many cases came to what.

It needs GNU parallel and taskset. On four processors a hundred thousand cases take a quarter of an hour.
"""
import argparse
import collections
import pathlib
import random
import shlex
import shutil
import subprocess
import sys
import tempfile
import time

from measuring import TOP, keep_results

AT_ONCE = 500
# As many journals as an audit takes.
JOURNALS = 1024
PROCESSORS = (1, 4)
# A machine for which the last column is reckoned.
RECKONED = 64
DESK = (TOP / "examples/order_desk.flow").read_text()
LOOP = 'for case in "$@"; do {call} < "$case" > "$case.answer"; echo $?; done'
WRONG = []
KEPT = []


def lines_of(ending):
    """The lines of a second part of the order desk, without the line that parts it from the workflow."""
    return (TOP / f"examples/order_desk.{ending}").read_text().splitlines()[1:]


def front(lines, draw):
    return lines[: draw.randint(0, len(lines))]


def journal(draw):
    lines = front(lines_of("journal"), draw)
    if len(lines) > 1 and draw.random() < 0.1:
        place = draw.randrange(len(lines) - 1)
        lines[place], lines[place + 1] = lines[place + 1], lines[place]
    return lines


def write_cases(folder, count, second):
    """So many cases, each with the second part that is drawn for it; a folder has a thousand of them."""
    draw = random.Random(1)
    for number in range(count):
        file = folder / f"{number // 1000:03}" / f"{number:06}.case"
        if number % 1000 == 0:
            file.parent.mkdir()
        file.write_text(DESK + "%%\n" + "".join(line + "\n" for line in second(draw)))


def timed(words, source):
    """The seconds of a call, and what it wrote."""
    begun = time.perf_counter()
    call = subprocess.run(words, input=source, capture_output=True, check=False)
    return time.perf_counter() - begun, call.stdout.decode()


def spread(call, folder, processors):
    """Has GNU parallel make the call on each case of the folder, on so many processors: the seconds, and how often each status came."""
    cases = "\0".join(str(file) for file in sorted(folder.glob("*/*.case")))
    words = ["taskset", "--cpu-list", f"0-{processors - 1}", "parallel", "--will-cite", "-0", "-j", str(processors), "-n", str(AT_ONCE)]
    seconds, told = timed([*words, "sh", "-c", shlex.quote(LOOP.format(call=call)), "sh", "{}"], cases.encode())
    return seconds, collections.Counter(map(int, told.split()))


def forget(folder):
    """Removes what the last calls left beside the cases."""
    for file in folder.glob("*/*"):
        if file.suffix != ".case":
            file.unlink()


def row(what, count, seconds):
    """A row of the table: of each number of processors the cases a second."""
    rates = [count / it for it in seconds]
    ratio, most = rates[-1] / rates[0], rates[-1] * RECKONED / PROCESSORS[-1]
    KEPT.append((what.replace("`", ""), count, *(round(rate) for rate in rates), ratio))
    print(f"| {what} | {count:,} | " + " | ".join(f"{rate:,.0f}" for rate in rates) + f" | {ratio:.1f} | {most:,.0f} |", flush=True)


def try_mode(what, call, folder):
    """The row of a call, and how often each status came."""
    count, found = len(list(folder.glob("*/*.case"))), []
    for processors in PROCESSORS:
        found.append(spread(call, folder, processors))
        forget(folder)
    row(what, count, [seconds for seconds, _ in found])
    counts = [statuses for _, statuses in found]
    if counts[0] != counts[1] or sum(counts[0].values()) != count or not set(counts[0]) <= {0, 1}:
        WRONG.append(f"{what}: {counts}")
    return counts[0]


def audits(folder):
    """The inputs of `audit` that have the journals of all cases, 1,024 each."""
    parts = [file.read_text().partition("%%\n")[2] for file in sorted(folder.glob("*/*.case"))]
    return [(DESK + "%%\n" + "%%\n".join(parts[at : at + JOURNALS])).encode() for at in range(0, len(parts), JOURNALS)]


def try_audit(flow, folder, count):
    """The row of audits, one process after another, by one worker and by four; and how many journals are executions."""
    inputs, seconds, found = audits(folder), [], []
    for processors in PROCESSORS:
        words = ["taskset", "--cpu-list", f"0-{processors - 1}", flow, "audit", "--workers", str(processors)]
        calls = [timed(words, source) for source in inputs]
        seconds.append(sum(spent for spent, _ in calls))
        found.append(sum(int(told.split()[-3]) for _, told in calls))
    row(f"`audit`, {JOURNALS:,} journals a process", count, seconds)
    if found[0] != found[1]:
        WRONG.append(f"audit: {found}")
    return found[0]


def in_folder(place, count, second, measure):
    """Makes the cases in a folder of their own, measures, and takes the folder away."""
    folder = pathlib.Path(tempfile.mkdtemp(prefix="flow-scale-", dir=place))
    try:
        write_cases(folder, count, second)
        return measure(folder)
    finally:
        shutil.rmtree(folder)


def sessions(draw):
    return front(lines_of("session"), draw)


def arguments():
    known = argparse.ArgumentParser(usage=__doc__)
    known.add_argument("flow", nargs="?", default=str(TOP / "crates/flow/out/flow"))
    known.add_argument("flowkeep", nargs="?", default=str(TOP / "crates/flowkeep/out/flowkeep"))
    known.add_argument("--cases", type=int, default=100_000)
    known.add_argument("--kept", type=int, default=2_000)
    known.add_argument("--folder", default="/dev/shm")
    known.add_argument("--disk", default=str(TOP))
    return known.parse_args()


def main():
    given = arguments()
    flow, keep = shlex.quote(given.flow), f'{shlex.quote(given.flowkeep)} "$case.keep"'
    heads = " | ".join(f"{processors} processor{'s' * (processors > 1)}" for processors in PROCESSORS)
    print(f"| | cases | cases a second, {heads} | ratio | {RECKONED} processors, reckoned |\n|---|---|{'---|' * len(PROCESSORS)}---|---|")

    def of_sessions(folder):
        for mode in "check", "drive":
            try_mode(f"`{mode}`", f"{flow} {mode}", folder)
        try_mode("`flowkeep`, files in memory", keep, folder)

    def of_journals(folder):
        traced = try_mode("`trace`", f"{flow} trace", folder)
        audited = try_audit(given.flow, folder, given.cases)
        if traced[0] != audited:
            WRONG.append(f"trace says of {traced[0]} journals that they are executions, audit of {audited}")

    in_folder(given.folder, given.cases, sessions, of_sessions)
    in_folder(given.folder, given.cases, journal, of_journals)
    in_folder(given.disk, given.kept, sessions, lambda folder: try_mode("`flowkeep`, files on a disk", keep, folder))
    keep_results("scale", ["call", "cases", *(f"a second by {it}" for it in PROCESSORS), "ratio"], KEPT)
    print("\n".join(WRONG) or "each way to ask came to the same")
    sys.exit(1 if WRONG else 0)


if __name__ == "__main__":
    main()
