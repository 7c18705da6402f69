#!/usr/bin/env python3
"""The library for C and Python beside the program.

Usage: bench/library.py [PART ..] [--calls COUNT] [--seed SEED]     PART: rows, damaged, walks, threads, times; without one all

rows      every row of the gate (crates/test_cases/data) of a mode that the library has, through C and through Python: the bytes and the
          status that the row wants, which are the program's.
damaged   calls of both kinds with texts, policies, histories and lines that are damaged at random, and rooms of every size, from C, also
          under -fsanitize=address: each ends by a status, writes the whole answer or none of it, and touches no byte beside.
walks     cases that are stepped at random, good lines among bad ones, each record stored as it comes: no history is ever refused, each
          journal is an execution or the front of one by `trace`, and the whole is what `drive` and `duty` report of the same lines.
threads   the same calls by four threads at once, from C and from Python.
times     the processor's microseconds of a step of the order desk, with 0 to 60 entries, from C, from Python, and by a process that makes
          this one step (examples/c/step.c). They take turns, and each figure is the least of nine runs.

--calls sets how many damaged calls are made (20,000; a tenth as many under the sanitizer besides). Needs ./prove flow_c and gcc. The
script ends with 1 where something is not as it must be.
"""
import argparse
import json
import os
import pathlib
import random
import subprocess
import sys
import tempfile
import time
from collections import Counter
from concurrent.futures import ThreadPoolExecutor

from gate_rows import rows
from library_calls import MADE, WRONG, built, made_by, wrong
from measuring import TOP, keep_results

sys.path.insert(0, str(TOP / "bindings/python"))
from flow import CallRefused, Case, StepRefused, Workflow  # noqa: E402
from flow.library import Mode, Status, answer, step  # noqa: E402

MODES = {mode.name.lower(): mode for mode in Mode}
ROOM = 2_000_000
SHOP = "event pack, card, bill; goal pack | (card + bill); constraint precedes pack bill;\n"
FOUR_EYES = "event a, b, c; goal a * (b | c);\n"
POLICY = "role clerk = ann, bob; role lead = cid, ann; allow clerk a, b; allow lead c; separate a b; bind a c;\n"


# --- rows of the gate

def try_rows(harness):
    found = list(rows(MODES))
    came = made_by(harness, [(0, mode, steps, [given], ROOM) for _, mode, steps, given, _, _ in found])
    for (name, mode, steps, given, status, wanted), (c_status, _, _, c_text) in zip(found, came):
        if (c_status, c_text) != (status, wanted):
            wrong(f"{name}: from C {c_status} {c_text[-200:]}, not {status} {wanted[-200:]}")
        try:
            p_status, p_text = answer(mode, given, steps)
        except CallRefused:
            p_status, p_text = Status.CALL, b""
        if (p_status, p_text) != (status, wanted):
            wrong(f"{name}: from Python {p_status} {p_text[-200:]}")
    by_mode = {mode.name.lower(): sum(it[1] is mode for it in found) for mode in Mode}
    print(f"rows: {len(found)} ({', '.join(f'{count} {mode}' for mode, count in by_mode.items())})")


# --- damaged calls

def damaged(rng, text):
    """Bytes with some damage, or none."""
    text = bytearray(text)
    for _ in range(rng.choice([0, 0, 1, 1, 2, 5])):
        place = rng.randrange(len(text) + 1)
        kind = rng.randrange(5)
        if kind == 0:
            text[place:place] = bytes([rng.randrange(256)])
        elif kind == 1 and text:
            del text[place : place + rng.choice([1, 1, 4, 16, 100])]
        elif kind == 2 and place < len(text):
            text[place] = rng.randrange(256)
        elif kind == 3:
            end = place + rng.choice([1, 4, 16, 64])
            text[place:place] = text[place:end]
        else:
            del text[place:]
    return bytes(text)


def walked(workflow, rng, lines):
    """A case that is stepped at random, and the lines that it was given with what was replied."""
    case, said = Case(workflow), []
    # users alone, or whoever calls besides
    users = range(1, len(workflow.users) + 1) if workflow.policy and rng.random() < 0.7 else range(len(workflow.users) + 2)
    for _ in range(lines):
        by, leaf, claim = rng.choice(users), rng.choice(case.enabled() or [0]), rng.randrange(1, 9 + case.entries)
        tasks = [f"take {leaf}", f"do {leaf}", f"take {rng.randrange(40)}", f"done {claim}", f"done {rng.randrange(1, 4)}", f"fail {claim % 8}"]
        line = rng.choice([*tasks, "rewind", "commit", "next", "enabled", "journal", "facts"])
        try:
            reply = case.give(line, by).reply
        except StepRefused as refused:
            reply = refused.reply
        said.append((by, line, reply))
    return case, said


def texts():
    """Workflows that are small and large enough, with and without a policy."""
    desk = (TOP / "examples/order_desk.flow").read_text()
    loan = (TOP / "examples/loan.flow").read_text()
    office = (TOP / "examples/back_office.flow").read_text()
    shift = (TOP / "examples/back_office.policy").read_text().replace("%%\n", "")
    return [Workflow(SHOP), Workflow(FOUR_EYES, POLICY), Workflow(loan), Workflow(desk), Workflow(office, shift)]


def damaged_calls(rng, count):
    seeds = []
    for workflow in texts():
        for _ in range(6):
            case, said = walked(workflow, rng, 30)
            seeds.append((workflow, case.history, said))
    sources = [given for _, _, _, given, _, _ in rows(MODES) if len(given) < 2000]
    for _ in range(count):
        room = rng.choice([0, 1, rng.randrange(200), rng.randrange(2000), 20_000])
        if rng.random() < 0.3:
            mode, steps = rng.choice([0, 1, 2, 3, 4, 4, rng.randrange(9)]), rng.choice([65536, 1, 0, 9, 2_000_000])
            yield 0, mode, steps, [damaged(rng, rng.choice(sources))], room
            continue
        workflow, history, said = rng.choice(seeds)
        by, line, _ = rng.choice(said)
        parts = [workflow.text.encode(), workflow.policy.encode(), history, line.encode()]
        for place in rng.sample(range(4), rng.choice([0, 1, 1, 2])):
            parts[place] = damaged(rng, parts[place])
        yield 1, by, 0, parts, room


def try_damaged(harness, rng, count):
    counts = Counter()
    for done in range(0, count, 5000):
        counts += damaged_batch(harness, list(damaged_calls(rng, min(5000, count - done))))
    told = ", ".join(f"{Status(status).name.lower()} {number}" for status, number in sorted(counts.items()))
    print(f"{pathlib.Path(harness).name}: {count} damaged calls: {told}")


def damaged_batch(harness, calls):
    """How many of the calls came to which status."""
    allowed = [{0, 1, 2, 3, 7, 9}, {0, 1, 3, 9, 10}]
    counts = Counter()
    for call, (status, _, _, text) in zip(calls, made_by(harness, calls)):
        counts[status] += 1
        if status not in allowed[call[0]]:
            wrong(f"status {status} of {call}")
        if call[0] and status != Status.NO_ROOM:
            try:
                came = json.loads(text.decode("ascii"))
            except ValueError as error:
                wrong(f"{error}: {text}")
                continue
            if came["ok"] is not (status == Status.OK):
                wrong(f"status {status} of {text}")
    return counts


# --- walks

def try_walks(rng, count):
    steps = 0
    for _ in range(count):
        workflow = rng.choice(texts())
        case, said = walked(workflow, rng, rng.choice([5, 20, 60]))
        steps += len(said)
        traced = workflow.trace(case.journal()).verdict
        if traced not in ("execution", "prefix"):
            wrong(f"a journal is {traced}: {said}")
        if Case(workflow, case.history).journal() != case.journal():
            wrong(f"another case: {said}")
        if workflow.policy and any(not 0 < by <= len(workflow.users) for by, _, _ in said):
            continue
        calls = [f"as {workflow.users[by - 1]}\n" if workflow.policy else "" for by, _, _ in said]
        session = "".join(f"{call}{line}\n" for call, (_, line, _) in zip(calls, said))
        wanted = [line for line in workflow.drive(session).text.splitlines() if not line.startswith("as ")][: len(said)]
        if wanted != [reply for _, _, reply in said]:
            wrong(f"`drive` replies otherwise: {said} {wanted}")
    print(f"walks: {count} cases, {steps} lines")


# --- threads and times

def next_line(case):
    """What is to be done next in a case, as a line."""
    what, *number = case.next().split()
    if what == "act":
        label = case.workflow.labels[int(number[0])]
        return f"{'take' if label.isidentifier() else 'do'} {number[0]}"
    return f"done {number[0]}" if what == "wait" else "commit"


def order_desk(entries):
    """A case of the order desk with so many entries, of which the first ten tasks failed."""
    case = Case(texts()[3])
    while case.entries < entries:
        case.give(f"fail {case.entries // 2 + 1}" if case.entries % 2 and case.entries < 20 else next_line(case))
    return case


def try_threads(harness, rng):
    calls = [(0, mode, steps, [given], ROOM) for _, mode, steps, given, _, _ in rows(MODES) if len(given) < 500][::20]
    for workflow in texts():
        case, said = walked(workflow, rng, 20)
        texts_of = [workflow.text.encode(), workflow.policy.encode(), case.history]
        calls += [(1, by, 0, [*texts_of, line.encode()], 5000) for by, line, _ in said[:4]]
    alone = made_by(harness, calls)
    beside = made_by(harness, calls, 20, 4)
    if [it[:2] + it[3:] for it in alone] != [it[:2] + it[3:] for it in beside]:
        wrong("threads from C")
    work = [call for call in calls if call[0]] * 4
    with ThreadPoolExecutor(4) as pool:
        came = list(pool.map(lambda call: step(*call[3][:3], call[1], call[3][3]), work))
    if came != [step(*call[3][:3], call[1], call[3][3]) for call in work]:
        wrong("threads from Python")
    print(f"threads: {len(calls)} calls by four threads from C, {len(work)} from Python")


def try_times(harness, folder):
    heads, kept = ["entries", "us from C", "us from Python", "us of a process", "that by C"], []
    print("  ".join(heads))
    stepper = built_stepper(folder)
    for entries in (0, 20, 40, 60):
        case = order_desk(entries)
        line = next_line(case)
        words = [case.workflow.text.encode(), b"", case.history, line.encode()]
        # by turns, since a machine is faster at one time than at another
        runs = [
            (made_by(harness, [(1, 0, 0, words, 5000)], 400)[0][2], timed(lambda: step(*words[:3], 0, words[3])), one_process(stepper, case, line))
            for _ in range(9)
        ]
        from_c, python, process = map(min, zip(*runs))
        kept.append((case.entries, from_c, python, process, process / from_c))
        print(f"{case.entries:7}  {from_c:9.0f}  {python:14.0f}  {process:15.0f}  {process / from_c:9.1f}", flush=True)
        if case.entries >= 60 and from_c > 300:
            wrong("a step with 60 entries takes more than 0.3 ms")
    keep_results("library", heads, kept)


def timed(call, count=100):
    """The processor's microseconds of a call."""
    begun = time.process_time()
    for _ in range(count):
        call()
    return (time.process_time() - begun) * 1e6 / count


def built_stepper(folder):
    made = f"{folder}/step"
    subprocess.run(["gcc", "-O1", f"-I{TOP}/include", "-o", made, TOP / "examples/c/step.c", MADE / "libflow.a"], check=True)
    return made


def one_process(stepper, case, line):
    """The processor's microseconds of a process that makes one step."""
    text, history = (pathlib.Path(stepper).parent / name for name in ("desk.flow", "desk.history"))
    text.write_text(case.workflow.text)
    history.write_bytes(case.history)
    child = subprocess.Popen([stepper, text, history, "0", *line.split()], stdout=subprocess.DEVNULL)
    _, child.returncode, used = os.wait4(child.pid, 0)
    return (used.ru_utime + used.ru_stime) * 1e6


def main():
    parser = argparse.ArgumentParser(usage=__doc__)
    parser.add_argument("parts", nargs="*", default=[])
    parser.add_argument("--calls", type=int, default=20_000)
    parser.add_argument("--walks", type=int, default=200)
    parser.add_argument("--seed", type=int, default=1)
    words = parser.parse_args()
    parts = words.parts or ["rows", "damaged", "walks", "threads", "times"]
    rng = random.Random(words.seed)
    with tempfile.TemporaryDirectory() as folder:
        plain = built(folder)
        if "rows" in parts:
            try_rows(plain)
        if "damaged" in parts:
            try_damaged(plain, rng, words.calls)
            try_damaged(built(folder, "-fsanitize=address"), rng, words.calls // 10)
        if "walks" in parts:
            try_walks(rng, words.walks)
        if "threads" in parts:
            try_threads(plain, rng)
        if "times" in parts:
            try_times(plain, folder)
    sys.exit(1 if WRONG else 0)


if __name__ == "__main__":
    main()
