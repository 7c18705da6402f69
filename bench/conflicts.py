#!/usr/bin/env python3
"""What `flowdesk explain` costs where the constraints contradict each other: time, and how often the workflow is compiled.

Usage: bench/conflicts.py [PROGRAM]     the program is crates/flowdesk/out/flowdesk where none is named

The order desk with a planted conflict; 4,096 constraints of which three conflict, at several places; and each text of bench/worst.py that no
execution meets. The least processor time of three calls counts. Compilings are counted by gdb, at the calls of `flow_excise::compile`, where it is
there and the program has its symbols. That what is told is a conflict, and a least one, is looked at by bench/reasons.py.
"""
import json
import os
import pathlib
import re
import resource
import shutil
import subprocess
import sys
import tempfile

from measuring import TOP, keep_results
from worst import TEXTS

MOST_SECONDS, MOST_COMPILINGS = 10, 100
RULES = 4096


def planted():
    """The order desk, where goods are picked before the credit is decided and the card is paid in between."""
    desk = (TOP / "examples/order_desk.flow").read_text(encoding="ascii")
    return desk + "constraint must pay_card;\nconstraint order pick pay_card;\nconstraint order pay_card credit_ok;\n"


def three_of(places):
    """As many constraints as a text may have, of which those at three places conflict."""
    ring = iter([("x", "y"), ("y", "z"), ("z", "x")])
    rules = [next(ring) if place in places else (f"e{place % 2000}", f"e{place % 2000 + 1}") for place in range(RULES)]
    names = ", ".join([*"xyz", *(f"e{number}" for number in range(2001))])
    goal = " | ".join([*"xyz", *(f"e{number}" for number in range(2001))])
    return f"event {names}; goal {goal};\n" + "".join(f"constraint order {one} {two};\n" for one, two in rules)


def compilings(program, path):
    """How often a call compiles; nothing where that is not seen."""
    if not shutil.which("gdb"):
        return None
    steps = ["set breakpoint pending off", "break flow_excise::compilation::compile", "ignore 1 1000000", f"run explain {path} --json", "info breakpoints"]
    call = subprocess.run(["gdb", "-batch", "-nx", *(word for step in steps for word in ("-ex", step)), program], capture_output=True, text=True, check=False)
    counted = re.search(r"already hit (\d+) time", call.stdout)
    return int(counted[1]) if counted else None


def told(program, path):
    """The least seconds of processor time of three calls, and what is told."""
    best = None
    for _ in range(3):
        begun = resource.getrusage(resource.RUSAGE_CHILDREN)
        call = subprocess.run([program, "explain", path, "--json"], capture_output=True, check=False)
        ended = resource.getrusage(resource.RUSAGE_CHILDREN)
        spent = ended.ru_utime - begun.ru_utime + ended.ru_stime - begun.ru_stime
        best = spent if best is None else min(best, spent)
    return best, json.loads(call.stdout)


def cases():
    """Name, text, the most seconds that it may take, the members that are to be told if they are known."""
    yield "order desk, planted", planted(), 0.05, None
    for places in [(0, 1, 2), (0, 2048, 4095), (1023, 2047, 3071), (4093, 4094, 4095), (7, 1500, 4000)]:
        yield f"three of {RULES}: {places[0]} {places[1]} {places[2]}", three_of(places), MOST_SECONDS, list(places)
    for name, make in TEXTS.items():
        yield name, make(), MOST_SECONDS, None


def main():
    words = sys.argv[1:]
    program = words[0] if words and os.path.exists(words[0]) else str(TOP / "crates/flowdesk/out/flowdesk")
    rows, status = [], 0
    with tempfile.TemporaryDirectory() as folder:
        path = pathlib.Path(folder) / "text.flow"
        for name, text, most, wanted in cases():
            path.write_text(text, encoding="latin-1")
            seconds, answer = told(program, path)
            if answer["verdict"] != "inconsistent":
                continue
            count = compilings(program, path) if wanted else None
            wrong = seconds > most or (wanted is not None and (answer["conflict"] != wanted or answer["undecided"] or (count or 0) > MOST_COMPILINGS))
            status |= wrong
            rows.append([name, seconds * 1000, len(answer["conflict"]), len(answer["undecided"]), "" if count is None else count])
            print(f"{name:60} {seconds * 1000:8.0f} ms, {len(answer['conflict'])} members, {len(answer['undecided'])} undecided"
                  + ("" if count is None else f", {count} compilings") + (" WRONG" if wrong else ""), flush=True)
    keep_results("conflicts", ["text", "ms", "members", "undecided", "compilings"], rows)
    return status


if __name__ == "__main__":
    sys.exit(main())
