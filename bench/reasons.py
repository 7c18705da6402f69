#!/usr/bin/env python3
"""The reasons that `flowdesk explain --json` gives, held against the definitions (bench/executions.py): of random workflows, whether the
verdict is that of the definitions, and of inconsistent ones whether the constraints that are named contradict each other, and each of them
is needed for that.

Usage: bench/reasons.py [PROGRAM] [COUNT] [SEED]     COUNT inconsistent workflows (5000), by the program crates/flowdesk/out/flowdesk
"""
import json
import os
import pathlib
import random
import subprocess
import sys
import tempfile

from executions import Workflow, blocks_of, meets

TOP = pathlib.Path(__file__).resolve().parent.parent
EVENTS = "abcdef"


def goal(chance, names):
    """A random goal of these events, each once."""
    if len(names) == 1:
        return names[0] if chance.random() < 0.9 else f"({names[0]} + nop)"
    cut = chance.randrange(1, len(names))
    inner = f"({goal(chance, names[:cut])} {chance.choice('**||+')} {goal(chance, names[cut:])})"
    return f"iso{inner}" if chance.random() < 0.15 else inner


def rule(chance, names, depth=2):
    """A random constraint on these events."""
    kind = chance.choice(["must", "never", "order", "order", "precedes", "needs"] + ["not", "and", "or"] * (depth > 0))
    if kind == "not":
        return f"not ({rule(chance, names, depth - 1)})"
    if kind in ("and", "or"):
        return f"({rule(chance, names, depth - 1)} {kind} {rule(chance, names, depth - 1)})"
    return f"{kind} {' '.join(chance.sample(names, 1 if kind in ('must', 'never') else 2))}"


def text(chance):
    names = list(EVENTS[:chance.randrange(2, 7)])
    chance.shuffle(names)
    lines = [f"event {', '.join(sorted(names))};", f"goal {goal(chance, names)};"]
    return "\n".join(lines + [f"constraint {rule(chance, names)};" for _ in range(chance.randrange(1, 8))]) + "\n"


def met(events, constraints, numbers):
    """Whether some list of events meets the constraints of these numbers."""
    return any(all(meets(constraints[number], one) for number in numbers) for one in events)


def judged(workflow, told, status):
    """What is wrong with what is told of a workflow, if anything."""
    events = {workflow.events(sum(blocks, ())) for blocks in blocks_of(workflow.goal)}
    constraints = workflow.constraints
    if met(events, constraints, range(len(constraints))):
        return "" if (told["verdict"], status) == ("consistent", 0) else "it is consistent"
    if (told["verdict"], status) != ("inconsistent", 1):
        return "it is inconsistent"
    members = told["conflict"]
    if met(events, constraints, members):
        return "some trace meets the conflict"
    for left_out in set(members) - set(told["undecided"]):
        if not met(events, constraints, [member for member in members if member != left_out]):
            return f"constraint {left_out} is not needed"
    return "" if not told["undecided"] else "nothing is undecided in so small a workflow"


def main():
    words = sys.argv[1:]
    program = words.pop(0) if words and os.path.exists(words[0]) else str(TOP / "crates/flowdesk/out/flowdesk")
    count = int(words[0]) if words else 5000
    chance = random.Random(int(words[1]) if len(words) > 1 else 1)
    inconsistent = consistent = 0
    with tempfile.TemporaryDirectory() as folder:
        path = f"{folder}/text.flow"
        while inconsistent < count:
            source = text(chance)
            with open(path, "w", encoding="ascii") as file:
                file.write(source)
            call = subprocess.run([program, "explain", path, "--json"], capture_output=True, check=False)
            wrong = judged(Workflow(source), json.loads(call.stdout), call.returncode)
            if wrong:
                print(f"{wrong}: {call.stdout.decode()}{source}")
                return 1
            inconsistent += call.returncode == 1
            consistent += call.returncode == 0
    print(f"{inconsistent} inconsistent workflows, {consistent} consistent ones: as the definitions have it")
    return 0


if __name__ == "__main__":
    sys.exit(main())
