#!/usr/bin/env python3
"""`flowdesk log` beside all lists of leaves that the definitions allow, on small workflows made at random.

Usage: bench/fits.py [PROGRAM] [--workflows COUNT] [--seed SEED]     crates/flowdesk/out/flowdesk, 2,000 workflows where it is not given

Each workflow is asked about one log. Its cases are the events of executions, fronts of these, the same with an event left out,
doubled, put elsewhere or replaced, and events drawn at random. The verdict, the event that does not fit and the list of leaves
in each journal are held to the definitions. The script ends with 1 where an answer is not theirs, and prints the folder with
the workflow and the log.
"""
import argparse
import csv
import os
import pathlib
import random
import shutil
import subprocess
import sys
import tempfile

from desk import lists
from measuring import TOP, keep_results
from model import Drawn, Model

MOST_EXECUTIONS = 500
LISTS = 8
WRONG = []


class Busy(Drawn):
    """A workflow made at random, with more tests and updates of facts."""

    def leaf(self, again):
        if self.draw.random() < 0.35:
            self.labels.append(self.draw.choice(["?", "!", "ins ", "ins ", "del "]) + self.draw.choice(["p(x)", "q"]))
            return ("leaf", len(self.labels) - 1)
        return super().leaf(again)


def events_of(model, leaves):
    return [model.labels[leaf] for leaf in leaves if model.is_event(leaf)]


def possible_lists(model):
    """Each list that begins a good trace and whose tests hold in turn."""
    found = set()
    for trace in model.good:
        facts, front = set(model.held), []
        found.add(())
        for leaf in trace:
            label = model.labels[leaf]
            if label[0] in "?!" and (label[1:] in facts) != (label[0] == "?"):
                break
            if label[:4] in ("ins ", "del "):
                (facts.add if label[0] == "i" else facts.discard)(label[4:])
            front.append(leaf)
            found.add(tuple(front))
    return found


def damaged(draw, events, names):
    events = list(events)
    kind = draw.choice(["none", "cut", "drop", "double", "move", "replace", "random"])
    if kind == "random" or not events and kind != "none":
        return [draw.choice(names) for _ in range(draw.randrange(5))]
    place = draw.randrange(len(events)) if events else 0
    if kind == "cut":
        del events[place:]
    elif kind == "drop":
        del events[place]
    elif kind == "double":
        events.insert(draw.randint(place, len(events)), events[place])
    elif kind == "move":
        events.insert(draw.randrange(len(events)), events.pop(place))
    elif kind == "replace":
        events[place] = draw.choice(names)
    return events


def is_right(model, possible, executions, names, events, told):
    """Whether a verdict, the event at which the list stops fitting, and the leaves of a journal are so."""
    verdict, place, leaves = told
    fronts = {tuple(events_of(model, found)) for found in possible}
    at = max(count for count in range(len(events) + 1) if tuple(events[:count]) in fronts)
    if at < len(events):
        return (verdict, place) == ("deviates" if events[at] in names else "unknown", str(at + 1)) and leaves is None
    shown = executions if any(events_of(model, found) == events for found in executions) else possible
    return (verdict, place) == ("execution" if shown is executions else "front", "") and leaves in shown and events_of(model, leaves) == events


def journal(folder, number):
    """The leaves of the journal of a sequence, if there is one."""
    file = folder / f"{number}.flow"
    if not file.exists():
        return None
    return tuple(int(line.split()[0]) for line in file.read_text().split("%%\n")[1].splitlines())


def answers(program, folder, text, asked):
    """What is told of each case, which has the number of its place as its name."""
    (folder / "journals").mkdir()
    (folder / "workflow.flow").write_text(text)
    with open(folder / "log.csv", "w", newline="") as file:
        csv.writer(file).writerows([["case", "activity"], *([case, event] for case, events in enumerate(asked) for event in events)])
    call = [program, "log", "log.csv", "--workflow", "workflow.flow", "--case", "case", "--activity", "activity", "--time", "", "--form", "csv", "--jobs", "1", "--journals", "journals"]
    told = subprocess.run(call, cwd=folder, capture_output=True, check=False).stdout.decode().splitlines()
    sequences = list(dict.fromkeys(map(tuple, asked)))
    rows = [row for row in csv.DictReader(told) if row["case"]]
    return [(row["verdict"], row["at"], journal(folder / "journals", sequences.index(tuple(asked[int(row["case"])])) + 1)) for row in rows]


def try_workflow(program, draw, drawn, model, tried):
    possible = possible_lists(model)
    executions = {leaves for leaves in possible if leaves in model.good}
    pool = sorted(possible)
    asked = [damaged(draw, events_of(model, draw.choice(pool)), [*drawn.events, "unknown"]) for _ in range(LISTS)]
    asked = [events for events in asked if events] or [["unknown"]]
    folder = pathlib.Path(tempfile.mkdtemp(prefix="fits_"))
    told = answers(program, folder, drawn.text(), asked)
    wrong = [events for events, answer in zip(asked, told) if not is_right(model, possible, executions, drawn.events, events, answer)]
    for verdict, *_ in told:
        tried[verdict] = tried.get(verdict, 0) + 1
    if wrong or len(told) != len(asked):
        WRONG.append(folder)
        print(f"wrong: {folder}: {wrong or told}")
    else:
        shutil.rmtree(folder)


def main():
    reader = argparse.ArgumentParser(description="flowdesk log beside the definitions.")
    reader.add_argument("program", nargs="?", default=str(TOP / "crates/flowdesk/out/flowdesk"))
    reader.add_argument("--workflows", type=int, default=2_000)
    reader.add_argument("--seed", type=int, default=1)
    options = reader.parse_args()
    program, draw, count, tried = os.path.abspath(options.program), random.Random(options.seed), 0, {}
    while count < options.workflows:
        drawn = (Busy if draw.random() < 0.7 else Drawn)(draw)
        if len(lists(drawn.goal)) > MOST_EXECUTIONS:
            continue
        model = Model(drawn)
        if model.good:
            try_workflow(program, draw, drawn, model, tried)
            count += 1
    keep_results("fits", ["seed", "workflows", "logs", "wrong", *sorted(tried)],
                 [[options.seed, count, sum(tried.values()), len(WRONG), *(tried[kind] for kind in sorted(tried))]])
    told = ", ".join(f"{kind} {number}" for kind, number in sorted(tried.items()))
    print(f"fits, seed {options.seed}: {count} workflows, {told}, {len(WRONG)} wrong")
    sys.exit(1 if WRONG else 0)


if __name__ == "__main__":
    main()
