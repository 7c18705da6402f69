#!/usr/bin/env python3
"""The reasons that `flowdesk explain --session .. --json` gives of leaves that are blocked, held against the definitions.

Usage: bench/blocked.py [PROGRAM] [--leaves COUNT] [--seed SEED]     20,000 leaves by crates/flowdesk/out/flowdesk where it is not given

Workflows are made at random, and so are sessions with failures, steps back and claims that stay out. A session is asked about in one call, which
tells of each leaf that is neither done nor free, and of each line that is refused. The model goes through all executions of a goal (bench/model.py):
it judges the reason, that each leaf, constraint and claim that is named is so, and that least sets are least. The script ends with 1 where an answer
is not so, and prints the folder with the workflow and the session.
"""
import argparse
import collections
import json
import os
import pathlib
import random
import subprocess
import sys
import tempfile

from measuring import TOP, keep_results
from model import Drawn, Model, Session, leaves, line_of

SESSIONS = 4
MOST_EXECUTIONS = 400


def isolated_parts(goal):
    """The goals that stand isolated in the goal."""
    kind, *parts = goal
    if kind in ("leaf", "nop"):
        return []
    return (parts if kind == "iso" else []) + [inner for part in parts for inner in isolated_parts(part)]


class Judge:
    """What may be said of a leaf of a run, by all executions."""

    def __init__(self, model, run, leaf):
        self.model, self.run, self.leaf, self.journal = model, run, leaf, tuple(run.journal)
        self.going_on = [trace for trace in model.all if trace[:len(self.journal)] == self.journal]
        self.having = [trace for trace in self.going_on if leaf in trace]
        self.next = [trace for trace in self.going_on if trace[:len(self.journal) + 1] == self.journal + (leaf,)]

    def meets(self, trace, numbers):
        return self.model.meets(trace, [self.model.rules[number] for number in numbers])

    def could(self, out):
        """Whether it could come with just these leaves out, if nothing had been given up."""
        bans, self.run.bans = self.run.bans, []
        found = self.run.follow([], [*out, self.leaf]) if self.run.is_event(self.leaf) else self.run.follow([self.leaf], out)
        self.run.bans = bans
        return found

    def reason(self):
        """The first reason that holds."""
        run, leaf, rules = self.run, self.leaf, range(len(self.model.rules))
        if run.committed:
            return "over"
        if run.can_take(leaf) or run.can_do_aside(leaf) and run.holds(leaf):
            return "free"
        if leaf in run.journal:
            return "done"
        if leaf in run.leaves_out():
            return "out"
        if run.can_do_aside(leaf):
            return "false"
        if any(self.apart(other) for other in run.journal):
            return "other_side"
        if self.is_given_up():
            return "given_up"
        if not self.next:
            return "waits"
        if not any(self.meets(trace, rules) for trace in self.next):
            return "waits_by_constraints"
        return "barred" if self.could(run.leaves_out()) else "claims"

    def is_given_up(self):
        """Whether no free trace has it, and without the bans some good trace that begins with the journal has it."""
        banned, rules = {leaf for _, leaf in self.run.bans}, range(len(self.model.rules))
        good = [trace for trace in self.having if self.meets(trace, rules)]
        return bool(good) and all(banned & set(trace) for trace in good)

    def apart(self, other):
        return self.are_apart(self.leaf, other)

    def before(self, other):
        return other not in self.journal and all(other in trace and trace.index(other) < trace.index(self.leaf) for trace in self.having)

    def fault(self, told):
        """What is wrong with what is told, if anything. An isolated part that is open is one of the ways to wait by the goal alone."""
        if told["reason"].replace("isolated", "waits") != self.reason():
            return f"the reason is {self.reason()}"
        return getattr(self, "of_" + told["reason"], lambda told: "")(told)

    def of_done(self, told):
        by, line = self.run.history[told["entry"]]
        words = line.split()
        claimed = self.run.claims[int(words[1]) - 1]["leaf"] if words[0] == "done" else int(words[1])
        return "" if words[0] in ("done", "did") and claimed == self.leaf else "that entry did not do it"

    def of_out(self, told):
        claim = self.run.claims[told["claim"] - 1]
        right = claim in self.run.current() and claim["leaf"] == self.leaf
        given = self.run.history[told["entry"]][1] == f"took {told['claim']} {self.leaf}"
        return "" if right and given and told["user"] == claim["by"] else "that claim is not out on it"

    def of_false(self, told):
        label = self.model.labels[self.leaf]
        change = ("ins " if label[0] == "?" else "del ") + label[1:]
        leaves = [leaf for leaf, other in enumerate(self.model.labels) if other == change and leaf not in self.journal]
        return "" if (told["wanted"], told["leaves"]) == (label[0] == "?", leaves) else f"the leaves are {leaves}"

    def of_other_side(self, told):
        other, = told["leaves"]
        return "" if other in self.journal and self.apart(other) else "that leaf did not choose"

    def of_waits(self, told):
        if not told["leaves"] and self.left_of_parts():
            return "an isolated part is open"
        return "" if all(map(self.before, told["leaves"])) else "one of the leaves does not come first"

    def left_of_parts(self):
        """What is left of isolated parts that are begun and do not have the leaf, but what no trace has with all that is done of the part."""
        left = set()
        for part in isolated_parts(self.model.goal):
            inside, done = set(leaves(part)), set(self.journal) & set(leaves(part))
            if done and self.leaf not in inside:
                left |= {one for one in inside - done if not any(self.are_apart(one, other) for other in done)}
        return sorted(left)

    def are_apart(self, one, other):
        return not any(one in trace and other in trace for trace in self.model.all)

    def of_isolated(self, told):
        return "" if told["leaves"] and told["leaves"] == self.left_of_parts() else f"left of isolated parts is {self.left_of_parts()}"

    def of_waits_by_constraints(self, told):
        members = told["constraints"]
        if not told["least"] or not members or members != sorted(set(members)):
            return "the set is not said to be least"
        if any(self.meets(trace, members) for trace in self.next):
            return "some trace meets the constraints"
        for left_out in members:
            if not any(self.meets(trace, [other for other in members if other != left_out]) for trace in self.next):
                return f"constraint {left_out} is not needed"
        return ""

    def of_claims(self, told):
        claims = [self.run.claims[number - 1] for number in told["claims"]]
        if not claims or not all(claim in self.run.current() for claim in claims):
            return "one of the claims is not out"
        leaves = [claim["leaf"] for claim in claims]
        if self.could(leaves):
            return "the claims are not in the way"
        if not all(self.could([other for other in leaves if other != leaf]) for leaf in leaves):
            return "one of the claims is not needed"
        return ""


def asked(program, folder, text, session):
    """The objects that are told of the session."""
    for name, what in (("text.flow", text), ("lines", "".join(line + "\n" for line in session))):
        (folder / name).write_text(what)
    call = subprocess.run([program, "explain", folder / "text.flow", "--session", folder / "lines", "--json"], capture_output=True, check=False)
    return [json.loads(line) for line in call.stdout.splitlines()], call.returncode


def faults(model, session, told, status):
    """What is wrong with what is told of a session, and how many leaves were judged by their reasons."""
    run, tally = Session(model), collections.Counter()
    refused = [one for one in told if "reply" in one]
    for number, line in enumerate(session, 1):
        held = tuple(map(str, (run.journal, run.bans, run.claims)))
        reply = run.reply(line)
        if not reply.startswith(("refused", "late")):
            continue
        if not refused or (refused[0]["line"], refused[0]["reply"]) != (number, reply):
            return f"line {number} is answered by {reply}", tally
        one = refused.pop(0)
        if "reason" in one:
            assert held == tuple(map(str, (run.journal, run.bans, run.claims)))
            tally[one["reason"]] += 1
            fault = Judge(model, run, one["leaf"]).fault(one)
            if fault:
                return f"line {number}: {fault}", tally
    if refused:
        return "a line is told as refused that is not", tally
    if status != (0 if run.committed else 1):
        return "the status is another", tally
    of_leaf = {one["leaf"]: one for one in told if "reply" not in one}
    for leaf in range(len(model.labels)):
        judge = Judge(model, run, leaf)
        blocked = judge.reason() not in ("free", "done", "over")
        if blocked != (leaf in of_leaf):
            return f"leaf {leaf} is {judge.reason()}", tally
        if blocked:
            tally[of_leaf[leaf]["reason"]] += 1
            fault = judge.fault(of_leaf[leaf])
            if fault:
                return f"leaf {leaf}: {fault}", tally
    return "", tally


def session_of(draw, model):
    run, lines = Session(model), []
    for _ in range(draw.randint(1, 14)):
        line = line_of(draw, run)
        run.reply(line)
        lines.append(line)
    return lines


def main():
    words = argparse.ArgumentParser()
    words.add_argument("program", nargs="?", default=str(TOP / "crates/flowdesk/out/flowdesk"))
    words.add_argument("--leaves", type=int, default=20_000)
    words.add_argument("--seed", type=int, default=1)
    options = words.parse_args()
    draw, tally, workflows = random.Random(options.seed), collections.Counter(), 0
    with tempfile.TemporaryDirectory() as place:
        folder = pathlib.Path(place)
        while sum(tally.values()) < options.leaves:
            drawn = Drawn(draw)
            model = Model(drawn)
            if len(model.all) > MOST_EXECUTIONS or not model.good:
                continue
            workflows += 1
            for _ in range(SESSIONS):
                session = session_of(draw, model)
                told, status = asked(options.program, folder, drawn.text(), session)
                fault, more = faults(model, session, told, status)
                tally += more
                if fault:
                    kept = pathlib.Path(tempfile.mkdtemp(prefix="blocked_"))
                    for name in ("text.flow", "lines"):
                        (kept / name).write_text((folder / name).read_text())
                    print(f"wrong: {fault}: {kept}")
                    return 1
    keep_results("blocked", ["reason", "leaves judged"], [["in all", sum(tally.values())], *map(list, tally.most_common())])
    print(f"{sum(tally.values())} reasons of {workflows} workflows are as the definitions have it: {dict(tally.most_common())}")
    return 0


if __name__ == "__main__":
    sys.exit(main())
