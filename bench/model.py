#!/usr/bin/env python3
"""`flow check`, `drive`, `trace` and `verify` beside a slow model of the definitions, on small workflows made at random.

Usage: bench/model.py [PROGRAM] [--workflows COUNT] [--seed SEED]     2,000 workflows where it is not given

The model goes through all executions of a goal (bench/desk.py has them) and knows of no row of bits. What may be taken or done, what is spared
and where a step back leads it finds by options in which every choice is resolved, though the program folds choices; the counts, and which options are
dropped, by options in which choices stay folded. A circle is held to what a circle is, and an execution that `verify` shows to what was asked. The script
ends with 1 where an answer is not the model's, and prints the input's file.
"""
import argparse
import itertools
import os
import pathlib
import random
import subprocess
import sys
import tempfile

from desk import lists, may_be_empty
from duties import Run
from measuring import TOP

STEPS = 65_536
MOST_EXECUTIONS = 3_000
FACTS = ["p(x)", "q"]
WRONG = []


# --- rules

def text_of(rule):
    kind, *parts = rule
    if kind == "not":
        return f"not ({text_of(parts[0])})"
    if kind in ("and", "or"):
        return f"({text_of(parts[0])} {kind} {text_of(parts[1])})"
    return " ".join([kind, *parts])


def named_in(rule):
    kind, *parts = rule
    return set().union(*map(named_in, parts)) if kind in ("not", "and", "or") else set(parts)


def is_met(rule, events):
    """Whether an execution with these events, in this order, meets the rule."""
    kind, *parts = rule
    place = {event: number for number, event in enumerate(events)}
    if kind == "not":
        return not is_met(parts[0], events)
    if kind in ("and", "or"):
        return (all if kind == "and" else any)(is_met(part, events) for part in parts)
    if kind in ("must", "never"):
        return (parts[0] in place) == (kind == "must")
    if kind == "order":
        return all(event in place for event in parts) and all(place[one] < place[two] for one, two in zip(parts, parts[1:]))
    first, second = parts
    if kind == "needs":
        return first not in place or second in place
    return first not in place or second not in place or place[first] < place[second]


def both(ones, twos):
    return [one + two for one in ones for two in twos]


def either(ones, twos):
    return [()] if [()] in (ones, twos) else ones + twos


def ways_of_pair(first, second, leaf_of, is_wanted):
    has_both = first in leaf_of and second in leaf_of and first != second
    if is_wanted:
        return [((leaf_of[first], leaf_of[second]),)] if has_both else []
    return [((leaf_of[second], leaf_of[first]),)] if has_both else [()]


def ways(rule, leaf_of, is_wanted=True):
    """The ways to meet the rule, or not to, where these events have these leaves."""
    kind, *parts = rule
    if kind == "not":
        return ways(parts[0], leaf_of, not is_wanted)
    if kind in ("and", "or"):
        join = both if (kind == "and") == is_wanted else either
        return join(*(ways(part, leaf_of, is_wanted) for part in parts))
    if kind in ("must", "never"):
        return [()] if ((parts[0] in leaf_of) == (kind == "must")) == is_wanted else []
    if kind == "needs":
        return ways(("or", ("never", parts[0]), ("must", parts[1])), leaf_of, is_wanted)
    if kind == "precedes":
        return ways(("or", ("or", ("never", parts[0]), ("never", parts[1])), ("order", *parts)), leaf_of, is_wanted)
    found = None
    for one, two in zip(parts, parts[1:]):
        pair = ways_of_pair(one, two, leaf_of, is_wanted)
        found = pair if found is None else (both if is_wanted else either)(found, pair)
    return found


# --- goals

def leaves(goal):
    kind, *parts = goal
    return [parts[0]] if kind == "leaf" else [leaf for part in parts for leaf in leaves(part)]


def outside_choices(goal):
    kind, *parts = goal
    return [parts[0]] if kind == "leaf" else [] if kind == "either" else [leaf for part in parts for leaf in outside_choices(part)]


class Folding:
    """Which choices stay: none does where nothing is folded."""

    def __init__(self, labels, named, is_on):
        self.labels, self.named, self.is_on = labels, named, is_on

    def has(self, goal, is_isolated):
        """Whether this choice stays."""
        return self.is_on and not is_isolated and not may_be_empty(goal) and not any(
            self.labels[leaf] in self.named for leaf in leaves(goal)) and all(map(self.has_all_in, goal[1:]))

    def has_all_in(self, goal, is_isolated=False):
        """Whether each choice in the goal stays."""
        kind, *parts = goal
        if kind in ("leaf", "nop"):
            return True
        if kind == "either":
            return self.has(goal, is_isolated)
        return all(self.has_all_in(part, is_isolated or kind == "iso") for part in parts)

    def resolutions(self, goal, is_isolated=False):
        """The goal with one side taken at each choice that does not stay, by number."""
        kind, *parts = goal
        if kind in ("leaf", "nop") or kind == "either" and self.has(goal, is_isolated):
            return [goal]
        if kind == "either":
            return [taken for part in parts for taken in self.resolutions(part, is_isolated)]
        return [(kind, *taken) for taken in itertools.product(*(self.resolutions(part, is_isolated or kind == "iso") for part in parts))]


def pairs_in_series(goal):
    """The pairs of leaves of which the goal puts the one before the other in a series."""
    kind, *parts = goal
    found = {pair for part in parts for pair in pairs_in_series(part)} if kind not in ("leaf", "nop") else set()
    return found | set(itertools.product(leaves(parts[0]), leaves(parts[1]))) if kind == "serial" else found


def items_of(goal):
    """The items of a part: its greatest isolated parts that have leaves, and its leaves outside those and outside choices."""
    kind, *parts = goal
    if kind == "leaf":
        return [frozenset(parts)]
    if kind == "iso":
        return [frozenset(leaves(goal))] if leaves(goal) else []
    return [] if kind in ("nop", "either") else [item for part in parts for item in items_of(part)]


def parts_of(goal):
    """What is inside each isolated part."""
    kind, *parts = goal
    if kind in ("leaf", "nop"):
        return []
    return [parts[0]] * (kind == "iso") + [inner for part in parts for inner in parts_of(part)]


def is_circle(goal, pairs, told):
    """Whether these are the least leaves of items of one part, each before the next and the last before the first, from the least on."""
    before = pairs_in_series(goal) | set(pairs)
    for part in [goal, *parts_of(goal)]:
        item_of = {min(item): item for item in items_of(part)}
        if len(told) > 1 and len(set(told)) == len(told) and told[0] == min(told) and all(leaf in item_of for leaf in told):
            ring = [item_of[leaf] for leaf in told]
            if all(any((x, y) in before for x in one for y in two) for one, two in zip(ring, ring[1:] + ring[:1])):
                return True
    return False


# --- a workflow

class Drawn:
    """A workflow made at random."""

    def __init__(self, draw):
        self.draw, self.labels, self.count = draw, [], 0
        self.goal = self.drawn(draw.randint(2, 7), [])
        self.events = [f"e{number}" for number in range(self.count)] + ["z"]
        some = draw.sample(self.events, max(1, len(self.events) // draw.choice([1, 2, 3])))
        self.rules = [self.rule(some, 0) for _ in range(draw.choice([0, 0, 1, 1, 2, 3]))]
        self.held = [fact for fact in FACTS if draw.random() < 0.3]

    def text(self):
        facts = "".join(f"fact {fact};\n" for fact in self.held)
        rules = "".join(f"constraint {text_of(rule)};\n" for rule in self.rules)
        return f"{facts}event {', '.join(self.events)};\ngoal {self.said(self.goal)};\n{rules}"

    def said(self, goal):
        kind, *parts = goal
        if kind == "nop":
            return "nop"
        if kind == "leaf":
            return self.labels[parts[0]]
        if kind == "iso":
            return f"iso({self.said(parts[0])})"
        return f" {dict(serial='*', beside='|', either='+')[kind]} ".join(["(" + self.said(part) + ")" for part in parts])

    def drawn(self, size, again):
        """A goal of so many leaves; `again` are events that stand on the other side of a choice."""
        if size <= 1:
            return self.leaf(again)
        if self.draw.random() < 0.12:
            return ("iso", self.drawn(size - 1, again))
        cut, kind, first = self.draw.randint(1, size - 1), self.draw.choices(["serial", "beside", "either"], [4, 3, 4])[0], self.count
        left = self.drawn(cut, again)
        fresh = [f"e{number}" for number in range(first, self.count)]
        again = self.draw.sample(fresh, 1) if kind == "either" and fresh and self.draw.random() < 0.4 else []
        return (kind, left, self.drawn(size - cut, again))

    def leaf(self, again):
        number = self.draw.random()
        if number < 0.08:
            return ("nop",)
        if number < 0.24:
            label = self.draw.choice(["?", "!", "ins ", "del "]) + self.draw.choice(FACTS)
        elif again and number < 0.7:
            label = again.pop()
        else:
            label, self.count = f"e{self.count}", self.count + 1
        self.labels.append(label)
        return ("leaf", len(self.labels) - 1)

    def rule(self, events, depth):
        number, event = self.draw.random(), lambda: self.draw.choice(events)
        if depth < 3 and number < 0.3:
            kind = self.draw.choice(["not", "and", "or", "or"])
            return (kind, *(self.rule(events, depth + 1) for _ in range(1 if kind == "not" else 2)))
        if number < 0.55 and len(events) > 1:
            return ("order", *self.draw.sample(events, self.draw.choice([2, 2, min(3, len(events))])))
        if number < 0.65:
            return (self.draw.choice(["must", "never"]), event())
        return (self.draw.choice(["precedes", "needs"]), event(), event())


class Model:
    """What the definitions say of a workflow."""

    def __init__(self, drawn):
        self.goal, self.labels, self.rules, self.held = drawn.goal, drawn.labels, drawn.rules, drawn.held
        named = set().union(*map(named_in, self.rules))
        self.folded = list(self.options(named, True))
        self.resolved = list(self.options(named, False))
        self.all = [tuple(trace) for trace in lists(self.goal)]
        self.good = {trace for trace in self.all if self.meets(trace, self.rules)}

    def is_event(self, leaf):
        return self.labels[leaf][0] == "e"

    def meets(self, trace, rules):
        events = [self.labels[leaf] for leaf in trace if self.is_event(leaf)]
        return all(is_met(rule, events) for rule in rules)

    def options(self, named, is_folding):
        """The number of each option's resolution and of its way, its goal, its pairs, and its executions."""
        for number, goal in enumerate(Folding(self.labels, named, is_folding).resolutions(self.goal)):
            leaf_of = {self.labels[leaf]: leaf for leaf in outside_choices(goal) if self.is_event(leaf)}
            found = [()]
            for rule in self.rules:
                found = both(found, ways(rule, leaf_of))
            self.count = number + 1
            for way, pairs in enumerate(found):
                in_order = [tuple(trace) for trace in lists(goal) if all(trace.index(one) < trace.index(two) for one, two in pairs)]
                yield number, way, goal, pairs, in_order
        if is_folding:
            self.resolution_count = self.count

    def runs(self, journal):
        facts = set(self.held)
        for leaf in journal:
            label = self.labels[leaf]
            if label[0] in "?!" and (label[1:] in facts) != (label[0] == "?"):
                return False
            if label[:4] in ("ins ", "del "):
                (facts.add if label[0] == "i" else facts.discard)(label[4:])
        return True

    def judged(self, journal):
        for count in range(1, len(journal) + 1):
            front = tuple(journal[:count])
            if not self.runs(front) or not any(trace[:count] == front for trace in self.good):
                return f"bad {count - 1}\n", 1
        return ("execution\n", 0) if tuple(journal) in self.good else ("prefix\n", 1)


class Nobody:
    """A policy that denies nothing."""

    users = []

    def denies(self, _user, _event, _takers):
        return None


class Session(Run):
    """A driven session, by options in which every choice is resolved."""

    def __init__(self, model):
        self.model, self.labels, self.policy, self.steps, self.by = model, model.labels, Nobody(), STEPS, 0
        self.options = [traces for *_, traces in model.resolved]
        self.history, self.journal, self.bans, self.claims, self.epoch, self.committed = [], [], [], [], 0, False

    def is_event(self, leaf):
        return self.model.is_event(leaf)

    def takers(self):
        return {}

    def holds(self, leaf):
        return self.labels[leaf][0] not in "?!" or self.model.runs([*self.journal, leaf])

    def reply(self, line):
        return self.next() if line == "next" else super().reply(line)

    def next(self):
        if self.committed:
            return "ended"
        if self.enabled():
            return f"act {self.enabled()[0]}"
        if self.current():
            return f"wait {self.current()[0]['number']}"
        if self.is_good():
            return "finished"
        return " ".join(["stuck", *(str(leaf) for leaf in range(len(self.labels)) if self.can_take(leaf) or self.can_do_aside(leaf))])


# --- what is tried

def wrong(what, source):
    kept = pathlib.Path(tempfile.gettempdir()) / f"model_{len(WRONG)}"
    kept.write_text(source)
    WRONG.append(what)
    print(f"wrong: {what}: {kept}")


def called(program, mode, source):
    call = subprocess.run([program, mode], input=source.encode(), capture_output=True, check=False)
    return call.stdout.decode(), call.returncode


def try_check(program, text, model):
    told, status = called(program, "check", text)
    lines = told.splitlines()
    live = sum(bool(traces) for *_, traces in model.folded)
    assert bool(live) == bool(model.good), "the model contradicts itself"
    if live:
        bulk = sum(len(leaves(goal)) + len(pairs) for _, _, goal, pairs, _ in model.folded)
        wanted = [f"leaves {len(model.labels)}", *(f"leaf {leaf} {label}" for leaf, label in enumerate(model.labels))]
        wanted += [f"resolutions {model.resolution_count}", f"options {len(model.folded)}", f"bulk {bulk}", f"live {live}", "consistent"]
        is_right = (lines, status) == (wanted, 0)
    else:
        is_right = (lines[:1], status, len(lines)) == (["inconsistent"], 1, 1 + len(model.folded)) and all(
            line.startswith(f"dropped {number} {way} circle ") and is_circle(goal, pairs, [int(word) for word in line.split()[4:]])
            for line, (number, way, goal, pairs, _) in zip(lines[1:], model.folded))
    if not is_right:
        wrong("check", text)


def line_of(draw, session):
    """A line that often is accepted."""
    able, out = session.enabled(), [claim["number"] for claim in session.claims if not claim["answered"]]
    kind = draw.choices(["take", "done", "fail", "rewind", "commit", "do", "look"], [7, 5, 3, 1, 1, 4, 2])[0]
    if kind in ("take", "do"):
        fitting = [leaf for leaf in able if session.is_event(leaf) == (kind == "take")]
        return f"{kind} {draw.choice(fitting) if fitting and draw.random() < 0.9 else draw.randrange(len(session.labels) + 1)}"
    if kind in ("done", "fail"):
        return f"{kind} {draw.choice(out) if out and draw.random() < 0.9 else draw.randrange(len(session.claims) + 2)}"
    return draw.choice(["enabled", "journal", "next"]) if kind == "look" else kind


def try_session(program, draw, text, model):
    session, lines, replies = Session(model), [], []
    for _ in range(draw.randrange(1, 25)):
        lines.append(line_of(draw, session))
        replies.append(session.reply(lines[-1]))
    source = f"{text}%%\n" + "".join(f"{line}\n" for line in lines)
    written, status = session.written([])
    if called(program, "drive", source) != ("".join(f"{reply}\n" for reply in replies) + written, status):
        wrong("drive", source)


def try_trace(program, draw, text, model):
    journal = list(draw.choice(list(sorted(model.all))))
    if draw.random() < 0.4:
        del journal[draw.randrange(len(journal) + 1):]
    if len(journal) > 1 and draw.random() < 0.4:
        one, two = draw.sample(range(len(journal)), 2)
        journal[one], journal[two] = journal[two], journal[one]
    source = f"{text}%%\n" + "".join(f"{leaf} {model.labels[leaf]}\n" for leaf in journal)
    if called(program, "trace", source) != model.judged(journal):
        wrong("trace", source)


def try_query(program, draw, text, drawn, model):
    if model.rules and draw.random() < 0.4:
        number = draw.randrange(len(model.rules))
        query, words = f"redundant {number};", ("redundant", "needed")
        rule, others = model.rules[number], model.rules[:number] + model.rules[number + 1:]
    else:
        rule, others = drawn.rule(drawn.events, 0), model.rules
        query, words = f"holds {text_of(rule)};", ("holds", "fails")
    source = f"{text}%%\n{query}\n"
    told, status = called(program, "verify", source)
    breaks = [trace for trace in model.all if model.meets(trace, others) and not model.meets(trace, [rule])]
    lines = told.splitlines()
    if breaks:
        shown = tuple(int(line.split()[0]) for line in lines[2:])
        is_right = status == 1 and shown in breaks and lines == [words[1], f"journal {len(shown)}", *(f"{leaf} {model.labels[leaf]}" for leaf in shown)]
    else:
        is_right = (lines, status) == ([words[0]], 0)
    if not is_right:
        wrong("verify", source)


def main():
    reader = argparse.ArgumentParser(description="flow beside a slow model.")
    reader.add_argument("program", nargs="?", default=str(TOP / "crates/flow/out/flow"))
    reader.add_argument("--workflows", type=int, default=2_000)
    reader.add_argument("--seed", type=int, default=1)
    options = reader.parse_args()
    program, draw, tried = os.path.abspath(options.program), random.Random(options.seed), dict.fromkeys(["check", "drive", "trace", "verify"], 0)
    while tried["check"] < options.workflows:
        drawn = Drawn(draw)
        if len(lists(drawn.goal)) > MOST_EXECUTIONS:
            continue
        text, model = drawn.text(), Model(drawn)
        try_check(program, text, model)
        tried["check"] += 1
        for _ in range(2):
            try_query(program, draw, text, drawn, model)
            tried["verify"] += 1
            if model.good:
                try_session(program, draw, text, model)
                try_trace(program, draw, text, model)
                tried["drive"] += 1
                tried["trace"] += 1
    print(f"model, seed {options.seed}: " + ", ".join(f"{mode} {count}" for mode, count in tried.items()) + f", {len(WRONG)} wrong")
    sys.exit(1 if WRONG else 0)


if __name__ == "__main__":
    main()
