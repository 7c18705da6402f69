#!/usr/bin/env python3
"""The rows of the order desk in crates/test_cases/data: by one worker, with no failure, and with each event failing once.

Usage: bench/desk.py [FOLDER]     where the files desk_*.rows are written; crates/test_cases/data where it is not given

What a row must write is told by a model of the definitions, which stands below and knows nothing of the program: an execution is
looked for block by block in the goal itself, with its choices, and no option, plan or pair of leaves is made.
"""
import functools
import pathlib
import re
import sys

TOP = pathlib.Path(__file__).resolve().parent.parent
FLOW = TOP / "examples/order_desk.flow"
# The files, and the rows of how many events stand in each.
FILES = {"entry": 4, "credit": 4, "goods": 5, "parcel": 5, "money": 5, "shipping": 4, "closing": 3}


class Workflow:
    """What the text says, in the part of the language that the order desk is written in."""

    def __init__(self, text):
        self.words = re.findall(r"[a-z_0-9]+|[^\sa-z_0-9]", text)
        self.flows, self.labels, self.precedes, self.needs = {}, [], [], []
        while self.words:
            self.item(self.words.pop(0))

    def item(self, kind):
        if kind == "flow":
            name, _ = self.words.pop(0), self.words.pop(0)
            start = list(self.words)
            self.either()
            self.labels = []
            self.flows[name] = start[:len(start) - len(self.words)]
        elif kind == "goal":
            self.goal = self.either()
        elif kind == "constraint":
            pairs = self.precedes if self.words.pop(0) == "precedes" else self.needs
            pairs.append((self.words.pop(0), self.words.pop(0)))
        else:
            del self.words[:self.words.index(";")]
        assert self.words.pop(0) == ";"

    def joined(self, mark, kind, member):
        goal = member()
        while self.words and self.words[0] == mark:
            self.words.pop(0)
            goal = (kind, goal, member())
        return goal

    def either(self):
        return self.joined("+", "either", self.beside)

    def beside(self):
        return self.joined("|", "beside", self.serial)

    def serial(self):
        return self.joined("*", "serial", self.atom)

    def atom(self):
        word = self.words.pop(0)
        if word in self.flows:
            # where it is named, a sub-workflow stands in parentheses
            self.words[:0] = ["(", *self.flows[word], ")"]
            return self.atom()
        if word == "nop":
            return ("nop",)
        if word in ("(", "iso"):
            if word == "iso":
                self.words.pop(0)
            goal = self.either()
            assert self.words.pop(0) == ")"
            return goal if word == "(" else ("iso", goal)
        label = word
        if word in ("?", "!", "ins", "del"):
            label += " " * (word in ("ins", "del")) + "".join(self.words[:4])
            del self.words[:4]
        self.labels.append(label)
        return ("leaf", len(self.labels) - 1)


@functools.cache
def may_be_empty(goal):
    kind, *parts = goal
    empty = [may_be_empty(part) for part in parts] if kind != "leaf" else [False]
    return any(empty) if kind == "either" else all(empty)


@functools.cache
def first_blocks(goal):
    """Each block that can come first, with the goal that is left."""
    kind, *parts = goal
    if kind == "nop":
        return ()
    if kind == "leaf":
        return (((parts[0],), ("nop",)),)
    if kind == "iso":
        return tuple((tuple(whole), ("nop",)) for whole in lists(parts[0]) if whole)
    left, right = parts
    if kind == "either":
        return first_blocks(left) + first_blocks(right)
    found = [(block, (kind, rest, right)) for block, rest in first_blocks(left)]
    if kind == "beside":
        found += [(block, (kind, left, rest)) for block, rest in first_blocks(right)]
    elif may_be_empty(left):
        found += first_blocks(right)
    return tuple(found)


def lists(goal):
    """Every execution of the goal."""
    found = [[]] if may_be_empty(goal) else []
    return found + [[*block, *more] for block, rest in first_blocks(goal) for more in lists(rest)]


class Desk:
    def __init__(self, workflow):
        self.workflow, self.labels = workflow, workflow.labels
        self.named = {event for pair in workflow.precedes + workflow.needs for event in pair}
        self.search = functools.cache(self.search)

    def is_event(self, leaf):
        return re.fullmatch("[a-z_]+", self.labels[leaf]) is not None

    def after(self, seen, block):
        """Of the events that constraints name those that have come after the block too; none where an order is broken by then."""
        for leaf in block:
            event = self.labels[leaf]
            if any(first == event and second in seen for first, second in self.workflow.precedes):
                return None
            if event in self.named:
                seen = seen | {event}
        return seen

    def search(self, goal, front, seen, barred):
        """Whether something that is left begins with the front, holds no barred leaf and makes a good execution."""
        if not front and may_be_empty(goal) and all(event not in seen or other in seen for event, other in self.workflow.needs):
            return True
        for block, rest in first_blocks(goal):
            if block[:len(front)] != front[:len(block)] or barred & set(block):
                continue
            then = self.after(seen, block)
            if then is not None and self.search(rest, front[len(block):], then, barred):
                return True
        return False

    def begins(self, front, barred):
        """Whether some good execution begins so and holds no barred leaf."""
        return self.search(self.workflow.goal, tuple(front), frozenset(), frozenset(barred))

    def is_good(self, journal):
        return self.begins(journal, set(range(len(self.labels))) - set(journal))

    def holds(self, journal, leaf):
        facts = set()
        for label in (self.labels[done] for done in journal):
            if label.startswith("ins "):
                facts.add(label[4:])
            elif label.startswith("del "):
                facts.discard(label[4:])
        label = self.labels[leaf]
        return (label[1:] in facts) == (label[0] == "?") if label[0] in "?!" else True

    def open_index(self, journal, bans):
        for index in reversed(range(len(journal))):
            if self.begins(journal[:index], {leaf for at, leaf in bans if at <= index} | {journal[index]}):
                return index
        return None

    def run(self, failing):
        """The report of the run by one worker in which that event fails at its first attempt, and its status."""
        journal, bans, lines, attempts = [], set(), [], {}

        def go_back():
            nonlocal bans
            index = self.open_index(journal, bans)
            if index is None:
                return False
            bans = {ban for ban in bans if ban[0] <= index} | {(index, journal[index])}
            del journal[index:]
            lines.append(f"rewound {index}")
            return True

        def told(verdict):
            written = [f"history {len(lines)}"] + [f"1: {line}" for line in lines] + [f"journal {len(journal)}"]
            written += [f"{leaf} {self.labels[leaf]}" for leaf in journal] + [f"verdict {verdict}"]
            return written, 0 if verdict == "committed" else 1

        while True:
            barred = {leaf for _, leaf in bans}
            able = [leaf for leaf in range(len(self.labels)) if self.begins([*journal, leaf], barred)]
            ready = [leaf for leaf in able if self.holds(journal, leaf)]
            if not ready:
                if self.is_good(journal):
                    lines.append("committed")
                    return told("committed")
                if not go_back():
                    return told(" ".join(["stuck", *map(str, able)]))
                continue
            leaf, event = ready[0], self.labels[ready[0]]
            if not self.is_event(leaf):
                lines.append(f"did {leaf}")
                journal.append(leaf)
                continue
            claim = sum(attempts.values()) + 1
            attempts[event] = attempts.get(event, 0) + 1
            lines.append(f"took {claim} {leaf}")
            if event != failing or attempts[event] > 1:
                lines.append(f"done {claim}")
                journal.append(leaf)
            elif self.begins(journal, barred | {leaf}):
                lines.append(f"failed {claim} switched")
                bans.add((len(journal), leaf))
            else:
                lines.append(f"failed {claim} kept")
                if not go_back():
                    return told(f"no-other {leaf}")


def main():
    folder = pathlib.Path(sys.argv[1]) if sys.argv[1:] else TOP / "crates/test_cases/data"
    text = "".join(line for line in FLOW.read_text().splitlines(keepends=True) if not line.startswith("#"))
    desk = Desk(Workflow(text))

    def row(name, failing):
        written, status = desk.run(failing)
        given = re.sub(rf"(?m)^(event .*\b{failing})\b(?=[,;])", r"\1 fail 1", text) if failing else text
        return f"=== {name}\nflow run --workers 1\n{status}\n{given}---\n" + "".join(f"{line}\n" for line in written)

    events = [event for line in re.findall("(?m)^event (.*);", text) for event in line.split(", ")]
    rows = [row("no task fails", None)]
    for file, count in FILES.items():
        rows += [row(f"{event} fails once", event) for event in events[:count]]
        events = events[count:]
        about = "The order desk run by one worker, where a task fails at its first attempt. bench/desk.py writes these rows.\n"
        (folder / f"desk_{file}.rows").write_text(about + "".join(rows))
        rows = []


if __name__ == "__main__":
    main()
