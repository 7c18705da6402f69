#!/usr/bin/env python3
"""Two programs beside one another: random workflows, sessions, journals and queries, of which both must write the same.

Usage: bench/alike.py PROGRAM OTHER [--seed SEED] [--workflows COUNT] [--folded]

It shows what a change left as it was: OTHER is a program made before it. With --folded one of the two may fold choices and the other not: then the
counts of `check`, the numbers of options that are dropped, and which execution `verify` shows are not compared. The script ends with 1 where the
programs differ, and prints the input.
"""
import argparse
import random
import subprocess
import sys

COUNTS = ("resolutions ", "options ", "bulk ", "live ", "dropped ")
TOO_MANY = ("refused: choices", "refused: options", "refused: bulk")


class Drawn:
    """A workflow made at random: its text, the labels of its leaves, its events."""

    def __init__(self, draw):
        self.draw, self.count, self.labels = draw, 0, []
        goal = self.goal(draw.randint(2, draw.choice([6, 9, 12])), [])
        self.events = [f"e{number}" for number in range(self.count)] or ["z"]
        notes = ", ".join(event + draw.choice(["", "", " done", " fail", " fail 1"]) for event in self.events)
        some = draw.sample(self.events, max(1, len(self.events) // draw.choice([1, 2, 3])))
        rules = "".join(f"constraint {self.rule(some)};\n" for _ in range(draw.choice([0, 0, 1, 1, 2, 3])))
        facts = "fact p(x);\n" if draw.random() < 0.4 else ""
        self.text = f"{facts}event {notes};\ngoal {goal};\n{rules}"

    def leaf(self, again):
        """A leaf: nothing, a fact, an event that another side of a choice has, or a new one."""
        drawn = self.draw.random()
        if drawn < 0.08:
            return "nop"
        if drawn < 0.22:
            label = self.draw.choice(["?", "!", "ins ", "del "]) + self.draw.choice(["p(x)", "q"])
        elif again and drawn < 0.3:
            label = self.draw.choice(again)
        else:
            label, self.count = f"e{self.count}", self.count + 1
        self.labels.append(label)
        return label

    def goal(self, size, again):
        if size <= 1:
            return self.leaf(again)
        if self.draw.random() < 0.1:
            return f"iso({self.goal(size - 1, again)})"
        cut, operator, first = self.draw.randint(1, size - 1), self.draw.choices("*|+", [4, 3, 4])[0], self.count
        left = self.goal(cut, again)
        if operator != "+":
            again = []
        elif self.count == first + 1 and self.draw.random() < 0.3:
            again = [f"e{first}"]
        return f"({left} {operator} {self.goal(size - cut, again)})"

    def rule(self, events, depth=0):
        drawn, event = self.draw.random(), lambda: self.draw.choice(events)
        if depth < 2 and drawn < 0.25:
            inner = self.rule(events, depth + 1)
            return f"not ({inner})" if drawn < 0.1 else f"({inner} {self.draw.choice(['and', 'or'])} {self.rule(events, depth + 1)})"
        if drawn < 0.5 and len(events) > 1:
            return "order " + " ".join(self.draw.sample(events, 2))
        if drawn < 0.6:
            return f"{self.draw.choice(['must', 'never'])} {event()}"
        return f"{self.draw.choice(['precedes', 'needs'])} {event()} {event()}"


def called(program, words, source):
    call = subprocess.run([program, *words], input=source.encode(), capture_output=True, check=False)
    return call.returncode, call.stdout.decode()


def wanted(words, answer, folded):
    """What of an answer is compared."""
    status, text = answer
    if folded and words[0] == "verify":
        return status, text.split("\n")[0]
    if folded:
        return status, [line for line in text.split("\n") if not line.startswith(COUNTS)]
    return answer


def session(draw, leaves):
    """Commands that may or may not be possible."""
    lines, claims = [], 1
    for _ in range(draw.randint(5, 40)):
        claims += 1
        lines.append(draw.choice([f"take {draw.randrange(leaves)}", f"take {draw.randrange(leaves)}", f"do {draw.randrange(leaves)}",
                                  f"done {draw.randint(1, claims // 2)}", f"fail {draw.randint(1, claims // 2)}", "rewind", "enabled", "next", "commit"]))
    return lines


def following(draw, program, text):
    """A session that follows what the program says is possible."""
    lines = []
    for _ in range(draw.randint(3, 14)):
        told = called(program, ["drive"], f"{text}%%\n" + "\n".join([*lines, "enabled"]) + "\n")[1].split("\n")
        may = [line.split()[1:] for line in told if line.startswith("enabled")]
        given = [line.split()[1] for line in told if line.startswith("claim ")]
        if not may:
            break
        if may[-1] and draw.random() < 0.6:
            leaf = draw.choice(may[-1])
            lines += [f"take {leaf}", f"do {leaf}", "enabled"]
        elif given:
            lines += [f"{draw.choice(['done', 'done', 'fail'])} {draw.choice(given)}", "enabled"]
        else:
            lines += ["rewind", "enabled"]
    return [*lines, "commit"]


def journal_of(text):
    """The lines between the last `journal` and `verdict` of a report."""
    report = text[text.rfind("\nhistory ") + 1:].split("\n")
    begins = next((place for place, line in enumerate(report) if line.startswith("journal ")), len(report))
    return [line for line in report[begins + 1:] if line and not line.startswith("verdict")]


def calls(draw, drawn, program):
    """The calls about one workflow, each as words and an input."""
    text, leaves = drawn.text, len(drawn.labels)
    yield ["check"], text
    yield ["verify"], f"{text}%%\nholds {drawn.rule(drawn.events)};\n"
    yield ["verify"], f"{text}%%\nredundant 0;\n"
    yield ["run", "--workers", "1"], text
    if not leaves:
        return
    yield ["drive"], f"{text}%%\n" + "\n".join(session(draw, leaves)) + "\n"
    lines = following(draw, program, text)
    source = f"{text}%%\n" + "\n".join(lines) + "\n"
    yield ["drive"], source
    journal = journal_of(called(program, ["drive"], source)[1])
    numbered = [f"{leaf} {label}" for leaf, label in enumerate(drawn.labels)]
    for some in (journal, draw.sample(journal, len(journal)), draw.sample(numbered, draw.randint(1, leaves))):
        yield ["trace"], f"{text}%%\n" + "\n".join(some) + "\n"


def main():
    reader = argparse.ArgumentParser(description="Two programs beside one another.")
    reader.add_argument("programs", nargs=2)
    reader.add_argument("--seed", type=int, default=1)
    reader.add_argument("--workflows", type=int, default=1000)
    reader.add_argument("--folded", action="store_true")
    options = reader.parse_args()
    draw, (one, other) = random.Random(options.seed), options.programs
    tried, differ = {}, 0
    for _ in range(options.workflows):
        drawn = Drawn(draw)
        for words, source in calls(draw, drawn, one):
            answers = [called(program, words, source) for program in (one, other)]
            if options.folded and any(text.startswith(TOO_MANY) for _, text in answers):
                continue
            tried[words[0]] = tried.get(words[0], 0) + 1
            if wanted(words, answers[0], options.folded) != wanted(words, answers[1], options.folded):
                differ += 1
                print(f"they differ: {' '.join(words)}\n{source}\n{answers}", flush=True)
    print(f"seed {options.seed}: {tried}, {differ} differ")
    sys.exit(1 if differ else 0)


if __name__ == "__main__":
    main()
