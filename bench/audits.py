#!/usr/bin/env python3
"""Many journals at once: `flow audit` beside a model of the definitions, and by one, two and four workers.

Usage: bench/audits.py [PROGRAM] [PART ..] [--journals COUNT] [--calls COUNT] [--seed SEED]     PART: model, times; without one both

model    journals of the order desk and of small workflows made at random: executions and fronts of them, and these with leaves left out,
         doubled or exchanged and with lines damaged. What is told of each is told before by the model of bench/desk.py, which looks for
         executions in the goal itself. By 1, 4 and 64 workers the program must write the same.
times    as many journals as an audit may have (1,024) of the order desk, as many as fit of 1,016 leaves over 256 options, and 1,024 of 64
         leaves over 4,096 options, all of them and with each fourth alone not empty, by 1, 2 and 4 workers, by turns in one run: the least
         milliseconds of so many calls each (five), how many times as fast four workers are as one, in all and (`checked`) less what it takes to
         compile the workflow, how many times as fast four calls by one worker each are side by side as in turn (`machine`: threads can gain no
         more), and what as many calls of `trace` take, less what each takes to compile the workflow (`check`).
         These figures tell something only on four processors that do nothing else.

--journals sets how many there are in each text (at most 1,024). The script ends with 1 where an answer
is not the model's, or not the same by other workers, and prints that.
"""
import argparse
import os
import pathlib
import random
import re
import subprocess
import sys
import tempfile
import time

from desk import FLOW, Desk, Workflow
from measuring import TOP, keep_results
from traces import a_thousand_leaves_by_the_last_of_256_options, sixty_four_leaves_by_the_last_of_4_096_options

MOST_JOURNALS = 1_024
GREATEST_INPUT = 1_048_576
WRONG = []


# --- the model

class Auditor:
    """What is told of journals of a workflow, by the definitions."""

    def __init__(self, text):
        self.desk = Desk(Workflow("".join(line for line in text.splitlines(keepends=True) if not line.startswith("#"))))
        self.labels = self.desk.labels

    def finding(self, text):
        """What is told of the text of a journal."""
        lines = text.replace("\r\n", "\n").split("\n")
        noted = [(number, re.fullmatch(r"(0|[1-9][0-9]{0,9}) (.+)", line, re.DOTALL)) for number, line in enumerate(lines) if line]
        for number, note in noted:
            if not note or int(note[1]) > 0xFFFF_FFFF:
                return f"line {number}"
        for number, note in noted:
            leaf = int(note[1])
            if leaf >= len(self.labels) or self.labels[leaf] != note[2]:
                return f"label {number}"
        return self.judged([int(note[1]) for _, note in noted])

    def judged(self, leaves):
        for count in range(1, len(leaves) + 1):
            if not self.desk.holds(leaves[:count - 1], leaves[count - 1]) or not self.desk.begins(leaves[:count], ()):
                return f"bad {count - 1}"
        return "execution" if self.desk.is_good(leaves) else "prefix"

    def written(self, journals):
        """All that an audit writes."""
        if not self.desk.begins([], ()):
            return None
        found = [self.finding(text) for text in journals]
        lines = [f"{number} {finding}" for number, finding in enumerate(found)]
        return "\n".join([*lines, f"executions {found.count('execution')} of {len(found)}", ""])

    def walk(self, draw):
        """The leaves of an execution, or of a front of one where no leaf is left that can be done."""
        leaves = []
        while not (self.desk.is_good(leaves) and draw.random() < 0.9):
            able = [leaf for leaf in range(len(self.labels)) if self.desk.holds(leaves, leaf) and self.desk.begins([*leaves, leaf], ())]
            if not able:
                break
            leaves.append(draw.choice(able))
        return leaves


def small_goal(draw, events, facts):
    """A goal of these events, some with a test or a change of a fact beside them."""
    if len(events) <= 1:
        leaf = events[0] if events else "nop"
        return draw.choice([leaf, leaf, f"(?{draw.choice(facts)} * {leaf})", f"(ins {draw.choice(facts)} * {leaf})", f"(del {draw.choice(facts)} * {leaf})"])
    cut = draw.randrange(1, len(events))
    parts = f" {draw.choice('**||+')} ".join(small_goal(draw, part, facts) for part in [events[:cut], events[cut:]])
    return f"{draw.choice(['', '', '', 'iso'])}({parts})"


def small_workflow(draw):
    events = list("abcdefg"[:draw.randrange(2, 7)])
    rules = [f"constraint {draw.choice(['precedes', 'needs'])} {' '.join(draw.sample(events, 2))};" for _ in range(draw.randrange(3))]
    return f"event {', '.join(events)}; goal {small_goal(draw, draw.sample(events, len(events)), ['p(x)', 'p(y)'])};\n{''.join(rules)}\n"


def damaged(draw, labels, leaves):
    """The text of a journal of these leaves, half of the time with one to three damages."""
    leaves, line = list(leaves), None
    for _ in range(draw.choice([0, 0, 0, 1, 2, 3])):
        place, other = (draw.randrange(len(leaves)) if leaves else 0 for _ in range(2))
        kind = draw.randrange(5)
        if kind == 0:
            del leaves[place:]
        elif kind == 1:
            del leaves[place:place + 1]
        elif kind == 2 and leaves:
            leaves[place], leaves[other] = leaves[other], leaves[place]
        elif kind == 3:
            leaves.insert(place, draw.randrange(len(labels)))
        else:
            line = draw.choice(["x", "", "01 a", "0 a", "7  b", " 0 a", "4294967296 a", "99999999999 a", "1", "1 ", "\t", f"{len(labels)} a"])
    written = [f"{leaf} {labels[leaf]}" for leaf in leaves]
    if line is not None:
        written.insert(draw.randrange(len(written) + 1), line)
    end = draw.choice(["\n", "\n", "\n", "\r\n"])
    return "".join(one + end for one in written)


def input_of(workflow, journals):
    """A workflow and journals as one input."""
    return (workflow.rstrip("\n") + "\n%%\n" + "%%\n".join(journals)).encode()


def told(program, workers, source):
    call = subprocess.run([program, "audit", "--workers", str(workers)], input=source, capture_output=True, check=False)
    return call.returncode, call.stdout.decode()


def wrong(what, source):
    kept = pathlib.Path(tempfile.gettempdir()) / f"audit_{len(WRONG)}"
    kept.write_bytes(source)
    WRONG.append(what)
    print(f"wrong: {what}: {kept}")


def agree(program, auditor, workflow, journals):
    """Whether the program writes what the model tells, by 1, 4 and 64 workers."""
    source, wanted = input_of(workflow, journals), auditor.written(journals)
    for workers in [1, 4, 64]:
        status, written = told(program, workers, source)
        if wanted is None:
            right = status == 1 and written.startswith("inconsistent\n")
        else:
            every = f"executions {len(journals)} of {len(journals)}\n"
            right = (status, written) == (0 if wanted.endswith(f"\n{every}") else 1, wanted)
        if not right:
            wrong(f"{workers} workers end with {status}", source)


def model(program, options):
    draw = random.Random(options.seed)
    workflow = FLOW.read_text()
    auditor = Auditor(workflow)
    walks = [auditor.walk(draw) for _ in range(max(1, options.journals // 16))]
    texts = [damaged(draw, auditor.labels, draw.choice(walks)) for _ in range(options.journals)]
    agree(program, auditor, workflow, texts)
    small, count = max(1, options.journals // 4), 0
    for _ in range(small):
        workflow = small_workflow(draw)
        auditor = Auditor(workflow)
        journals = [damaged(draw, auditor.labels, auditor.walk(draw)) for _ in range(draw.randrange(1, 20))]
        agree(program, auditor, workflow, journals)
        count += len(journals)
    print(f"model, seed {options.seed}: {len(texts)} journals of the order desk, and {count} of {small} small workflows, each by 1, 4 and 64 workers")


# --- the times

def desk():
    return FLOW.read_text(), (TOP / "examples/order_desk.journal").read_text().removeprefix("%%\n")


def parted(source):
    workflow, _, lines = source.partition("\n%%\n")
    return workflow, lines


KINDS = {
    "the order desk": desk,
    "1,016 leaves by the last of 256 options": lambda: parted(a_thousand_leaves_by_the_last_of_256_options()),
    "64 leaves by the last of 4,096 options": lambda: parted(sixty_four_leaves_by_the_last_of_4_096_options()),
}


def all_alike(lines, count):
    return [lines] * count


def each_fourth(lines, count):
    """Journals of unlike size: three of four are empty."""
    return [lines if place % 4 == 0 else "" for place in range(count)]


ROWS = [(name, all_alike) for name in KINDS] + [("64 leaves by the last of 4,096 options", each_fourth)]


def told_by(program, words, files):
    """The seconds of calls side by side, one a file, and what the first of them wrote. Each reads its file, for a pipe that is filled meanwhile takes time of its own."""
    begun = time.perf_counter()
    calls = [subprocess.Popen([program, *words], stdin=open(file, "rb"), stdout=subprocess.PIPE) for file in files]
    written = [call.communicate()[0].decode() for call in calls]
    return time.perf_counter() - begun, written[0]


def times(program, options):
    columns = ["1", "2", "4", "1 by 4", "checked", "machine", "by trace", "1 by trace"]
    print(f"{'journals':<52}{'count':>6}" + "".join(f"{column:>11}" for column in columns) + "  ends with")
    rows = []
    for name, of in ROWS:
        with tempfile.TemporaryDirectory() as folder:
            rows.append(row_of(program, options, name, of, pathlib.Path(folder)))
    keep_results("audits", ["journals", "count", *(f"{column} workers, ms" for column in columns[:3]), *columns[3:]], rows)


def row_of(program, options, name, of, folder):
    """Prints the row of journals of that kind, and gives it."""
    workflow, lines = KINDS[name]()
    room = GREATEST_INPUT - len(workflow) - 2
    count = min(options.journals, room // (len(lines) + 3))
    journals = of(lines, count)
    full = sum(1 for journal in journals if journal)
    every, one, alone = folder / "every", folder / "one", folder / "alone"
    for file, source in [(every, input_of(workflow, journals)), (one, input_of(workflow, [lines])), (alone, workflow.encode())]:
        file.write_bytes(source)
    calls = [(["audit", "--workers", str(workers)], [every]) for workers in [1, 2, 4]] + [(["trace"], [one]), (["check"], [alone])]
    calls.append((["audit", "--workers", "1"], [every] * 4))
    took = [[told_by(program, words, files) for words, files in calls] for _ in range(options.calls)]
    best = [1000 * min(spent for spent, _ in each) for each in zip(*took)]
    lasts = {written.rstrip("\n").split("\n")[-1] for turn in took for _, written in turn[:3]}
    if lasts != {f"executions {full} of {count}"}:
        wrong(f"{name}: ends with {lasts}", every.read_bytes())
    by_trace = full * (best[3] - best[4])
    rest = f"{(best[0] - best[4]) / (best[2] - best[4]):.2f}" if best[2] > best[4] else "-"
    told = [*(f"{spent:.1f}" for spent in best[:3]), f"{best[0] / best[2]:.2f}", rest, f"{4 * best[0] / best[5]:.2f}", f"{by_trace:.0f}",
            f"{best[0] / by_trace:.2f}" if by_trace > 0 else "-"]
    title = name + ("" if of is all_alike else ", each fourth")
    print(f"{title:<52}{count:>6}" + "".join(f"{column:>11}" for column in told) + f"  {min(lasts)}", flush=True)
    return title, count, *told


PARTS = {"model": model, "times": times}


def main():
    reader = argparse.ArgumentParser(description="Many journals at once.")
    reader.add_argument("words", nargs="*", help="the program, and the parts")
    reader.add_argument("--journals", type=int, default=MOST_JOURNALS)
    reader.add_argument("--calls", type=int, default=5)
    reader.add_argument("--seed", type=int, default=1)
    options = reader.parse_args()
    options.journals = max(1, min(options.journals, MOST_JOURNALS))
    programs = [word for word in options.words if word not in PARTS]
    program = os.path.abspath(programs[0]) if programs else str(TOP / "crates/flow/out/flow")
    for part in [word for word in options.words if word in PARTS] or PARTS:
        PARTS[part](program, options)
    sys.exit(1 if WRONG else 0)


if __name__ == "__main__":
    main()
