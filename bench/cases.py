#!/usr/bin/env python3
"""Cases as folders, on real files: dialogues that are killed, bytes that are changed, commands at once, and what a command costs.

Usage: bench/cases.py [PART ..] [--kills N] [--programs FOLDER]     PART: killed, changed, ended, at_once, costs; without one all

killed   N dialogues (2,000) over the incident and the laboratory, each killed (by SIGKILL) at a random moment: of the entries that were
         shown none is lost and none comes twice, there is at most one line's more, and `verify` says that the case is whole
changed  each byte of the trail, the entries and the texts of a case is changed in turn, in two ways: `verify` refuses the case, or says
         another seal, or says that bytes behind the last record mean nothing
ended    a dialogue whose last line is refused ends with 0; one command that is refused ends with 1
at_once  ten commands at once on one case: all are answered, one after another
costs    the processor time of a command on a case of the order desk with 60 entries; and of a step in a dialogue beside a step of
         flowkeep

The programs are FOLDER/NAME, or crates/NAME/out/NAME. The script ends with 1 where something came out otherwise, and prints that.
"""
import argparse
import json
import pathlib
import random
import re
import resource
import shutil
import signal
import subprocess
import sys
import tempfile
import time

from measuring import TOP, keep_results

EXAMPLES = TOP / "examples"
# What one line of a dialogue makes: tests and updates, and then one entry.
OF_A_LINE = re.compile(r"(\d+: did \d+\n)*(\d+: (took|done|failed|rewound|committed).*\n)?$")
MEANS_NOTHING = "bytes at its end that mean nothing"


def ran(*words, source=None):
    return subprocess.run([str(it) for it in words], input=source, capture_output=True, text=True, check=False)


class Desk:
    """The program, and a folder for its cases."""

    def __init__(self, program, folder):
        self.program, self.folder, self.faults = program, pathlib.Path(folder), 0

    def wrong(self, *what):
        self.faults += 1
        print("wrong:", *what, flush=True)

    def call(self, name, case, *words):
        return ran(self.program, name, case, *words)

    def new(self, name, workflow, policy=None):
        """A case of its own."""
        case = self.folder / name
        made = self.call("new", case, "--workflow", workflow, *(["--policy", policy] if policy else []))
        assert made.returncode == 0, made
        return case

    def entries(self, case):
        """The entries of a case, as flowkeep prints them."""
        report = self.call("report", case).stdout.splitlines()
        first = next(place for place, line in enumerate(report) if line.startswith("history "))
        return report[first + 1:first + 1 + int(report[first].split()[1])]


def next_line(todo, chance):
    """A line that the case takes now, at random; nothing where none is left."""
    if todo["out"] and (not todo["begin"] or chance.random() < 0.6):
        return f"done {chance.choice(todo['out'])['claim']}"
    if todo["begin"]:
        task = chance.choice(todo["begin"])
        return f"take {task['task']}@{task['leaf']}"
    return "commit" if todo["state"] == "finished" else None


class Dialogue:
    """A dialogue in JSON: a line, its answer, and the next line."""

    def __init__(self, desk, case):
        words = [desk.program, "open", str(case), "--as", "ann", "--json"]
        self.process = subprocess.Popen(words, stdin=subprocess.PIPE, stdout=subprocess.PIPE, text=True)

    def tell(self, line):
        self.process.stdin.write(line + "\n")
        self.process.stdin.flush()

    def ask(self, line):
        self.tell(line)
        return json.loads(self.process.stdout.readline())

    def kill(self):
        self.process.send_signal(signal.SIGKILL)
        self.process.wait()
        self.process.stdin.close()
        self.process.stdout.close()


def talked(dialogue, chance, moment):
    """Talks up to a moment, and tells the entries that were shown; a last line may be told and not waited for."""
    shown, begun = [], time.monotonic()
    while True:
        line = next_line(dialogue.ask("todo"), chance)
        if line is None:
            return shown
        if time.monotonic() - begun >= moment:
            if chance.random() < 0.8:
                dialogue.tell(line)
                time.sleep(chance.uniform(0, 0.002))
            return shown
        answer = dialogue.ask(line)
        shown += answer["entries"] if answer["ok"] else []


def killed(desk, kills, chance):
    """Dialogues that are killed at random moments."""
    left = 0
    for number in range(kills):
        text = EXAMPLES / chance.choice(["incident.flow", "laboratory.flow"])
        case = desk.new(f"kill{number}", text)
        dialogue = Dialogue(desk, case)
        shown = talked(dialogue, chance, chance.uniform(0, 0.03))
        dialogue.kill()
        whole, kept = desk.call("verify", case), desk.entries(case)
        more = "".join(line + "\n" for line in kept[len(shown):])
        if whole.returncode or kept[:len(shown)] != shown or not OF_A_LINE.match(more):
            desk.wrong(text.name, whole.stdout, whole.stderr, shown, kept)
        left += len(kept) - len(shown) > 0
        shutil.rmtree(case)
    print(f"killed {kills} dialogues, in {left} of them an entry was kept that was not shown")
    return [("killed dialogues", kills, left)]


def changed_case(desk):
    """A case under a policy, with a note, a step back, and a tick."""
    policy = desk.folder / "changed.policy"
    policy.write_text("role clerk = ann; allow clerk a, b, c;\n")
    text = desk.folder / "changed.flow"
    text.write_text("event a, b, c;\ngoal (a + b) * c;\n")
    case = desk.new("changed", text, policy)
    words = ["--as", "ann", "--at", "2026-11-30T14:02:11Z", "--note", "by phone"]
    for line in ["take a", "done a", "rewind", "undone a --ok", "take b", "done b"]:
        made = desk.call(line.split()[0], case, *line.split()[1:], *words)
        assert made.returncode == 0, made
    return case


def changed(desk):
    """Each byte of the files of a case is changed in turn."""
    case = changed_case(desk)
    whole = desk.call("verify", case).stdout
    held = {file.name: file.read_bytes() for file in case.iterdir()}
    tried, resealed, behind = 0, 0, 0
    for name, right in held.items():
        for place in range(len(right)):
            for other in (right[place] ^ 1, right[place] ^ 64):
                (case / name).write_bytes(right[:place] + bytes([other]) + right[place + 1:])
                told = desk.call("verify", case)
                tried += 1
                if told.returncode == 0 and MEANS_NOTHING in told.stdout:
                    behind += 1
                elif told.returncode == 0 and told.stdout != whole:
                    resealed += 1
                elif told.returncode == 0:
                    desk.wrong("changed", name, place, right[place], other, told.stdout)
                for kept, data in held.items():
                    (case / kept).write_bytes(data)
    print(f"changed {tried} bytes: another seal {resealed}, behind the records {behind}")
    shutil.rmtree(case)
    return [("changed bytes", tried, resealed)]


def ended(desk):
    """The status of a dialogue is that of its end; that of a command is that of its reply."""
    text = desk.folder / "ended.flow"
    text.write_text("event a; goal a;\n")
    case = desk.new("ended", text)
    talk = ran(desk.program, "open", case, "--as", "ann", source="take a\ntake a\n")
    call = desk.call("take", case, "a", "--as", "ann")
    if talk.returncode != 0 or call.returncode != 1 or "refused" not in talk.stdout:
        desk.wrong("ended", talk, call)
    print(f"a dialogue ended with {talk.returncode}, a command with {call.returncode}")
    return [("a refused line ends a dialogue with", 1, talk.returncode)]


def at_once(desk):
    """Ten commands at once on one case."""
    names = [f"e{number}" for number in range(10)]
    text = desk.folder / "ten.flow"
    text.write_text(f"event {', '.join(names)};\ngoal {' | '.join(names)};\n")
    case = desk.new("ten", text)
    words = [[desk.program, "take", str(case), name, "--as", f"u_{name}", "--wait", "60"] for name in names]
    calls = [subprocess.Popen(call, stdout=subprocess.PIPE, text=True) for call in words]
    ended = [call.wait() for call in calls]
    entries = len(desk.entries(case))
    if any(ended) or entries != 10 or desk.call("verify", case).returncode:
        desk.wrong("at once", ended, entries)
    print(f"ten at once: {ended}, {entries} entries")
    return [("commands at once", 10, entries)]


def spent(*words, source=None):
    """The seconds of the processor that a call takes."""
    before = resource.getrusage(resource.RUSAGE_CHILDREN)
    done = ran(*words, source=source)
    after = resource.getrusage(resource.RUSAGE_CHILDREN)
    assert done.returncode in (0, 1), done
    return after.ru_utime + after.ru_stime - before.ru_utime - before.ru_stime


def command_costs(desk, chance):
    """A command on a case of the order desk with 60 entries."""
    case = desk.new("costs", EXAMPLES / "order_desk.flow")
    dialogue, shown = Dialogue(desk, case), 0
    while shown < 60:
        line = next_line(dialogue.ask("todo"), chance)
        answer = dialogue.ask(line if line and line != "commit" else "rewind")
        if not answer["ok"]:
            break
        shown += len(answer["entries"])
    dialogue.kill()
    rows = []
    for name, words in (("todo", ["todo", case]), ("history", ["history", case]), ("verify", ["verify", case])):
        least = min(spent(desk.program, *words) for _ in range(15)) * 1000
        print(f"{name} on {shown} entries: {least:.1f} ms of the processor, the least of 15")
        rows.append((f"{name}, {shown} entries, ms", 15, least))
    return rows


def step_costs(desk, keep):
    """A step in a dialogue, beside a step of flowkeep: 60 tasks beside one another, each taken and done."""
    names = [f"e{number}" for number in range(60)]
    text = desk.folder / "steps.flow"
    text.write_text(f"event {', '.join(names)};\ngoal {' | '.join(names)};\n")
    lines = "".join(f"take {name}\ndone {name}\n" for name in names)
    asked = "".join(f"take {number}\ndone {number + 1}\n" for number in range(60))
    kept, talk = [], []
    for number in range(7):
        case = desk.new(f"steps{number}", text)
        begun = time.monotonic()
        ran(desk.program, "open", case, "--as", "ann", "--json", source=lines)
        talk.append(time.monotonic() - begun)
        begun = time.monotonic()
        ran(keep, desk.folder / f"steps{number}.keep", source=text.read_text() + "%%\n" + asked)
        kept.append(time.monotonic() - begun)
    steps = [("a step in a dialogue, us", min(talk) / 120 * 1e6), ("a step of flowkeep, us", min(kept) / 120 * 1e6)]
    for what, figure in steps:
        print(f"{what}: {figure:.0f}")
    print(f"beside one another: {min(talk) / min(kept):.2f}")
    return [(what, 7, figure) for what, figure in steps]


def main():
    parser = argparse.ArgumentParser()
    parser.add_argument("parts", nargs="*", metavar="PART")
    parser.add_argument("--kills", type=int, default=2000)
    parser.add_argument("--programs", type=pathlib.Path)
    given = parser.parse_args()
    program, keep = (str(given.programs / name if given.programs else TOP / f"crates/{name}/out/{name}") for name in ("flowdesk", "flowkeep"))
    rows = []
    with tempfile.TemporaryDirectory() as folder:
        desk, chance = Desk(program, folder), random.Random(20261130)
        parts = {"killed": lambda: killed(desk, given.kills, chance), "changed": lambda: changed(desk), "at_once": lambda: at_once(desk),
                 "ended": lambda: ended(desk), "costs": lambda: command_costs(desk, chance) + step_costs(desk, keep)}
        for part in given.parts or parts:
            rows += parts[part]()
    if not given.parts:
        keep_results("cases", ["what", "tried", "figure"], rows)
    sys.exit(1 if desk.faults else 0)


if __name__ == "__main__":
    main()
