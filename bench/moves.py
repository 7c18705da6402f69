#!/usr/bin/env python3
"""Cases that are moved to changed texts: by names, killed at random moments, and beside other writers.

Usage: bench/moves.py [PART ..] [--cases N] [--kills N] [--program FILE]     PART: random, killed, beside; without one all

random   N cases (500) of random entries are moved to a text with one step more, to one with two approvals exchanged, to one with an
         event renamed, and to that one without saying so. By another way it is seen which of them can go: the entries are asked one
         after another, by names, in a new case. Just these are moved, with the same entries, users, times and notes. The others say
         which entry has no place, and are as they were. `verify` says that the new case and the old one inside are whole
killed   N moves (100) are killed (by SIGKILL) at random moments: then the case is as it was, or moved, or `move` finishes it
beside   five writers and a move at one case: each entry that was answered is in the case afterwards

The program is crates/flowdesk/out/flowdesk where none is given. The script ends with 1 where something came out otherwise.
"""
import argparse
import json
import pathlib
import random
import re
import shutil
import subprocess
import sys
import tempfile
import time

from measuring import TOP

BASE = """event enter, check, approve_first, approve_second, pay_card, pay_bank, pack, ship, archive;
goal enter * check * approve_first * approve_second * ((pay_card + pay_bank) * ins paid(o) | pack) * ?paid(o) * ship * (archive + nop);
"""
LEADS = ["approve_first", "approve_second", "check", "audit"]
STEP_MORE = BASE.replace("archive;\n", "archive, audit;\n", 1).replace("approve_second * ((", "approve_second * audit * ((")
EXCHANGED = BASE.replace("approve_first * approve_second", "approve_second * approve_first")
RENAMED = BASE.replace("pay_bank", "settle")
MOVES = {
    "step": (STEP_MORE, []),
    "exchanged": (EXCHANGED, []),
    "renamed": (RENAMED, ["--rename", "pay_bank=settle"]),
    "unsaid": (RENAMED, []),
}
REFUSED = re.compile(r"refused: entry (\d+) \(.*\) is not legal under the new texts: .*\. Nothing is changed\n")


def ran(*words, source=None):
    return subprocess.run([str(it) for it in words], input=source, capture_output=True, text=True, check=False)


def policy_of(text):
    """A policy for the events of the text."""
    events = re.match(r"event ([^;]*);", text).group(1).split(", ")
    clerks = [it for it in events if it not in LEADS[:2]]
    leads = [it for it in events if it in LEADS]
    return f"role clerk = ann, bob; role lead = cyd, bob;\nallow clerk {', '.join(clerks)}; allow lead {', '.join(leads)};\nseparate approve_first approve_second;\n"


class Desk:
    """The program, and a folder for its cases."""

    def __init__(self, program, folder):
        self.program, self.folder, self.faults = program, pathlib.Path(folder), 0

    def wrong(self, *what):
        self.faults += 1
        print("wrong:", *what, flush=True)

    def call(self, name, case, *words):
        return ran(self.program, name, case, *words)

    def text(self, name, text):
        path = self.folder / name
        path.write_text(text)
        return path

    def new(self, name, text, policy):
        case = self.folder / name
        words = ["--policy", self.text("policy", policy_of(text))] if policy else []
        made = self.call("new", case, "--workflow", self.text("text.flow", text), *words)
        assert made.returncode == 0, made
        return case

    def ask(self, case, line, user):
        """The answer to a line, as JSON."""
        said = ran(self.program, "open", case, "--json", "--as", user, "--at", "2026-11-30T14:02:11Z", "--note", f"by {user}", source=line + "\n")
        return json.loads(said.stdout)


def told(case):
    """What the trail tells of the entries: user, time, note, kind, claim, task."""
    entries = []
    for line in (case / "trail.jsonl").read_text().splitlines():
        if not line:
            continue
        line = json.loads(line)
        if line.get("void"):
            entries.pop()
        elif "n" in line:
            words = line["entry"].split()
            kept = words if words[0] not in ("took", "did") else words[:1] + words[1:-1]
            entries.append((line["by"], line["at"], line.get("note", ""), " ".join(kept), line["task"]))
    return entries


def files(case):
    return {str(path.relative_to(case)): path.read_bytes() for path in sorted(case.rglob("*")) if path.is_file()}


def step(desk, case, chance, policy):
    """Asks one thing at random. Whether anything is left to be asked."""
    todo = desk.ask(case, "todo", "ann")
    lines = [f"take {it['task']}@{it['leaf']}" for it in todo["begin"]]
    lines += [f"{chance.choice(['done', 'done', 'done', 'fail'])} {it['claim']}" for it in todo["out"]]
    if chance.random() < 0.1 or not lines:
        lines.append("rewind")
    if todo["state"] == "finished":
        lines.append("commit")
    for user in chance.sample(["ann", "bob", "cyd"], 3):
        desk.ask(case, chance.choice(lines), user)
    return todo["state"] != "committed"


def line_of(entry, renames):
    """The line that asks for an entry by its name, and who asks."""
    user, _, _, words, task = entry
    kind = words.split()
    task = renames.get(task, task)
    if kind[0] == "took":
        return f"take {task}", user
    if kind[0] == "did":
        return f"do \"{task}\"", user
    if kind[0] in ("done", "failed", "late"):
        return f"{'fail' if kind[0] == 'failed' else 'done'} {kind[1]}", user
    return ("rewind" if kind[0] == "rewound" else "commit"), user


def can_go(desk, entries, text, renames, policy):
    """How many of the entries come, one after another, in a new case of the text when they are asked for by their names."""
    case = desk.new("judge", text, policy)
    wanted = []
    for number, entry in enumerate(entries):
        line, user = line_of(entry, renames)
        desk.ask(case, line, user)
        wanted.append(entry[:4] + (renames.get(entry[4], entry[4]),))
        if told(case) != wanted:
            shutil.rmtree(case)
            return number, wanted
    shutil.rmtree(case)
    return len(entries), wanted


def moved(desk, case, text, renames, entries, wanted):
    """Looks at a case that was moved."""
    if told(case) != wanted:
        desk.wrong("other entries", case, told(case), wanted)
    last = [json.loads(line) for line in (case / "trail.jsonl").read_text().splitlines() if line][-1]
    old = case / "before-1"
    seal = desk.call("verify", old).stdout
    if last.get("entry") != len(entries) or f"whole: the last seal is {last.get('moved')}\n" != seal:
        desk.wrong("the line that tells the move", last, seal)
    if told(old) != entries or (case / "workflow.flow").read_text() != text:
        desk.wrong("the old case", old)
    for one in (case, old):
        whole = desk.call("verify", one)
        if whole.returncode or not whole.stdout.startswith("whole") or whole.stdout.count("\n") != 1:
            desk.wrong("not whole", one, whole)


def random_cases(desk, count, chance):
    """Cases of random entries, each moved in a random way."""
    went, stayed = {}, {}
    for number in range(count):
        policy, way = chance.random() < 0.5, chance.choice(list(MOVES))
        case = desk.new("case", BASE, policy)
        for _ in range(chance.randrange(0, 12)):
            if not step(desk, case, chance, policy):
                break
        entries, before = told(case), files(case)
        text, words = MOVES[way]
        renames = dict(word.split("=") for word in words[1:])
        possible, wanted = can_go(desk, entries, text, renames, policy)
        new_policy = ["--policy", desk.text("new.policy", policy_of(text))] if policy and way != "exchanged" else []
        call = desk.call("move", case, "--workflow", desk.text("new.flow", text), *new_policy, *words, "--as", "cyd", "--at", "later")
        if call.returncode == 0:
            went[way] = went.get(way, 0) + 1
            if possible != len(entries):
                desk.wrong("moved, and may not be", way, entries, possible)
            moved(desk, case, text, renames, entries, wanted)
        else:
            stayed[way] = stayed.get(way, 0) + 1
            said = REFUSED.fullmatch(call.stdout)
            if call.returncode != 1 or not said or possible == len(entries) or int(said.group(1)) != possible + 1:
                desk.wrong("not moved", way, call, entries, possible)
            if files(case) != before or (desk.folder / "case.moving").exists():
                desk.wrong("changed by a refusal", way, call)
        shutil.rmtree(case)
    print(f"{count} cases: moved {went}, refused {stayed}")


def killed(desk, count, chance):
    """Moves that are killed at random moments."""
    seen = {"as it was": 0, "moved": 0, "finished": 0}
    for number in range(count):
        case = desk.new("kill", BASE, False)
        for line in ["take enter", "done 1", "take check", "done 2"]:
            desk.ask(case, line, "ann")
        entries, text = told(case), desk.text("new.flow", STEP_MORE)
        call = subprocess.Popen([desk.program, "move", case, "--workflow", text, "--as", "ann"], stdout=subprocess.DEVNULL, stderr=subprocess.DEVNULL)
        time.sleep(chance.uniform(0, 0.08))
        call.kill()
        call.wait()
        how = "as it was"
        if not case.exists():
            how = "finished"
            said = desk.call("todo", case)
            if said.returncode != 8 or "flowdesk move" not in said.stderr:
                desk.wrong("a move that was cut off is not told", said)
            desk.call("move", case)
        elif (case / "before-1").exists():
            how = "moved"
        seen[how] += 1
        if told(case) != entries or desk.call("verify", case).returncode:
            desk.wrong("killed", how, told(case))
        if how == "as it was":
            shutil.rmtree(desk.folder / "kill.moving", ignore_errors=True)
            again = desk.call("move", case, "--workflow", text, "--as", "ann")
            if again.returncode or (desk.folder / "kill.moving").exists():
                desk.wrong("moved again", again)
        shutil.rmtree(case)
    print(f"killed {count} moves: {seen}")


def beside(desk, rounds):
    """Writers and a move at one case."""
    names = [f"e{number}" for number in range(5)]
    text = f"event {', '.join(names)};\ngoal {' | '.join(names)};\n"
    after = f"event {', '.join(names)}, last;\ngoal ({' | '.join(names)}) * last;\n"
    for _ in range(rounds):
        case = desk.new("beside", text, False)
        words = [[desk.program, "take", case, name, "--as", f"u_{name}", "--wait", "60"] for name in names]
        words.insert(2, [desk.program, "move", case, "--workflow", desk.text("after.flow", after), "--as", "ann", "--wait", "60"])
        calls = [subprocess.Popen([str(word) for word in call], stdout=subprocess.PIPE, stderr=subprocess.PIPE, text=True) for call in words]
        ended = [(call.wait(), call.stdout.read(), call.stderr.read()) for call in calls]
        whole = desk.call("verify", case)
        answered = sum(status == 0 for status, _, _ in ended) - 1
        if whole.returncode or len(told(case)) != answered or (answered < 5 and not any("move" in it[2] for it in ended)):
            desk.wrong("beside", ended, told(case), whole)
        shutil.rmtree(case)
    print(f"{rounds} moves beside five writers")


def main():
    words = argparse.ArgumentParser(description=__doc__, formatter_class=argparse.RawDescriptionHelpFormatter)
    words.add_argument("parts", nargs="*")
    words.add_argument("--cases", type=int, default=500)
    words.add_argument("--kills", type=int, default=100)
    words.add_argument("--seed", type=int, default=1)
    words.add_argument("--program", default=TOP / "crates/flowdesk/out/flowdesk")
    given = words.parse_args()
    parts = given.parts or ["random", "killed", "beside"]
    with tempfile.TemporaryDirectory() as folder:
        desk, chance = Desk(given.program, folder), random.Random(given.seed)
        if "random" in parts:
            random_cases(desk, given.cases, chance)
        if "killed" in parts:
            killed(desk, given.kills, chance)
        if "beside" in parts:
            beside(desk, 20)
    sys.exit(1 if desk.faults else 0)


if __name__ == "__main__":
    main()
