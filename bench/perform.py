#!/usr/bin/env python3
"""Cases whose tasks a script performs, killed with its tasks at random moments.

Usage: bench/perform.py [--cases N] [--kills N] [FLOWDESK]     200 cases and 2,000 kills; the program crates/flowdesk/out/flowdesk

Cases of the incident, the laboratory and the order desk are performed by examples/tools/perform, 16 jobs at once. A task
fails now and then. The bench ends with 1 where a case does not end committed and whole, where a done task's command never
ran to its end, or where a command runs though its result is kept.
"""
import argparse
import json
import os
import pathlib
import random
import re
import shutil
import signal
import subprocess
import sys
import tempfile
import threading
import time

from measuring import keep_results

TOP = pathlib.Path(__file__).resolve().parent.parent
PERFORM = TOP / "examples/tools/perform"
TEXTS = ["incident", "laboratory", "order_desk"]
GROUP = 10

TASK = """#!/bin/sh
# A task: it notes when it begins and when it ends, and fails once in a while.
test -e "results/$FLOW_CLAIM" && echo "$FLOW_CASE $FLOW_CLAIM $FLOW_TASK" >> "$LOGS/again"
sleep 0.0$(( $(od -An -N1 -tu1 /dev/urandom) % 5 ))
echo "$FLOW_CLAIM $FLOW_TASK" >> results/ended.log
test "$(( ($(printf %s "$FLOW_KEY$FLOW_ATTEMPT" | cksum | cut -d' ' -f1)) % 6 ))" != 0
"""


def called(*words):
    return subprocess.run([str(it) for it in words], capture_output=True, text=True)


def events_of(text):
    """The events that a workflow declares."""
    declared = re.findall(r"\bevent\b([^;]*);", re.sub(r"#.*", "", text))
    return [it.split()[0] for line in declared for it in line.split(",")]


def made(desk, folder, count):
    """Makes the cases, and a table of all events for each text."""
    for number in range(count):
        group = folder / str(number // GROUP)
        group.mkdir(exist_ok=True)
        text = TOP / "examples" / f"{TEXTS[number % len(TEXTS)]}.flow"
        told = called(desk, "new", group / f"case{number}", "--workflow", text)
        assert told.returncode == 0, told
    events = {it for name in TEXTS for it in events_of((TOP / "examples" / f"{name}.flow").read_text())}
    task = folder / "task.sh"
    task.write_text(TASK)
    table = folder / "table"
    table.write_text("".join(f"{it}\tsh {task}\t20\t0\n" for it in sorted(events)))
    return table


def perform(desk, table, group, seconds=None):
    """Performs a group, and kills the script with its tasks after so many seconds. Gives what it told, or None if it was killed."""
    words = [PERFORM, table, group, "--as", "bot", "--jobs", "16", "--desk", desk]
    script = subprocess.Popen([str(it) for it in words], stdout=subprocess.PIPE, stderr=subprocess.PIPE, text=True, start_new_session=True)
    try:
        told = script.communicate(timeout=seconds)
        return script.returncode, told
    except subprocess.TimeoutExpired:
        os.killpg(script.pid, signal.SIGKILL)
        script.communicate()
        return None


def faults_of(desk, case):
    """What is wrong with a case that was performed to its end."""
    verify, report = called(desk, "verify", case), called(desk, "report", case).stdout
    faults = [] if verify.returncode == 0 else [f"verify: {verify.stdout}{verify.stderr}"]
    if "verdict committed" not in report:
        faults.append(f"not committed: {report[-300:]}")
    ended = (case / "results/ended.log").read_text().split("\n") if (case / "results/ended.log").exists() else []
    claims = {line.split()[0] for line in ended if line.strip()}
    done = re.findall(r"^\d+: done (\d+)$", report, re.M)
    return faults + [f"claim {it} is done, and its command never ended" for it in done if it not in claims]


def main():
    words = argparse.ArgumentParser()
    words.add_argument("desk", nargs="?", default=TOP / "crates/flowdesk/out/flowdesk")
    words.add_argument("--cases", type=int, default=200)
    words.add_argument("--kills", type=int, default=2000)
    words.add_argument("--seed", type=int, default=1)
    options = words.parse_args()
    desk = os.path.abspath(options.desk)
    faults, lock = [], threading.Lock()
    with tempfile.TemporaryDirectory() as folder:
        folder = pathlib.Path(folder)
        os.environ["LOGS"] = str(folder)
        table = made(desk, folder, options.cases)
        groups = sorted((it for it in folder.iterdir() if it.is_dir()), key=lambda it: int(it.name))
        kills = options.kills // len(groups)

        def through(group):
            chance = random.Random(f"{options.seed} {group.name}")
            killed = 0
            for _ in range(kills):
                killed += perform(desk, table, group, chance.uniform(0.05, 0.6)) is None
            told = perform(desk, table, group)
            found = [f"{case.name}: {it}" for case in sorted(group.glob("case*")) for it in faults_of(desk, case)]
            with lock:
                counts.append(killed)
                faults.extend(found + ([f"{group.name}: {told}"] if told[0] else []))

        counts, began = [], time.monotonic()
        for at in range(0, len(groups), 4):
            threads = [threading.Thread(target=through, args=(it,)) for it in groups[at : at + 4]]
            for it in threads:
                it.start()
            for it in threads:
                it.join()
        again = (folder / "again").read_text().splitlines() if (folder / "again").exists() else []
        faults += [f"performed again: {it}" for it in again]
        seconds = time.monotonic() - began
        print(f"{options.cases} cases, killed {sum(counts)} of {kills * len(groups)} times, {seconds:.0f} s, faults {len(faults)}")
        keep_results("perform", ["cases", "kills", "seconds", "faults"], [[options.cases, sum(counts), round(seconds), len(faults)]])
    for it in faults[:20]:
        print(it)
    return 1 if faults else 0


if __name__ == "__main__":
    sys.exit(main())
