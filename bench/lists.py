#!/usr/bin/env python3
"""Many cases at a glance: `flowdesk list`, beside what `todo` says of each case, and how long it takes.

Usage: bench/lists.py [PART ..] [--kinds N] [--cases N] [--programs FOLDER]   PART: agrees, filters, threads, damaged, beside, costs

Some N cases (200) of the order desk and others, with a policy and without, go on at random. Of the order desk each has 30 entries or more.

agrees     of each case the line has the state, the tasks that may be begun at once with their users, and the claims that are out with
           their users and times, as `todo --json` has them
filters    each filter shows just the lines that meet it, by the lines without a filter
threads    1, 2, 4 and 8 threads give the same bytes, in words and in JSON, in the order of the names
damaged    a case whose trail is changed, one whose entry is, one without its text: each is a line that says so, and the others stay
beside     lists beside dialogues that go on: no case is damaged
costs      N copies (10,000) of cases of the order desk with 30 entries: how long a list takes, by 1 and by 4 threads, and its memory

The programs are FOLDER/NAME, or crates/NAME/out/NAME. The script ends with 1 where something came out otherwise, and prints that.
"""
import argparse
import datetime
import json
import pathlib
import random
import shutil
import subprocess
import sys
import tempfile
import time

from measuring import TOP, called, keep_results

EXAMPLES = TOP / "examples"
DESK = "order_desk.flow"
TEXTS = [DESK, "incident.flow", "laboratory.flow", "loan.flow"]
USERS = ["ann", "bob", "cid", "dora", "eve"]
ENTRIES = 30
POLICY = """role clerk = ann, bob;
role lead = ann;
role stock = cid, dora;
role money = dora, eve;

allow clerk receive, check_form, ask_back, register, credit_hold, credit_low, credit_full;
allow clerk close_order, archive, survey;
allow lead credit_ok;
allow stock reserve, backorder, pick, pack, weigh, label_home, label_abroad, customs;
allow stock book_van, book_mail, ship, track, notify_mail, notify_text;
allow money invoice, pay_card, pay_transfer, remind, post_payment;

separate credit_hold credit_ok;
bind pick pack;
"""


class Office:
    """The program, and a folder of cases."""

    def __init__(self, program, folder):
        self.program, self.top, self.faults = program, pathlib.Path(folder), 0
        self.folder = self.top / "office"
        self.folder.mkdir()
        self.policy = self.top / "desk.policy"
        self.policy.write_text(POLICY, encoding="utf-8")

    def wrong(self, *what):
        self.faults += 1
        print("wrong:", *what, flush=True)

    def call(self, *words):
        return subprocess.run([self.program, *map(str, words)], capture_output=True, text=True, check=False)

    def listed(self, *words, status=0):
        """The objects of a list, by the names of their cases."""
        done = self.call("list", self.folder, "--json", *words)
        if done.returncode != status:
            self.wrong("list", words, done.returncode, done.stderr)
        lines = [json.loads(line) for line in done.stdout.splitlines()]
        if [line["case"] for line in lines] != sorted(line["case"] for line in lines):
            self.wrong("order", words)
        return {line["case"]: line for line in lines}


def next_line(todo, chance):
    """A user and a line that the case takes now, at random; nothing where none is left."""
    if todo["out"] and (not todo["begin"] or chance.random() < 0.6):
        task = chance.choice(todo["out"])
        return task["user"], f"{'fail' if chance.random() < 0.05 else 'done'} {task['claim']}"
    open_to = [task for task in todo["begin"] if task.get("users", USERS)]
    if open_to:
        task = chance.choice(open_to)
        return chance.choice(task.get("users", USERS)), f"take {task['task']}@{task['leaf']}"
    return None


def walk(office, name, text, policy, chance, most):
    """A case that goes on at random up to so many entries. Each line is a call, with its user and its time."""
    case = office.folder / name
    words = ["--workflow", EXAMPLES / text, *(["--policy", office.policy] if policy else [])]
    made = office.call("new", case, *words)
    assert made.returncode == 0, made
    count, minute = 0, 0
    while count < most:
        todo = json.loads(office.call("todo", case, "--json", "--as", "ann").stdout)
        step = next_line(todo, chance)
        if step is None:
            break
        minute += 1
        at = (datetime.datetime(2026, 11, 1) + datetime.timedelta(minutes=minute)).strftime("%Y-%m-%dT%H:%M:%SZ")
        user, line = step
        answer = json.loads(office.call(*line.split(" ", 1)[:1], case, line.split(" ", 1)[1], "--json", "--as", user, "--at", at).stdout)
        count += len(answer.get("entries", []))
    return case, count


def agrees(office, cases):
    """Each line beside what `todo` says."""
    lines = office.listed()
    if sorted(lines) != sorted(map(str, cases)):
        office.wrong("cases", len(lines), len(cases))
    states = {}
    for case in cases:
        line, todo = lines[str(case)], json.loads(office.call("todo", case, "--json", "--as", "ann").stdout)
        at_once = [{key: task[key] for key in ("leaf", "task", "users") if key in task} for task in todo["begin"] if "steps" not in task]
        out = [{key: task[key] for key in ("leaf", "task", "claim", "attempt", "user", "at")} for task in todo["out"]]
        if line["begin"] != at_once or line["out"] != out:
            office.wrong("tasks", case, line, todo)
        if line["state"] != todo["state"] and not (line["state"] == "open" and line["steps"]):
            office.wrong("state", case, line, todo)
        states[line["state"]] = states.get(line["state"], 0) + 1
    print(f"agrees: {len(lines)} lines; {states}")
    return [("lines beside todo", len(lines), office.faults)]


def filters(office, cases):
    """Each filter beside the lines without one."""
    lines = office.listed()
    now = datetime.datetime.now(datetime.timezone.utc)

    def age(line):
        return now - datetime.datetime.strptime(line["last"], "%Y-%m-%dT%H:%M:%SZ").replace(tzinfo=datetime.timezone.utc)

    def waits_for(line, user):
        return line["steps"] or any(user in task.get("users", [user]) for task in line["begin"]) or any(user == task["user"] for task in line["out"])

    text = (EXAMPLES / DESK).read_text()
    tried = [(("--state", state), lambda line, state=state: line["state"] == state)
             for state in ("open", "waiting", "finished", "stuck", "stuck_by_duties", "committed")]
    tried += [(("--for", user), lambda line, user=user: waits_for(line, user)) for user in USERS + ["nobody_else"]]
    tried += [(("--older", f"{days}d"), lambda line, days=days: "last" in line and age(line) >= datetime.timedelta(days=days))
              for days in (0, 1, 20, 40, 10000)]
    tried += [(("--workflow", EXAMPLES / DESK), lambda line: (pathlib.Path(line["case"]) / "workflow.flow").read_text() == text)]
    tried += [(("--for", "ann", "--state", "open"), lambda line: waits_for(line, "ann") and line["state"] == "open")]
    shown = 0
    for words, meets in tried:
        got = office.listed(*words)
        shown += len(got)
        if got != {name: line for name, line in lines.items() if meets(line)}:
            office.wrong("filter", words, len(got))
    print(f"filters: {len(tried)} filters, {shown} lines shown")
    return [("filters", len(tried), shown)]


def threads(office, cases):
    """The same bytes by each number of threads."""
    for form in ([], ["--json"]):
        texts = [office.call("list", office.folder, "--jobs", jobs, *form).stdout for jobs in (1, 2, 4, 8)]
        if len(set(texts)) != 1 or texts[0].count("\n") != len(cases):
            office.wrong("threads", form, [len(text) for text in texts])
    print("threads: 1, 2, 4 and 8 give the same bytes")
    return [("threads with the same bytes", 4, len(cases))]


def damaged(office, cases):
    """Damaged cases among the others."""
    before = office.listed()
    trail, entry, text = cases[0], cases[1], cases[2]
    kept = [(trail / "trail.jsonl"), (entry / "run.keep"), (text / "policy" if (text / "policy").exists() else text / "workflow.flow")]
    saved = [path.read_bytes() for path in kept]
    kept[0].write_bytes(saved[0].replace(b'"by":"', b'"by":"x', 1))
    kept[1].write_bytes(saved[1][:1] + b"\x07" + saved[1][2:])
    kept[2].write_bytes(b"event ;")
    after = office.listed(status=1)
    for case in (trail, entry, text):
        if after[str(case)]["state"] != "damaged":
            office.wrong("not told", case, after[str(case)])
    told = [after[str(case)]["why"] for case in (trail, entry, text)]
    for name, line in before.items():
        if name not in (str(trail), str(entry), str(text)) and after.get(name) != line:
            office.wrong("others", name)
    for path, content in zip(kept, saved):
        path.write_bytes(content)
    if office.listed() != before:
        office.wrong("the cases are others now")
    print(f"damaged: {told}")
    return [("damaged cases told", 3, len(told))]


def beside(office, cases):
    """Lists while dialogues write."""
    busy = [case for case in cases if json.loads(office.call("todo", case, "--json", "--as", "ann").stdout)["out"]][:4]
    writers = []
    for case in busy:
        copy = office.folder / (case.name + "_busy")
        shutil.copytree(case, copy)
        todo = json.loads(office.call("todo", copy, "--json", "--as", "ann").stdout)
        claim, user = todo["out"][0]["claim"], todo["out"][0]["user"]
        lines = "".join(f"done {claim}\nrewind\n" for _ in range(200))
        process = subprocess.Popen([office.program, "open", str(copy), "--as", user], stdin=subprocess.PIPE, stdout=subprocess.DEVNULL, text=True)
        process.stdin.write(lines)
        process.stdin.flush()
        writers.append((copy, process))
    lists = 0
    while any(process.poll() is None for _, process in writers) and lists < 50:
        office.listed()
        lists += 1
        if lists == 10:
            for _, process in writers:
                process.stdin.close()
    for copy, process in writers:
        if not process.stdin.closed:
            process.stdin.close()
        process.wait()
        shutil.rmtree(copy)
    print(f"beside: {lists} lists beside {len(writers)} dialogues")
    return [("lists beside dialogues", len(writers), lists)]


def costs(office, cases, count):
    """Many copies of cases with 30 entries."""
    ripe = [case for case in cases if (case / "workflow.flow").read_text() == (EXAMPLES / DESK).read_text()
            and (case / "run.keep").stat().st_size // 16 >= ENTRIES]
    if not ripe:
        office.wrong("no case has so many entries")
        return []
    many = office.top / "many"
    many.mkdir()
    for number in range(count):
        shutil.copytree(ripe[number % len(ripe)], many / f"c{number:06}")
    rows = []
    for jobs in (1, 4):
        least, peak = None, 0
        for _ in range(5):
            spent, memory, _ = called(office.program, ["list", str(many), "--jobs", str(jobs)], b"")
            least, peak = min(least or 1e9, spent), max(peak, memory)
        print(f"costs: {count} cases of {len(ripe)} kinds, {jobs} threads: {least:.2f} s, {peak:.0f} MB")
        rows += [(f"list of {count} cases, {jobs} threads, s", 5, least), (f"its memory, {jobs} threads, MB", 5, peak)]
    shutil.rmtree(many)
    return rows


def main():
    parser = argparse.ArgumentParser()
    parser.add_argument("parts", nargs="*", metavar="PART")
    parser.add_argument("--kinds", type=int, default=200)
    parser.add_argument("--cases", type=int, default=10_000)
    parser.add_argument("--programs", type=pathlib.Path)
    given = parser.parse_args()
    program = str(given.programs / "flowdesk" if given.programs else TOP / "crates/flowdesk/out/flowdesk")
    rows = []
    with tempfile.TemporaryDirectory() as folder:
        office, chance, cases = Office(program, folder), random.Random(20261201), []
        begun = time.monotonic()
        for number in range(given.kinds):
            text = DESK if number % 2 == 0 else chance.choice(TEXTS)
            policy = text == DESK and number % 4 == 0
            most = ENTRIES + 2 if number % 2 == 0 else chance.randint(0, 40)
            case, _ = walk(office, f"k{number:04}", text, policy, chance, most)
            cases.append(case)
        print(f"{len(cases)} cases made in {time.monotonic() - begun:.0f} s", flush=True)
        parts = {"agrees": agrees, "filters": filters, "threads": threads, "damaged": damaged, "beside": beside,
                 "costs": lambda office, cases: costs(office, cases, given.cases)}
        for part in given.parts or parts:
            rows += parts[part](office, cases)
    if not given.parts:
        keep_results("lists", ["what", "tried", "figure"], rows)
    sys.exit(1 if office.faults else 0)


if __name__ == "__main__":
    main()
