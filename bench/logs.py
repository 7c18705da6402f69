#!/usr/bin/env python3
"""Event logs by `flowdesk log`, beside Python's csv and a list of all executions that was written by hand.

Usage: bench/logs.py [PROGRAM] [--large [--plain PROGRAM]]     crates/flowdesk/out/flowdesk where it is not given

- Random logs: quotes, line ends of both kinds, bad rows, mixed cases. Cases, lines, sequences and verdicts are compared.
- 2,000 cases of the laboratory, of which 5 % are spoilt in eight ways: each is found with its reason, and no other.
- One thread beside four: the same bytes.
- Journals of 2,000 cases: `flow trace` gives each the verdict that was told (crates/flow/out/flow must be there).
- 720 sequences of a workflow with many silent leaves, where judging is the work: one thread beside four, by the clock.
- With --large: a log of 1 GB (10 million events, a million cases, 5,000 sequences), time and memory. PROGRAM behind --plain
  reads the same file by a plain loop of the kit's csv (bench/plain/count_rows.txt): `PROGRAM FILE`. In turns with it, the log is
  to take at most 1.5 times as long, and 300 MB.
"""
import argparse
import collections
import csv
import io
import itertools
import json
import os
import pathlib
import random
import resource
import subprocess
import sys
import tempfile
import time

from measuring import keep_results

FOUND = []

ROOT = pathlib.Path(__file__).resolve().parent.parent
LABORATORY = ROOT / "examples/laboratory.flow"
EVENTS = ("register split weigh spectrum titrate average set_control read_control second_look release file").split()


def shuffles(one, other):
    if not one or not other:
        return [one + other]
    return [one[:1] + rest for rest in shuffles(one[1:], other)] + [other[:1] + rest for rest in shuffles(one, other[1:])]


def laboratory():
    """All executions of the laboratory, as lists of events."""
    found = set()
    for way in (["weigh", "spectrum"], ["weigh", "titrate", "average"]):
        for middle in shuffles(way, ["set_control", "read_control"]):
            if middle.index("set_control") > middle.index(way[1]):
                continue
            for look in ([], ["second_look"]):
                if "titrate" in way and not look:
                    continue
                found.add(tuple(["register", "split"] + middle + look + ["release", "file"]))
    return found


EXECUTIONS = laboratory()
FRONTS = {execution[:size] for execution in EXECUTIONS for size in range(len(execution) + 1)}


def fits(events):
    return tuple(events) in FRONTS


def cause(before, event):
    """Why an event does not fit behind those."""
    if event not in EVENTS:
        return {"kind": "unknown"}
    if event in before:
        return {"kind": "again"}
    order = declared()
    for other in order:
        if other != event and other not in before and fits(before + [other, event]):
            return {"kind": "before", "event": other}
    for place in reversed(range(len(before))):
        if fits(before[:place] + before[place + 1:] + [event]):
            return {"kind": "after", "event": before[place]}
    return {"kind": "never"}


def declared():
    """The events in the order in which the text declares them."""
    names = []
    for line in LABORATORY.read_text().splitlines():
        if line.startswith("event "):
            names += [name.split()[0] for name in line[6:].rstrip(";").split(",")]
    return names


def judged(events):
    """What a list of events should be told to be: verdict, place from 1, reason."""
    if tuple(events) in EXECUTIONS:
        return "execution", None, None
    if fits(events):
        return "front", None, None
    at = next(size for size in range(len(events)) if not fits(events[:size + 1]))
    reason = cause(list(events[:at]), events[at])
    return ("unknown" if reason["kind"] == "unknown" else "deviates"), at + 1, reason


def log(program, path, *words):
    done = subprocess.run([program, "log", str(path), "--workflow", str(LABORATORY), *words], capture_output=True)
    return done.returncode, done.stdout, done.stderr.decode()


def spelling(name):
    return "".join(c.lower() if c.isalnum() or c == "_" else "_" if c in " \t" else "" for c in name)


def check_answer(program, path, cases, lines, left_out, words=()):
    """Compares the answer with what it should be; `cases` has the events of each case in order, `lines` their lines."""
    status, out, err = log(program, path, "--form", "json", *words)
    told = [json.loads(line) for line in out.decode().splitlines()]
    if not told:
        return f"no answer, status {status}: {err}"
    *rows, sums = told
    if [row["case"] for row in rows] != list(cases):
        return "other cases, or another order"
    counts = collections.Counter()
    for row in rows:
        verdict, at, reason = judged(cases[row["case"]])
        counts[verdict] += 1
        if row["verdict"] != verdict or row.get("at") != at or row.get("reason") != reason:
            return f"{row} and not {verdict} {at} {reason}: {cases[row['case']]}"
        if at and row["line"] != lines[row["case"]][at - 1]:
            return f"{row}: line {lines[row['case']][at - 1]}"
    wanted = {"cases": len(cases), "events": sum(map(len, cases.values())), "sequences": len(set(map(tuple, cases.values()))),
              "rows_left_out": left_out}
    wanted.update({verdict: counts[verdict] for verdict in ("execution", "front", "deviates", "unknown", "undecided")})
    if sums != wanted:
        return f"sums {sums} and not {wanted}"
    if status != (1 if counts["deviates"] + counts["unknown"] else 0):
        return f"status {status}"
    return None


def random_log(rng):
    """The bytes of a log, and the events, lines and bad rows that it has."""
    names = EVENTS + ["refund", "Look, again", 'say "no"', "übergeben"]
    end = rng.choice(["\n", "\r\n"])
    columns = rng.choice([["case", "activity"], ["time_", "Case_ID", "x", "EVENT"], ["task", "caseid", "more"]])
    text, line = io.StringIO(), 1
    writer = csv.writer(text, lineterminator=end, quoting=rng.choice([csv.QUOTE_MINIMAL, csv.QUOTE_ALL]))
    writer.writerow(columns)
    line += 1
    case_at = next(i for i, c in enumerate(columns) if c.lower() in ("case", "case_id", "caseid"))
    name_at = next(i for i, c in enumerate(columns) if c.lower() in ("activity", "event", "task"))
    cases, lines, left_out = {}, {}, 0
    plans = {f"c{i}" if rng.random() < 0.8 else f"c,{i}\n{i}": list(rng.choice(sorted(EXECUTIONS))) for i in range(rng.randrange(1, 30))}
    for events in plans.values():
        for _ in range(rng.randrange(3)):
            events.insert(rng.randrange(len(events) + 1), rng.choice(names))
        del events[rng.choice([len(events), rng.randrange(len(events) + 1)]):]
    while any(plans.values()):
        case = rng.choice([case for case, events in plans.items() if events])
        name = plans[case].pop(0)
        row = [f"f{i}" for i in range(len(columns))]
        row[case_at] = case
        row[name_at] = name.upper().replace("_", " ") if name in EVENTS and rng.random() < 0.2 else name
        before = text.tell()
        if rng.random() < 0.03:
            writer.writerow(row[:max(case_at, name_at)] if rng.random() < 0.5 else ["" if i == case_at else f for i, f in enumerate(row)])
            left_out += 1
        else:
            writer.writerow(row)
            shown = spelling(name) if spelling(name) in EVENTS else name
            cases.setdefault(case, []).append(shown)
            lines.setdefault(case, []).append(line)
        line += text.getvalue()[before:].count("\n")
    return text.getvalue().encode(), cases, lines, left_out


def check_random(program, folder, rounds):
    rng = random.Random(1)
    for number in range(rounds):
        data, cases, lines, left_out = random_log(rng)
        path = folder / "random.csv"
        path.write_bytes(data)
        fault = check_answer(program, path, cases, lines, left_out)
        if fault:
            (folder / "failed.csv").write_bytes(data)
            return f"random log {number}: {fault}"
    FOUND.append(("random logs as they should be", rounds, rounds, ""))
    print(f"random logs          {rounds} as they should be")
    return None


def spoil(rng, events, way):
    events = list(events)
    place = rng.randrange(len(events) - 1)
    if way == 0:
        del events[place]
    elif way == 1:
        events.insert(rng.randrange(place + 1, len(events) + 1), events[place])
    elif way == 2:
        events[place], events[place + 1] = events[place + 1], events[place]
    elif way == 3:
        events[place] = rng.choice(EVENTS)
    elif way == 4:
        events[place] = "refund"
    elif way == 5:
        events.insert(0, events.pop(place + 1))
    elif way == 6:
        events.insert(place, "titrate" if "spectrum" in events else "spectrum")
    else:
        events.append(rng.choice(EVENTS))
    return events


def check_spoilt(program, folder):
    rng = random.Random(2)
    good = sorted(EXECUTIONS)
    cases, spoilt = {}, 0
    for number in range(2000):
        events = list(rng.choice(good))
        if number % 20 == 7:
            while judged(events)[0] in ("execution", "front"):
                events = spoil(rng, rng.choice(good), spoilt % 8)
            spoilt += 1
        cases[f"sample {number}"] = events
    rows = [(case, event, at) for case, events in cases.items() for at, event in enumerate(events)]
    order = sorted(range(len(rows)), key=lambda i: (rows[i][2] + rng.random(), i))
    order.sort(key=lambda i: rows[i][2])
    path, lines, seen = folder / "spoilt.csv", collections.defaultdict(list), {}
    with open(path, "w", newline="") as file:
        writer = csv.writer(file)
        writer.writerow(["case", "activity", "time"])
        for line, index in enumerate(order, 2):
            case, event, at = rows[index]
            seen.setdefault(case, []).append(event)
            lines[case].append(line)
            writer.writerow([case, event, f"2026-11-30T{8 + at:02}:00:00Z"])
    fault = check_answer(program, path, seen, lines, 0)
    if fault:
        return f"spoilt cases: {fault}"
    FOUND.append(("spoilt cases found with their reason", spoilt, spoilt, ""))
    FOUND.append(("other cases found to fit", 2000 - spoilt, 2000 - spoilt, ""))
    print(f"laboratory           2000 cases, {spoilt} spoilt in eight ways: each found with its reason, and no other")
    return None


def check_times(program, folder):
    """The rows of a log in any order: the times put each case in order."""
    rng = random.Random(3)
    good = sorted(EXECUTIONS)
    for zone, form in itertools.product(["", "Z", "+02:00"], ["{}T{}:{:02}:{:02}", "{} {}:{:02}:{:02}.5"]):
        rows = []
        for number in range(50):
            for at, event in enumerate(rng.choice(good)):
                rows.append((f"c{number}", event, form.format("2026-11-30", 10 + at % 3 * 0, at, number % 60) + zone))
        rng.shuffle(rows)
        path = folder / "times.csv"
        with open(path, "w", newline="") as file:
            writer = csv.writer(file)
            writer.writerow(["case", "activity", "timestamp"])
            writer.writerows(rows)
        status, out, err = log(program, path, "--form", "json")
        sums = json.loads(out.decode().splitlines()[-1]) if out else {}
        if status or sums.get("execution") != 50:
            return f"times {form} {zone}: status {status} {sums} {err}"
    for times, line in (["2026-11-30", "30.11.2026"], 3), (["2026-11-30T10:00Z", "2026-11-30T10:00"], 3):
        path.write_text("case,activity,time\n" + "".join(f"a,register,{time}\n" for time in times))
        status, _, err = log(program, path)
        if status != 3 or f":{line}:" not in err:
            return f"times {times}: status {status} {err}"
        if log(program, path, "--time", "")[0] != 1:
            return "an empty name of the column of times"
    print("times                6 forms in any order, 2 refusals with their line")
    return None


def check_threads(program, folder):
    for form in "text", "csv", "json":
        answers = {log(program, folder / "spoilt.csv", "--form", form, "--jobs", jobs)[1] for jobs in ("1", "4", "64")}
        if len(answers) != 1:
            return f"{form}: another answer by other threads"
    print("threads              1, 4 and 64: the same bytes in three forms")
    return None


def told_of_sequences(program, path):
    """The verdict of each sequence, in the order in which sequences come."""
    *rows, _ = [json.loads(line) for line in log(program, path, "--form", "json")[1].decode().splitlines()]
    cases = collections.defaultdict(list)
    with open(path, newline="") as file:
        for row in csv.DictReader(file):
            cases[row["case"]].append(row["activity"])
    told = {}
    for row in rows:
        told.setdefault(tuple(cases[row["case"]]), row["verdict"])
    return list(told.values())


def check_journals(program, folder):
    flow = ROOT / "crates/flow/out/flow"
    if not flow.exists():
        print("journals             not tried: no crates/flow/out/flow")
        return None
    target = folder / "journals"
    target.mkdir()
    log(program, folder / "spoilt.csv", "--journals", str(target))
    words, tried = {"execution": "execution", "front": "prefix"}, collections.Counter()
    for number, verdict in enumerate(told_of_sequences(program, folder / "spoilt.csv"), 1):
        path = target / f"{number}.flow"
        if path.exists() != (verdict in words):
            return f"sequence {number}, {verdict}: {'a' if path.exists() else 'no'} journal"
        if path.exists():
            done = subprocess.run([flow, "trace"], stdin=open(path), capture_output=True, text=True)
            if done.stdout.strip() != words[verdict]:
                return f"sequence {number}, {verdict}: flow trace says {done.stdout or done.stderr}"
            tried[verdict] += 1
    if not tried:
        return "no journal"
    FOUND.append(("journals that flow trace accepts", sum(tried.values()), sum(tried.values()), ""))
    print(f"journals             {dict(tried)}: flow trace gives each its verdict")
    return None


def write_silent(folder):
    """A workflow of six events and seven updates beside one another, and a log of all orders of the events."""
    names = [f"e{number}" for number in range(6)]
    updates = [f"ins f{number}" for number in range(7)]
    (folder / "silent.flow").write_text(f"event {', '.join(names)}; goal {' | '.join(names + updates)};\n")
    orders = list(itertools.permutations(names))
    random.Random(5).shuffle(orders)
    rows = [f"{case},{event}\n" for case, order in enumerate(orders) for event in order]
    (folder / "silent.csv").write_text("case,activity\n" + "".join(rows))
    return len(orders)


def check_workers(program, folder):
    """One thread beside four where judging is the work."""
    count, seconds, answers = write_silent(folder), {}, set()
    for _ in range(3):
        for jobs in "1", "4":
            start = time.monotonic()
            done = subprocess.run([program, "log", "silent.csv", "--workflow", "silent.flow", "--form", "json", "--jobs", jobs], cwd=folder, capture_output=True)
            seconds[jobs] = min(seconds.get(jobs, 1e9), time.monotonic() - start)
            answers.add(done.stdout)
    if len(answers) != 1 or json.loads(done.stdout.splitlines()[-1])["execution"] != count:
        return f"silent leaves: {len(answers)} answers, the last is {done.stdout[-300:]}"
    ratio = seconds["1"] / seconds["4"]
    FOUND.append((f"{count} sequences with silent leaves, 1 thread", seconds["1"], "", ""))
    FOUND.append((f"{count} sequences with silent leaves, 4 threads", seconds["4"], "", ""))
    print(f"workers              {count} sequences: 1 thread {seconds['1']:.2f} s, 4 threads {seconds['4']:.2f} s, {ratio:.2f} times")
    return None


def write_large(path):
    rng = random.Random(4)
    names = EVENTS + [f"note_{i}" for i in range(20)]
    kinds = [[rng.choice(names) for _ in range(rng.randrange(6, 15))] for _ in range(4980)] + [list(e) for e in sorted(EXECUTIONS)[:20]]
    filler = "resource of the laboratory, room 12"
    with open(path, "w", newline="", buffering=1 << 20) as file:
        file.write("case_id,activity,timestamp,resource,cost,remark\n")
        events, case, open_cases = 0, 0, []
        while events < 10_000_000:
            while len(open_cases) < 1000 and case < 1_000_000:
                open_cases.append((f"case-{case:07}", iter(kinds[rng.randrange(len(kinds))])))
                case += 1
            if not open_cases:
                break
            kept = []
            for name, left in open_cases:
                event = next(left, None)
                if event is None:
                    continue
                seconds = events // 10
                clock = f"2026-{1 + seconds // 2419200 % 12:02}-{1 + seconds // 86400 % 28:02}T{seconds // 3600 % 24:02}:{seconds // 60 % 60:02}:{seconds % 60:02}Z"
                file.write(f'{name},{event},{clock},"{filler}",{events % 977},x\n')
                events += 1
                kept.append((name, left))
            open_cases = kept
    return events, case


def timed(words):
    start, before = time.monotonic(), resource.getrusage(resource.RUSAGE_CHILDREN)
    process = subprocess.Popen(words, stdout=subprocess.PIPE)
    out = process.stdout.read()
    _, status, usage = os.wait4(process.pid, 0)
    process.returncode = os.waitstatus_to_exitcode(status)
    return out, process.returncode, time.monotonic() - start, usage.ru_utime + usage.ru_stime, usage.ru_maxrss / 1024


def large(program, plain, path):
    """Times of the log and of the plain loop, in turns; the ratio of the least of each."""
    if not path.exists():
        print("written", write_large(path), f"{path.stat().st_size / 1e6:.0f} MB")
    calls = {f"log, {jobs} threads": [program, "log", str(path), "--workflow", str(LABORATORY), "--jobs", jobs] for jobs in ("1", "4")}
    if plain:
        calls["plain loop"] = [plain, str(path)]
    walls, memories = collections.defaultdict(list), collections.defaultdict(list)
    for _ in range(3):
        for name, words in calls.items():
            out, status, wall, processor, memory = timed(words)
            walls[name].append(processor if name != "log, 4 threads" else wall)
            memories[name].append(memory)
            FOUND.append((f"1 GB: {name}", wall, processor, memory))
            print(f"{name:16} status {status}  {wall:6.2f} s  {processor:6.2f} CPU s  {memory:6.0f} MB  load {os.getloadavg()[0]:.1f}")
    if max(memories["log, 1 threads"]) > 300:
        return f"large: {max(memories['log, 1 threads']):.0f} MB"
    if plain:
        ratio = min(walls["log, 1 threads"]) / min(walls["plain loop"])
        print(f"large                {ratio:.2f} times the plain loop, by processor seconds of one thread")
        if ratio > 1.5:
            return f"large: {ratio:.2f} times the plain loop"
    return None


def main():
    words = argparse.ArgumentParser()
    words.add_argument("program", nargs="?", default=ROOT / "crates/flowdesk/out/flowdesk")
    words.add_argument("--large", action="store_true")
    words.add_argument("--plain", type=lambda name: str(pathlib.Path(name).resolve()))
    words.add_argument("--rounds", type=int, default=200)
    words.add_argument("--file", default="/tmp/large_log.csv")
    given = words.parse_args()
    program = str(pathlib.Path(given.program).resolve())
    with tempfile.TemporaryDirectory() as name:
        folder = pathlib.Path(name)
        for fault in (check_random(program, folder, given.rounds), check_spoilt(program, folder), check_times(program, folder),
                      check_threads(program, folder), check_journals(program, folder), check_workers(program, folder)):
            if fault:
                print(fault)
                return 1
    fault = large(program, given.plain, pathlib.Path(given.file)) if given.large else None
    keep_results("logs", ["what", "s, or how many", "processor s, or of how many", "MB"], FOUND)
    if fault:
        print(fault)
        return 1
    return 0


if __name__ == "__main__":
    sys.exit(main())
