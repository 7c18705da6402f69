#!/usr/bin/env python3
"""Kept runs on real files: processes killed, files cut and damaged, calls that fail, and what a step costs.

Usage: bench/kept.py [PART ..] [--count COUNT] [--seed SEED] [--folder FOLDER]     PART: kills, cuts, damage, faults, calls, two, speed; without
one all

kills    a session of 16,384 lines, with flowkeep killed (by SIGKILL) at 2,000 random moments and called again with the lines that the
         file has not: after each kill the file keeps every step whose reply was written, and a front of the session's history
cuts     a file cut at every byte of its last three records: what is opened is a front, and as many records as are whole
damage   10,000 files with one byte changed, of sessions with entries of all kinds: each is opened with the history that its records
         say, or refused at the first that is foreign, and then left as it was. `flow drive` says what is legal
faults   every open, read, write and sync made to fail in turn, by failing.c: the status, the line, and that the file keeps every step
         whose reply was written; and reads and writes of a few bytes each: the usual answer
calls    every system call on the file and its folder, as strace tells them (`apt-get update && apt-get install -y strace`): the file is
         opened without being cut off, locked, and its folder synced where it is empty; then a sync, and a read a record, and in an empty
         file a byte and a sync; and of each entry a write, a sync, a write and a sync, at their places: these calls, in this order
two      a second process on a file that a first one has is refused, leaves the file alone, and opens it once the first has ended
speed    by turns: the microseconds of a kept step, and of a transaction of SQLite with a sync each, in its default journal and with a
         write-ahead log; and the seconds and megabytes in which a file of 1,000,000 records is opened and its report written

The programs are crates/flowkeep/out/flowkeep and crates/flow/out/flow. The files are made in a folder of their own in FOLDER, which says
on which file system they are. The script ends with 1 where something came out otherwise, and prints that.
"""
import argparse
import os
import pathlib
import random
import re
import signal
import sqlite3
import statistics
import subprocess
import sys
import tempfile
import time

from measuring import TOP, keep_results

KEEP = str(TOP / "crates/flowkeep/out/flowkeep")
FLOW = str(TOP / "crates/flow/out/flow")
RECORD = 16
WRONG = []

RETRIED = b"event a;\ngoal a;\n"
# Each kind of entry: what fails is banned or taken again, a result comes late, the run goes back.
SESSIONS = {
    "late": (b"event a, b, c;\ngoal ((a | b) * ?p(x)) + c;\n", "take 0/take 1/done 1/rewind/done 2/take 3/done 3/commit"),
    "switched": (b"event a, b, c;\ngoal (a + b) * c;\n", "take 0/fail 1/take 1/fail 2/take 1/done 3/take 2/done 4/commit"),
    "did": (b"event m, n;\ngoal ins p(x) * m * (del p(x) | n);\n", "do 0/take 1/done 1/take 3/do 2/fail 2/take 3"),
    "wide": (b"event a, b, c, d;\ngoal a | b | c | d;\n", "take 0/take 1/take 2/take 3/done 3/done 1/fail 4/take 3/done 2/done 5"),
}


def wrong(what):
    WRONG.append(what)
    print(f"wrong: {what}", flush=True)


# what the bytes of a file say

def bodies_of(kept):
    """The fifteen bytes behind the gate of each record, up to the first that is not open."""
    bodies, at = [], 0
    while len(kept) > at + RECORD and kept[at] == 1:
        bodies.append(kept[at + 1:at + RECORD])
        at += RECORD
    return bodies


def entry_of(body):
    """The caller, and the entry as a report has it; nothing of a record that is badly formed."""
    by, first, second = (int.from_bytes(body[at:at + 4], "big") for at in (3, 7, 11))
    if body[1] or body[2] or body[0] > 7:
        return None
    if body[0] in (1, 2, 3, 4, 5, 6) and second or body[0] == 7 and (first or second):
        return None
    texts = ["took {} {}", "done {}", "failed {} switched", "failed {} kept", "late {}", "did {}", "rewound {}", "committed"]
    return by, texts[body[0]].format(first, second)


def asked(entry):
    """The line of a session that asks for that entry."""
    word, *numbers = entry.split()
    return {"took": lambda: f"take {numbers[1]}", "done": lambda: f"done {numbers[0]}", "failed": lambda: f"fail {numbers[0]}",
            "late": lambda: f"done {numbers[0]}", "did": lambda: f"do {numbers[0]}", "rewound": lambda: "rewind",
            "committed": lambda: "commit"}[word]()


def history_of(written):
    """The entries of a report, each with its caller; nothing where there is no report."""
    lines = written.decode().split("\n")
    for place, line in enumerate(lines):
        if line.startswith("history "):
            return lines[place + 1:place + 1 + int(line.split()[1])]
    return None


def driven(workflow, lines):
    """The history of a session that `flow drive` drives."""
    source = workflow + b"%%\n" + "".join(f"{line}\n" for line in lines).encode()
    return history_of(subprocess.run([FLOW, "drive"], input=source, capture_output=True, check=False).stdout)


def read_as(workflow, kept):
    """What a file must be read as: its history, or the number of the first foreign record."""
    entries = [entry_of(body) for body in bodies_of(kept)]
    formed = entries[:entries.index(None)] if None in entries else entries
    legal = [line.split(": ", 1)[1] for line in driven(workflow, [asked(entry) for _, entry in formed])]
    for place, (_, entry) in enumerate(formed):
        if place >= len(legal) or legal[place] != entry:
            return place
    return len(formed) if None in entries else [f"{by}: {entry}" for by, entry in entries]


# calls of the program

def source_of(workflow, lines):
    return workflow + b"%%\n" + "".join(f"{line}\n" for line in lines).encode()


def kept_by(path, workflow, lines, steps=65536, environment=None):
    """Calls flowkeep, and gives its status and what it wrote."""
    words = [KEEP, str(path), *([] if steps == 65536 else ["--steps", str(steps)])]
    call = subprocess.run(words, input=source_of(workflow, lines), capture_output=True, check=False,
                          env={**os.environ, **(environment or {})})
    return call.returncode, call.stdout, call.stderr


def replies_of(written):
    """The whole lines of what was written, behind `kept N`."""
    lines = written.decode().split("\n")[:-1]
    return lines[1:] if lines and lines[0].startswith("kept ") else []


def must_open(name, path, workflow, history):
    """The file is opened, and its history is that."""
    status, written, _ = kept_by(path, workflow, [])
    first = written.split(b"\n")[0].decode()
    if first != f"kept {len(history)}" or history_of(written) != history:
        wrong(f"{name}: status {status}, {first}, and {len(history)} entries were expected")


# the parts

def retries(count):
    """Lines that take one event and fail, again and again: each makes an entry."""
    return [line for claim in range(1, count // 2 + 1) for line in ("take 0", f"fail {claim}")]


def killed(path, lines, moment, out):
    """Calls flowkeep and kills it at that moment; gives what it wrote, and whether it still ran."""
    with open(out, "wb") as sink, tempfile.TemporaryFile() as source:
        source.write(source_of(RETRIED, lines))
        source.seek(0)
        call = subprocess.Popen([KEEP, str(path)], stdin=source, stdout=sink, stderr=subprocess.DEVNULL)
        time.sleep(moment)
        call.send_signal(signal.SIGKILL)
        was_killed = call.wait() == -signal.SIGKILL
    return pathlib.Path(out).read_bytes(), was_killed


def try_kills(folder, count, chosen):
    lines = retries(16_384)
    history = driven(RETRIED, lines)
    path, out = folder / "killed.keep", folder / "written"
    kills, before, whole, between = 0, 0, 0, 0
    while kills < count:
        if before >= len(lines):
            whole, before = whole + 1, 0
            path.unlink()
        written, was_killed = killed(path, lines[before:], chosen.choice([0.004, 0.02, 0.3]) * chosen.random(), out)
        kills += was_killed
        acknowledged = before + min(len(replies_of(written)), len(lines) - before)
        now = bodies_of(path.read_bytes() if path.exists() else b"")
        entries = [f"{it[0]}: {it[1]}" for it in map(entry_of, now)]
        if not acknowledged <= len(now) <= acknowledged + 1 or entries != history[:len(now)]:
            wrong(f"kill {kills}: {acknowledged} steps were acknowledged, the file has {len(now)}")
        between += len(now) > acknowledged
        if kills % 20 == 0 and path.exists():
            must_open(f"kill {kills}", path, RETRIED, history[:len(now)])
        before = len(now)
    print(f"kills: {kills}, with {whole} sessions gone through; {between} of them after an entry was kept and before its reply was written")


def files_of(folder):
    """The name, workflow, history and bytes of a kept run of each session."""
    for name, (workflow, session) in SESSIONS.items():
        lines, path = session.split("/"), folder / f"{name}.keep"
        path.unlink(missing_ok=True)
        _, written, _ = kept_by(path, workflow, lines)
        history = history_of(written)
        if history is None or history != driven(workflow, lines):
            wrong(f"{name}: the history is not that of `flow drive`")
        yield name, workflow, history, path.read_bytes()


def try_cuts(folder):
    path, count = folder / "cut.keep", 0
    for name, workflow, history, kept in files_of(folder):
        for length in range(max(len(kept) - 3 * RECORD - 1, 0), len(kept) + 1):
            path.write_bytes(kept[:length])
            must_open(f"{name} cut at {length}", path, workflow, history[:len(bodies_of(kept[:length]))])
            must_open(f"{name} cut at {length}, opened again", path, workflow, history[:len(bodies_of(kept[:length]))])
            count += 1
    print(f"cuts: {count} files")


def try_damage(folder, count, chosen):
    path, opened, refused = folder / "damaged.keep", 0, 0
    files = list(files_of(folder))
    for number in range(count):
        name, workflow, _, kept = chosen.choice(files)
        place = chosen.randrange(len(kept))
        # a small value is the likelier one to be read as something else
        value = chosen.choice([chosen.randrange(256), chosen.randrange(9), kept[place] ^ 1 << chosen.randrange(8)])
        damaged = kept[:place] + bytes([value]) + kept[place + 1:]
        path.write_bytes(damaged)
        said = read_as(workflow, damaged)
        what = f"damage {number}: {name} with {value} at {place}"
        if isinstance(said, list):
            opened += 1
            must_open(what, path, workflow, said)
            continue
        refused += 1
        status, written, _ = kept_by(path, workflow, [])
        if (status, written) != (3, f"refused: foreign {said}\n".encode()):
            wrong(f"{what}: status {status}, {written[:40]}, and record {said} is foreign")
        if path.read_bytes() != damaged:
            wrong(f"{what}: refused, and the file was changed")
    print(f"damage: {opened} files opened, {refused} refused")


def try_faults(folder, shim):
    counts = {}
    for name, (workflow, session) in SESSIONS.items():
        lines = session.split("/")
        history, path = driven(workflow, lines), folder / "failing.keep"
        usual = kept_by(folder / f"{name}.usual", workflow, lines)[:2]
        for piece in ("READ_AT_MOST", "WRITE_AT_MOST"):
            for most in (1, 3):
                path.unlink(missing_ok=True)
                if kept_by(path, workflow, lines, environment={"LD_PRELOAD": shim, piece: str(most)})[:2] != usual:
                    wrong(f"{name}, {piece} {most}: another answer")
        for kind in ("OPEN_FAILS", "READ_FAILS", "WRITE_FAILS", "SYNC_FAILS"):
            for number in range(1, 10_000):
                path.unlink(missing_ok=True)
                status, written, said = kept_by(path, workflow, lines, environment={"LD_PRELOAD": shim, kind: str(number)})
                if kind.encode() not in said:
                    if (status, written) != usual:
                        wrong(f"{name}, {kind} {number}: nothing failed, and another answer")
                    break
                counts[kind] = counts.get(kind, 0) + 1
                last = written.decode().rstrip("\n").split("\n")[-1]
                if status != 8 or last not in ("refused: open", "refused: disk"):
                    wrong(f"{name}, {kind} {number}: status {status}, {last}")
                begun = written.startswith(b"kept ")
                acknowledged = len(entries_of(replies_of(written)[:-1])) if begun else 0
                now = bodies_of(path.read_bytes()) if path.exists() else []
                if not acknowledged <= len(now) <= acknowledged + 1:
                    wrong(f"{name}, {kind} {number}: {acknowledged} steps were acknowledged, the file has {len(now)}")
                must_open(f"{name}, {kind} {number}", path, workflow, history[:len(now)])
    print("faults:", ", ".join(f"{count} of {kind}" for kind, count in counts.items()))


# the calls of the system, each by what it does to the file: its place, how many bytes were asked for, and how many came
TRACED = "open,openat,flock,fcntl,pread64,pwrite64,fdatasync,fsync,ftruncate,truncate,rename,renameat,renameat2,unlink,unlinkat"


def calls_on(path, workflow, lines):
    """Calls flowkeep under strace, and gives the calls on the file and its folder."""
    trace, names, calls = path.with_suffix(".trace"), {}, []
    subprocess.run(["strace", "-f", "-o", str(trace), "-e", f"trace={TRACED}", KEEP, str(path)], input=source_of(workflow, lines),
                   capture_output=True, check=False)
    for line in trace.read_text().splitlines():
        found = re.match(r"\d+ +(\w+)\((.*)\) += (-?\d+)", line)
        if not found:
            continue
        name, words, came = found[1], found[2], int(found[3])
        if name in ("open", "openat"):
            opened = re.search(r'"([^"]*)", ([A-Z_|]+)', words)
            names[came] = {str(path): "file", str(path.parent): "folder"}.get(opened[1])
            if names[came]:
                calls.append(f"open {names[came]} {re.sub('[|]O_(NOCTTY|CLOEXEC)', '', opened[2])}")
            continue
        number, *rest = words.split(", ")
        which = names.get(int(number)) if number.isdigit() else None
        if which and name in ("pread64", "pwrite64"):
            calls.append(f"{name[:-2]} {rest[-2]} at {rest[-1]}: {came}")
        elif which and name != "fcntl":
            calls.append(" ".join([name, which, *rest]))
    return calls


OPENED = ["open file O_RDWR|O_CREAT", "flock file LOCK_EX|LOCK_NB"]
FOLDER = ["open folder O_RDONLY", "fsync folder"]
SYNC = "fdatasync file"


def calls_of_first(entries):
    """What a session of so many entries asks of a file that is not there."""
    calls = [*OPENED, *FOLDER, SYNC, "pread 17 at 0: 0", "pread 1 at 0: 0", "pwrite 1 at 0: 1", SYNC]
    for at in range(0, RECORD * entries, RECORD):
        calls += [f"pwrite {RECORD} at {at + 1}: {RECORD}", SYNC, f"pwrite 1 at {at}: 1", SYNC]
    return calls


def calls_of_next(entries):
    """What a session of no line asks of a file that keeps so many entries."""
    end = RECORD * entries
    reads = [f"pread 17 at {at}: 17" for at in range(0, end, RECORD)]
    return [*OPENED, SYNC, *reads, f"pread 17 at {end}: 1", f"pread 16 at {end + 1}: 0", f"pread 1 at {end}: 1"]


def try_calls(folder):
    count = 0
    for name, (workflow, session) in SESSIONS.items():
        path, lines = folder / f"{name}.called", session.split("/")
        entries = len(history_of(kept_by(folder / f"{name}.usual", workflow, lines)[1]))
        for what, lines, expected in (("first", lines, calls_of_first(entries)), ("next", [], calls_of_next(entries))):
            calls = calls_on(path, workflow, lines)
            count += len(calls)
            for place in range(max(len(calls), len(expected))):
                if calls[place:place + 1] != expected[place:place + 1]:
                    wrong(f"{name}, {what} call: {calls[place:place + 1]} in place of {expected[place:place + 1]}, the call {place}")
                    break
    print(f"calls: {count} of the system were compared")


def try_two(folder):
    lines, path = retries(16_384), folder / "two.keep"
    with tempfile.TemporaryFile() as source:
        source.write(source_of(RETRIED, lines))
        source.seek(0)
        # its answer is more than the pipe holds, so it waits, and has the file
        first = subprocess.Popen([KEEP, str(path)], stdin=source, stdout=subprocess.PIPE, stderr=subprocess.DEVNULL)
    first.stdout.read(6)
    kept = b""
    while kept != path.read_bytes():
        kept = path.read_bytes()
        time.sleep(0.5)
    if kept_by(path, RETRIED, [])[:2] != (8, b"refused: open\n") or path.read_bytes() != kept:
        wrong("two: the second process was not refused, or changed the file")
    first.stdout.read()
    first.wait()
    must_open("two, once the first has ended", path, RETRIED, driven(RETRIED, lines))
    print("two: a second process on the file of a first one was tried")


def entries_of(replies):
    """The replies that tell of an entry."""
    return [reply for reply in replies if reply.split()[0] in ("claim", "did", "done", "failed", "late", "rewound", "committed")]


def sqlite_step(folder, mode, count):
    """The microseconds of a transaction that puts in one row."""
    path = folder / "step.db"
    for ending in ("", "-wal", "-shm", "-journal"):
        pathlib.Path(f"{path}{ending}").unlink(missing_ok=True)
    base = sqlite3.connect(path, isolation_level=None)
    base.execute(f"pragma journal_mode={mode}")
    base.execute("pragma synchronous=full")
    base.execute("create table history(place integer primary key, kind int, caller int, first int, second int)")
    begun = time.perf_counter()
    for place in range(count):
        base.execute("begin")
        base.execute("insert into history values(?, ?, ?, ?, ?)", (place, 0, 0, place, place))
        base.execute("commit")
    spent = time.perf_counter() - begun
    base.close()
    return spent / count * 1e6


def kept_step(folder, count):
    """The microseconds of a kept step: those of a call with so many, less those of one with none."""
    path, spent = folder / "step.keep", []
    for lines in ([], retries(count)):
        path.unlink(missing_ok=True)
        begun = time.perf_counter()
        kept_by(path, RETRIED, lines)
        spent.append(time.perf_counter() - begun)
    return (spent[1] - spent[0]) / count * 1e6


def try_speed(folder):
    steps = {"kept": [], "sqlite": [], "sqlite, write-ahead": []}
    for _ in range(15):
        steps["kept"].append(kept_step(folder, 400))
        steps["sqlite"].append(sqlite_step(folder, "delete", 400))
        steps["sqlite, write-ahead"].append(sqlite_step(folder, "wal", 400))
    rows = [(f"a step, {name}, us", statistics.median(each), min(each)) for name, each in steps.items()]
    for name, each in steps.items():
        print(f"speed: {name}: {statistics.median(each):.0f} microseconds a step (the least {min(each):.0f})")
    kept = statistics.median(steps["kept"])
    if kept > statistics.median(steps["sqlite"]) or kept > 2 * statistics.median(steps["sqlite, write-ahead"]):
        wrong("a kept step is dearer than one of SQLite, or twice one with a write-ahead log")
    path = folder / "long.keep"
    record = lambda kind, first, second: b"\1" + bytes([kind, 0, 0]) + bytes(4) + first.to_bytes(4, "big") + second.to_bytes(4, "big")
    path.write_bytes(b"".join(record(0, claim, 0) + record(3, claim, 0) for claim in range(1, 500_001)) + b"\0")
    with tempfile.TemporaryFile() as source:
        source.write(source_of(RETRIED, []))
        source.seek(0)
        begun = time.perf_counter()
        call = subprocess.run(["/usr/bin/time", "-f", "%M", KEEP, str(path), "--steps", "1000000"], stdin=source, capture_output=True, check=False)
        spent, memory = time.perf_counter() - begun, int(call.stderr.split()[-1]) / 1024
    print(f"speed: 1,000,000 records opened, and {len(call.stdout) / 1e6:.0f} MB of report written: {spent:.2f} s, {memory:.0f} MB")
    rows += [("1,000,000 records opened and told, ms", spent * 1000, ""), ("the same, MB", memory, "")]
    keep_results("kept", ["what", "median", "least"], rows)
    if not call.stdout.startswith(b"kept 1000000\n") or spent > 2 or memory > 110:
        wrong("1,000,000 records are opened in more than 2 seconds, or by more than 110 MB")


def main():
    words = argparse.ArgumentParser(usage=__doc__.split("\n")[2][7:])
    words.add_argument("parts", nargs="*", metavar="PART")
    words.add_argument("--count", type=int)
    words.add_argument("--seed", type=int, default=1)
    words.add_argument("--folder", default="/tmp")
    words = words.parse_args()
    parts = words.parts or ["kills", "cuts", "damage", "faults", "calls", "two", "speed"]
    with tempfile.TemporaryDirectory(dir=words.folder) as made:
        folder = pathlib.Path(made)
        if "kills" in parts:
            try_kills(folder, words.count or 2_000, random.Random(words.seed))
        if "cuts" in parts:
            try_cuts(folder)
        if "damage" in parts:
            try_damage(folder, words.count or 10_000, random.Random(words.seed))
        if "faults" in parts:
            shim = str(folder / "failing.so")
            subprocess.run(["cc", "-shared", "-fPIC", "-O1", "-o", shim, str(TOP / "bench/failing.c")], check=True)
            try_faults(folder, shim)
        if "calls" in parts:
            try_calls(folder)
        if "two" in parts:
            try_two(folder)
        if "speed" in parts:
            try_speed(folder)
    return 1 if WRONG else 0


if __name__ == "__main__":
    sys.exit(main())
