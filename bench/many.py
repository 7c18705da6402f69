#!/usr/bin/env python3
"""Many cases: their export, read by the programs of others, and what an export takes.

Usage: bench/many.py [PART ..] [--cases N] [--programs FOLDER]     PART: exported, forms, threads, damaged, costs; without one all

exported   N random cases (1,000) of the examples, with failures and steps back. The export is read by Python's csv and json. Of each case
           the rows that count are the journal that `report` prints, and `flow trace` accepts them. There is a row for each entry but steps
           back and ends, in order, and one for each task that a step back took, as `undone` shows them. Names and notes come back as they
           were told, with commas, quotes and line feeds in them. `flowdesk log` finds no case that deviates.
forms      XES is read by Python's parser of XML (and by xmllint, where it is there), and keeps the rules of its schema. SQL is loaded into
           sqlite3 and into a PostgreSQL of its own. Each gives the rows of the lines of JSON, and so each case's journal
threads    1, 2, 4 and 8 threads give the same bytes in each form
damaged    a case whose trail is cut, and one whose text is gone: they are told, and the rows of all others are there
costs      how long the export of 1,000 cases of the order desk with 30 entries takes by 1 and by 4 threads, in entries a second

The programs are FOLDER/NAME, or crates/NAME/out/NAME. The script ends with 1 where something came out otherwise, and prints that.
"""
import argparse
import collections
import contextlib
import csv
import io
import json
import pathlib
import random
import shutil
import subprocess
import sys
import tempfile
import time

import log_forms
import servers
from log_forms import COLUMNS, placed
from measuring import TOP, keep_results

EXAMPLES = TOP / "examples"
TEXTS = ["order_desk.flow", "incident.flow", "laboratory.flow", "loan.flow", "lab_order.flow"]
USERS = ["ann", "bob", "o'neil, jr.", 'dora "d"']
NOTES = ["", "", "", "by phone", "a, b", 'she said "no"', "two\nlines", "=1+1", "tab\there", "ä ö ü", "it's; drop table events; --", "\\'", "''",
         "<b> & ]]> &amp; \"c\"", "back\r\nline\r", "bell \x07, escape \x1b[1m", "none \ufffe \uffff \ufffd", "\U0001f600"]
# When, as it is told; the system's time where it is nothing.
TIMES = [None] * 8 + ["2026-11-30T14:02:11.125+02:00", "2026-02-30T10:00:00Z", "2026-11-30 09:00", "yesterday, <9 o'clock>", "2024-02-29T23:59:59-14:00"]
# The event of an entry, by the first word of the entry behind its caller.
LIFECYCLE = {"took": "start", "done": "complete", "did": "complete", "failed": "fail", "late": "late"}


class Many:
    """The programs, and a folder of cases."""

    def __init__(self, desk, flow, folder):
        self.desk, self.flow, self.folder, self.faults = desk, flow, pathlib.Path(folder) / "office", 0
        self.folder.mkdir()
        self.texts, self.notes = {}, collections.defaultdict(list)

    def wrong(self, *what):
        self.faults += 1
        print("wrong:", *what, flush=True)

    def call(self, *words, source=None):
        return subprocess.run([self.desk, *map(str, words)], input=source, capture_output=True, text=True, check=False)

    def exported(self, form, *words):
        return self.exported_bytes(form, *words).decode()

    def exported_bytes(self, form, *words, folder=None):
        done = subprocess.run([self.desk, "export", str(folder or self.folder), "--form", form, *words], capture_output=True, check=False)
        if done.returncode:
            self.wrong("export", form, done.returncode, done.stderr)
        return done.stdout


def next_line(todo, chance):
    """A line that the case takes now, at random; nothing where none is left."""
    if chance.random() < 0.04:
        return "rewind"
    if todo["out"] and (not todo["begin"] or chance.random() < 0.6):
        return f"{'fail' if chance.random() < 0.1 else 'done'} {chance.choice(todo['out'])['claim']}"
    if todo["begin"]:
        task = chance.choice(todo["begin"])
        return f"take {task['task']}@{task['leaf']}"
    return "commit" if todo["state"] == "finished" else None


def walk(many, name, text, chance, turns=None):
    """A case that goes on at random, in so many turns: each time as some user, with some note, at some time."""
    case = many.folder / name
    made = many.call("new", case, "--workflow", EXAMPLES / text)
    assert made.returncode == 0, made
    many.texts[str(case)] = text
    for _ in range(turns or chance.randint(1, 4)):
        user, note, at = chance.choice(USERS), chance.choice(NOTES), chance.choice(TIMES)
        words = [many.desk, "open", str(case), "--as", user, "--note", note, "--json", *(["--at", at] if at else [])]
        with subprocess.Popen(words, stdin=subprocess.PIPE, stdout=subprocess.PIPE, text=True) as process:
            def ask(line):
                process.stdin.write(line + "\n")
                process.stdin.flush()
                return json.loads(process.stdout.readline())

            for _ in range(chance.randint(1, 12)):
                line = next_line(ask("todo"), chance)
                if line is None:
                    break
                answer = ask(line)
                many.notes[str(case)] += [(user, note, at)] * len(answer.get("entries", []))
                if line == "commit":
                    break
            process.stdin.close()


def entries_of(many, case):
    """The entries and the journal of a case, as the report has them."""
    report = many.call("report", case).stdout.splitlines()

    def lines(word):
        first = next(place for place, line in enumerate(report) if line.startswith(word + " "))
        return report[first + 1:first + 1 + int(report[first].split()[1])]

    return lines("history"), lines("journal")


def expected(entries):
    """The numbers and events of the entries that have one row each."""
    rows = []
    for number, entry in enumerate(entries, 1):
        word = entry.partition(": ")[2].split()[0]
        if word in LIFECYCLE:
            rows.append((number, LIFECYCLE[word]))
    return rows


def check_case(many, case, rows):
    """The rows of a case, beside its report."""
    entries, journal = entries_of(many, case)
    own = [(int(row["entry"]), row["lifecycle"]) for row in rows if row["lifecycle"] != "undone"]
    if own != expected(entries):
        many.wrong("events", case, own, entries)
    if [int(row["entry"]) for row in rows] != sorted(int(row["entry"]) for row in rows):
        many.wrong("order", case)
    counts = [f"{row['leaf']} {row['activity']}" for row in rows if row["counts"] == "yes"]
    if counts != journal:
        many.wrong("journal", case, counts, journal)
    for row in rows:
        user, note, at = many.notes[case][int(row["entry"]) - 1]
        if (row["resource"], row["note"], row["timestamp"]) != (user, note, at or row["timestamp"]):
            many.wrong("told", case, row, user, note, at)
    undone = [row["activity"] for row in rows if row["lifecycle"] == "undone"]
    told = [line.split()[0] for line in many.call("undone", case).stdout.splitlines() if "(claim" in line]
    if undone != told:
        many.wrong("undone", case, undone, told)
    text = (EXAMPLES / many.texts[case]).read_text()
    judged = subprocess.run([many.flow, "trace"], input=text + "%%\n" + "".join(line + "\n" for line in counts), capture_output=True, text=True, check=False)
    if judged.stdout not in ("execution\n", "prefix\n"):
        many.wrong("trace", case, judged.stdout, counts)
    return len(entries), judged.stdout == "execution\n"


def rows_in(plain):
    """The rows of a log in CSV."""
    return list(csv.DictReader(io.StringIO(plain, newline="")))


def logged(many):
    """`flowdesk log` on the tasks of the cases of each text."""
    rows = rows_in(many.exported("csv", "--rows", "tasks"))
    for text in TEXTS:
        log = many.folder.parent / "log.csv"
        with open(log, "w", newline="", encoding="utf-8") as out:
            writer = csv.DictWriter(out, COLUMNS)
            writer.writeheader()
            writer.writerows(row for row in rows if many.texts[row["case"]] == text)
        done = many.call("log", log, "--workflow", EXAMPLES / text, "--time", "")
        if done.returncode not in (0,):
            many.wrong("log", text, done.returncode, done.stdout[:2000], done.stderr[:500])


def json_rows(many, *words):
    """The rows of the lines of JSON."""
    return [json.loads(line) for line in many.exported_bytes("jsonl", *words).split(b"\n") if line]


def exported(many):
    """The export of all cases, as CSV and as lines of JSON."""
    plain = many.exported("csv")
    rows = rows_in(plain)
    if plain.splitlines()[0].split(",") != COLUMNS:
        many.wrong("columns", plain.splitlines()[0])
    objects = json_rows(many)
    same = [{**row, "entry": int(row["entry"]), "leaf": int(row["leaf"]), "counts": row["counts"] == "yes"} for row in rows]
    if objects != same:
        many.wrong("json", next((pair for pair in zip(objects, same) if pair[0] != pair[1]), (len(objects), len(same))))
    cases = collections.defaultdict(list)
    for row in rows:
        cases[row["case"]].append(row)
    if list(cases) != sorted(cases):
        many.wrong("order of the cases")
    checked = [check_case(many, case, cases[case]) for case in sorted(many.texts)]
    logged(many)
    entries, whole = sum(number for number, _ in checked), sum(end for _, end in checked)
    undone = sum(row["lifecycle"] == "undone" for row in rows)
    print(f"exported {len(checked)} cases, {entries} entries, {len(rows)} rows, {undone} undone, {whole} whole executions")
    return [("cases exported", len(checked), entries), ("tasks undone", len(checked), undone)]


def damaged(many):
    """Two damaged cases among the others."""
    names = sorted(many.texts)
    broken, gone = pathlib.Path(names[0]), pathlib.Path(names[len(names) // 2])
    before = many.exported("csv").count("\n")
    trail, text = (broken / "trail.jsonl").read_bytes(), (gone / "trail.jsonl").read_bytes()
    (broken / "trail.jsonl").write_bytes(trail.replace(b'"by":"', b'"by":"x', 1))
    (gone / "trail.jsonl").unlink()
    done = many.call("export", many.folder)
    if done.returncode == 0 or str(broken) not in done.stderr or str(gone) not in done.stderr:
        many.wrong("damaged", done.returncode, done.stderr)
    left = {row["case"] for row in rows_in(done.stdout)}
    if left | {str(broken), str(gone)} < {case for case in names if many.notes[case]}:
        many.wrong("rows of others are missing")
    (broken / "trail.jsonl").write_bytes(trail)
    (gone / "trail.jsonl").write_bytes(text)
    if many.exported("csv").count("\n") != before:
        many.wrong("the cases are others now")
    print(f"damaged: {done.stderr.splitlines()}")
    return [("damaged cases told", 2, len(done.stderr.splitlines()))]


def same_rows(many, what, rows, wanted):
    """Whether a reader has the rows that are wanted."""
    if rows != wanted:
        many.wrong(what, next((pair for pair in zip(rows, wanted) if pair[0] != pair[1]), (len(rows), len(wanted))))


def forms(many):
    """XES and SQL, read by others."""
    cases, told = sorted(many.texts), 0
    with tempfile.TemporaryDirectory() as own, contextlib.closing(Base(own)) as base:
        for words in ([], ["--rows", "journal"], ["--rows", "tasks"]):
            rows = json_rows(many, *words)
            text = many.exported_bytes("xes", *words)
            names, found, faults = log_forms.xes_rows(text)
            same_rows(many, f"xes {words}", found, [{**row, "note": placed(row["note"])} for row in rows])
            if names != cases or faults or log_forms.well_formed(text):
                many.wrong("xes", faults[:5], len(faults), log_forms.well_formed(text)[:500], len(names))
            script = many.exported_bytes("sql", *words)
            for reader, (there, found, said) in base.readers(script):
                same_rows(many, f"{reader} {words}", found, log_forms.in_order(rows))
                if there != cases or said:
                    many.wrong(reader, said, len(there))
            told += len(rows)
        many.faults += base.twice(script)
    print(f"forms: {len(cases)} cases, {told} rows by XES, sqlite3 and PostgreSQL")
    return [("rows read back from XES, sqlite3 and PostgreSQL", len(cases), told)]


class Base:
    """The programs that take SQL: a PostgreSQL of its own, with a base for each script."""

    def __init__(self, folder):
        self.folder = pathlib.Path(folder)
        (self.folder / "server").mkdir()
        self.folder.chmod(0o755)
        self.server = servers.Postgres(str(self.folder / "server"), ["127.0.0.1"])

    def close(self):
        self.server.stop("fast")

    def readers(self, script):
        """What each has after the script: its cases, its rows, and what it said."""
        yield "sqlite3", (*log_forms.sqlite_rows(script.decode()), "")
        drop = ["psql", self.server.where(), "-X", "-q", "-c", 'drop table if exists "events", "cases"']
        subprocess.run(drop, capture_output=True, check=True)
        yield "psql", log_forms.postgres_rows(self.server, self.folder, script)

    def twice(self, script):
        """The same script once more: it is refused, and nothing is there twice."""
        fault = log_forms.shell_fault(self.folder, script)
        there, found, said = log_forms.postgres_rows(self.server, self.folder, script)
        refused = "duplicate key" in said and len(found) == script.count(b"\n(")
        if fault or not refused:
            print("wrong: twice", fault, said[:300], len(there), len(found), flush=True)
        return int(bool(fault)) + int(not refused)


def threads(many):
    """The same bytes by any number of threads."""
    sizes = []
    for form in ("csv", "jsonl", "xes", "sql"):
        texts = [many.exported_bytes(form, "--jobs", str(jobs)) for jobs in (1, 2, 4, 8)]
        if len(set(texts)) != 1:
            many.wrong("threads", form)
        sizes.append((f"bytes of {form}, the same by 1, 2, 4 and 8 threads", len(many.texts), len(texts[0])))
    print("threads:", *(f"{what}: {size}" for what, _, size in sizes))
    return sizes


def desks(many, folder, count):
    """So many copies of cases of the order desk with 30 entries or more, and how many entries they have in all."""
    chance, made, folder = random.Random(30), [], pathlib.Path(folder)
    while len(made) < 10:
        name = f"desk{len(made)}-{chance.random()}"
        walk(many, name, "order_desk.flow", chance, turns=12)
        case = many.folder / name
        entries = len(many.notes.pop(str(case), []))
        many.texts.pop(str(case))
        if entries >= 30:
            made.append((case, entries))
        else:
            shutil.rmtree(case)
    for number in range(count):
        shutil.copytree(made[number % 10][0], folder / f"c{number:05}")
    for case, _ in made:
        shutil.rmtree(case)
    return sum(made[number % 10][1] for number in range(count))


def costs(many):
    """How long an export takes."""
    rows, count = [], 1000
    with tempfile.TemporaryDirectory() as folder:
        entries = desks(many, folder, count)
        for form in ("csv", "jsonl", "xes", "sql"):
            for jobs in ("1", "4"):
                least = 1e9
                for _ in range(5):
                    begun = time.monotonic()
                    many.exported_bytes(form, "--jobs", jobs, folder=folder)
                    least = min(least, time.monotonic() - begun)
                print(f"{form} by {jobs}: {count} cases, {entries} entries in {least:.2f} s, {entries / least:.0f} entries a second", flush=True)
                rows.append((f"export as {form} by {jobs} threads, entries a second", entries, entries / least))
    return rows


def main():
    parser = argparse.ArgumentParser()
    parser.add_argument("parts", nargs="*", metavar="PART")
    parser.add_argument("--cases", type=int, default=1000)
    parser.add_argument("--programs", type=pathlib.Path)
    given = parser.parse_args()
    desk, flow = (str(given.programs / name if given.programs else TOP / f"crates/{name}/out/{name}") for name in ("flowdesk", "flow"))
    rows = []
    with tempfile.TemporaryDirectory() as folder:
        many, chance = Many(desk, flow, folder), random.Random(20261201)
        for number in range(given.cases):
            walk(many, f"c{number:05}", chance.choice(TEXTS), chance)
        parts = {"exported": exported, "forms": forms, "threads": threads, "damaged": damaged, "costs": costs}
        for part in given.parts or parts:
            rows += parts[part](many)
    if not given.parts:
        keep_results("many", ["what", "tried", "figure"], rows)
    sys.exit(1 if many.faults else 0)


if __name__ == "__main__":
    main()
