#!/usr/bin/env python3
"""Pages of cases and of a folder of them: what they say beside what the program says otherwise, and whether they are sound HTML that asks
for nothing.

Usage: bench/pages.py [--programs FOLDER] [--keep FOLDER] [--cases N] [--shots]

Five cases are driven at random, with users and notes that have every sign of HTML. Of each page: its history has each entry once, in order,
as `history --json` tells them, and marks just what steps back took; headings come in order, tables have labels, heads of columns and of rows,
the picture has a label, names of elements are unique, and nothing is asked for. A folder of N cases (500), some of them damaged, has a page
whose rows are those that the lines of `list --json` give, also with another number of threads. Where `tidy` is installed it finds no fault.
With `--keep` the pages stay in a folder; with `--shots` Chromium opens them, light and dark, 360 and 1,400 pixels wide, makes pictures and
a PDF there, and tells what they ask for, whether they are wider than the window, and what a screen reader is told. No row of the PDF is cut.
The script ends with 1 where something came out otherwise, and prints that.
"""
import argparse
import html.parser
import json
import pathlib
import random
import re
import shutil
import subprocess
import sys
import tempfile
import time

from browser import Browser
from measuring import TOP

EXAMPLES = TOP / "examples"
CASES = ["back_office", "loan", "order_desk", "laboratory", "incident"]
NOTES = ["", "by phone", "<script>alert(1)</script>", "\"quotes\" & 'others'", "</td></table></body>", "&amp; is no &lt;", "a\nline feed", "<!-- "]
USERS = ["ann", "bob <b>", "o'neil & sons", "\"cid\""]
NOW = "2026-11-30T14:02:11Z"
EMPTY = {"meta", "br"}
# What tidy says of the style that an SVG has of its own.
USUAL = "moved <style> tag to <head>"


def ran(*words):
    return subprocess.run([str(it) for it in words], capture_output=True, text=True, check=False)


class Read(html.parser.HTMLParser):
    """A page as a tree is read: the tags with their attributes, the headings, and the rows of each section's tables."""

    def __init__(self, text):
        super().__init__()
        self.open, self.faults, self.tags, self.headings, self.tables = [], [], [], [], {}
        self.cell = None
        self.feed(text)
        self.close()
        if self.open:
            self.faults.append(f"not closed: {self.open}")

    def handle_starttag(self, tag, attributes):
        self.tags.append((tag, dict(attributes)))
        if tag not in EMPTY:
            self.open.append(tag)
        if tag in ("h1", "h2"):
            self.headings.append([tag, ""])
        if tag == "table":
            self.tables.setdefault(self.headings[-1][1], [])
        if tag == "tr":
            self.tables[self.headings[-1][1]].append([dict(attributes).get("class")])
        if tag in ("th", "td"):
            self.tables[self.headings[-1][1]][-1].append("")

    def handle_startendtag(self, tag, attributes):
        self.tags.append((tag, dict(attributes)))

    def handle_endtag(self, tag):
        if not self.open or self.open.pop() != tag:
            self.faults.append(f"</{tag}> ends another element")

    def handle_data(self, data):
        if self.open and self.open[-1] in ("h1", "h2"):
            self.headings[-1][1] += data
        if self.open and self.open[-1] in ("th", "td", "em"):
            self.tables[self.headings[-1][1]][-1][-1] += data


class Pages:
    """The program, and a folder for its cases and pages."""

    def __init__(self, program, folder, chance):
        self.program, self.folder, self.chance, self.faults, self.made = program, pathlib.Path(folder), chance, 0, 0

    def wrong(self, *what):
        self.faults += 1
        print("wrong:", *what, flush=True)

    def drive(self, name):
        """A case of the example, some steps on."""
        self.made += 1
        case, policy = self.folder / f"{name} <{self.made}>", EXAMPLES / f"{name}.policy"
        words = ["--policy", policy] if policy.exists() else []
        made = ran(self.program, "new", case, "--workflow", EXAMPLES / f"{name}.flow", *words)
        assert made.returncode == 0, made
        for _ in range(30):
            self.step(case)
        return case

    def step(self, case):
        todo = json.loads(ran(self.program, "todo", case, "--json").stdout)
        chance = self.chance.random()
        if todo["out"] and chance < 0.5:
            out = self.chance.choice(todo["out"])
            words, user = [self.chance.choice(["done", "done", "done", "fail"]), case, str(out["claim"])], out["user"]
        elif todo["begin"] and chance < 0.9:
            task = self.chance.choice(todo["begin"])
            users = task.get("users", USERS)
            words, user = ["take", case, f"{task['task']}@{task['leaf']}"], self.chance.choice(users or ["nobody"])
        else:
            words, user = ["rewind", case], self.chance.choice(USERS)
        ran(self.program, *words, "--as", user, "--note", self.chance.choice(NOTES), "--at", NOW)

    def look(self, case):
        """Compares the page of a case with what the program says of it otherwise, and gives it."""
        done = ran(self.program, "page", case, "--at", NOW)
        if done.returncode or done.stderr:
            self.wrong(case.name, done.returncode, done.stderr)
            return done.stdout
        page = Read(done.stdout)
        for fault in [*page.faults, *self.shape(page)]:
            self.wrong(case.name, fault)
        if not any(words.get("role") == "img" and "aria-labelledby" in words for _, words in page.tags):
            self.wrong(case.name, "the picture has no label")
        if re.search(r"https?:(?!//www\.w3\.org/2000/svg)|url\((?!#)|@import|<script|<link|<img| src=| href=", done.stdout):
            self.wrong(case.name, "the page asks for something")
        self.history(case, page)
        return done.stdout

    @staticmethod
    def shape(page):
        """What is wrong of headings, tables, labels and names."""
        kinds = [kind for kind, _ in page.headings]
        names = [words["id"] for _, words in page.tags if "id" in words]
        if kinds[:1] != ["h1"] or kinds.count("h1") != 1:
            yield f"headings {kinds}"
        if len(names) != len(set(names)):
            yield "two elements of one name"
        for tag, words in page.tags:
            if tag == "th" and words.get("scope") not in ("col", "row"):
                yield "a head of a table without scope"
            if words.get("aria-labelledby", names[0]) not in names:
                yield f"no label {words}"
            if tag == "table" and "aria-labelledby" not in words:
                yield "a table without label"

    def history(self, case, page):
        told = [json.loads(line) for line in ran(self.program, "history", case, "--json").stdout.splitlines()]
        wanted = [[str(it["n"]), it["at"], it["by"], " ".join([it["did"], *([it["task"]] if "task" in it else [])]), it.get("note", "")]
                  for it in told]
        rows = page.tables.get("History", [[]])[1:]
        shown = [[cell.removesuffix(" taken back") if place == 0 else cell for place, cell in enumerate(row[1:])] for row in rows]
        if shown != wanted:
            self.wrong(case.name, "another history", shown, wanted)
        marked = sorted(row[3:5] for row in rows if row[0] == "taken-back")
        if any((row[0] == "taken-back") != row[1].endswith(" taken back") for row in rows):
            self.wrong(case.name, "marked by colour alone")
        taken = page.tables.get("Taken back", [[]])[1:]
        if sorted([row[3], f"done {row[1]}"] for row in taken) != marked:
            self.wrong(case.name, "other entries are marked", taken, marked)


def tidied(path):
    """What tidy finds in a page, but what it says of a style in a picture."""
    if not shutil.which("tidy"):
        return []
    lines = ran("tidy", "-q", "-e", "-utf8", path).stderr.splitlines()
    return [line for line in lines if USUAL not in line]


def damage(case, number):
    """Damages a case in one of three ways."""
    if number == 0:
        (case / "trail.jsonl").write_bytes(b"")
    elif number == 1:
        (case / "workflow.flow").write_bytes(b"goal <b>;")
    else:
        (case / "run.keep").unlink()


def office(pages, count):
    """A folder of so many cases: copies of some that were driven, of which three are damaged."""
    folder = pages.folder / "office & <co>"
    folder.mkdir()
    driven = [pages.drive(name) for name in CASES for _ in range(5)]
    for number in range(count):
        shutil.copytree(driven[number % len(driven)], folder / f"{number:04}")
    for number in range(3):
        damage(folder / f"{number * 7:04}", number)
    return folder


def joined(texts):
    return ", ".join(texts)


def wanted_rows(lines):
    """The rows of each section, by the lines of `list --json`."""
    bad = [it for it in lines if it["state"] == "damaged"]
    good = [it for it in lines if it["state"] != "damaged"]
    for it in lines:
        it["name"] = it["case"].rsplit("/", 1)[1]
    states = ["open", "waiting", "finished", "stuck", "stuck_by_duties", "committed", "damaged"]
    waits = [(user, task["task"], it["name"]) for it in good for task in it["begin"] for user in task.get("users", [])]
    pairs = list(dict.fromkeys((user, task) for user, task, _ in waits))
    users = list(dict.fromkeys(user for user, _ in pairs))
    cases_of = {pair: [case for user, task, case in waits if (user, task) == pair] for pair in pairs}
    free = {it["name"]: [t["task"] for t in it["begin"] if "users" not in t] + [s["step"] for s in it["steps"]] for it in good}
    out = sorted(([it["name"], t["task"], t["user"], t["at"]] for it in good for t in it["out"]), key=lambda row: row[3])
    barred = {it["name"]: [f"somebody who may take {t['task']}" for t in it["begin"] if t.get("users") == []]
                          + [s["step"] for s in it["waiting"]] for it in good}
    return {
        "How the cases stand": [[state, str(sum(it["state"] == state for it in lines))] for state in states],
        "What waits for whom": [[user, task, str(len(cases_of[user, task])), joined(cases_of[user, task])]
                                for one in users for user, task in pairs if user == one],
        "What anybody may do": [[name, joined(texts)] for name, texts in free.items() if texts],
        "Out, the oldest first": out,
        "Stuck": [[it["name"], it["state"], joined(barred[it["name"]]), it.get("last", "")] for it in good if it["state"].startswith("stuck")],
        "Damaged": [[it["name"], it["why"]] for it in bad],
        "All cases": [[it["name"], it["state"], joined([t["task"] for t in it["begin"]] + [s["step"] for s in it["steps"]]),
                       joined([t["task"] for t in it["out"]]), it.get("last", "")] for it in good],
    }


def look_at_office(pages, count):
    """Compares the page of a folder with the lines of its list, and gives it."""
    folder = office(pages, count)
    begun = time.perf_counter()
    done = ran(pages.program, "page", folder, "--at", NOW)
    print(f"{count} cases: {time.perf_counter() - begun:.2f} s", flush=True)
    if done.returncode != 1 or done.stderr:
        pages.wrong("folder", done.returncode, done.stderr)
    page = Read(done.stdout)
    for fault in [*page.faults, *pages.shape(page)]:
        pages.wrong("folder", fault)
    lines = [json.loads(line) for line in ran(pages.program, "list", folder, "--json").stdout.splitlines()]
    wanted = wanted_rows(lines)
    if [text for kind, text in page.headings if kind == "h2"] != list(wanted):
        pages.wrong("folder", "other headings", page.headings)
    for heading, rows in wanted.items():
        shown = [row[1:] for row in page.tables.get(heading, [[]])[1:]]
        if shown != rows:
            pages.wrong("folder", heading, [pair for pair in zip(shown, rows) if pair[0] != pair[1]][:3], len(shown), len(rows))
    return done.stdout


def shots(pages, browser, path):
    """What a browser says of a page. Pictures of it, and the page on paper."""
    for is_dark in (False, True):
        for width in (360, 1400):
            browser.open(path.as_uri(), width, is_dark)
            if browser.requests():
                pages.wrong(path.name, "it asks for something", browser.requests())
            if browser.value("document.documentElement.scrollWidth > innerWidth"):
                pages.wrong(path.name, f"wider than {width} pixels")
            browser.picture(path.with_name(f"{path.stem}-{'dark' if is_dark else 'light'}-{width}.png"))
    heard(pages, path, browser.told())
    paper = path.with_suffix(".pdf")
    browser.paper(paper)
    if shutil.which("pdftotext"):
        for row in cut_rows(ran("pdftotext", "-layout", paper, "-").stdout, Read(path.read_text(encoding="utf-8"))):
            pages.wrong(path.name, "a row is cut", row)


def heard(pages, path, told):
    """Compares what a screen reader is told with the page: headings, tables with their names, heads of columns and rows."""
    page = Read(path.read_text(encoding="utf-8"))
    headings = [" ".join(text.split()) for _, text in page.headings]
    if [name for role, name in told if role == "heading"] != headings:
        pages.wrong(path.name, "a screen reader is told other headings", [name for role, name in told if role == "heading"])
    if [name for role, name in told if role == "table"] != list(page.tables):
        pages.wrong(path.name, "a screen reader is told other tables", [name for role, name in told if role == "table"])
    columns = sum(len(rows[0]) - 1 for rows in page.tables.values())
    rows = sum(len(rows) - 1 for rows in page.tables.values())
    if [sum(role == kind for role, _ in told) for kind in ("columnheader", "rowheader")] != [columns, rows]:
        pages.wrong(path.name, "a screen reader is told other heads")


def cut_rows(text, page):
    """The first lines of sheets that go on a row of the sheet before: below the heads of columns nothing stands in the first column."""
    heads = [rows[0][1:] for rows in page.tables.values()]
    for sheet in text.split("\f"):
        lines = [line for line in sheet.split("\n") if line.strip()]
        if len(lines) > 1 and any(lines[0].split() == " ".join(head).split() for head in heads):
            if len(lines[1]) - len(lines[1].lstrip()) > len(lines[0]) - len(lines[0].lstrip()) + 2:
                yield lines[1].strip()


def main():
    words = argparse.ArgumentParser(usage=__doc__)
    words.add_argument("--programs", default=None)
    words.add_argument("--keep", default=None)
    words.add_argument("--cases", type=int, default=500)
    words.add_argument("--shots", action="store_true")
    given = words.parse_args()
    program = pathlib.Path(given.programs) / "flowdesk" if given.programs else TOP / "crates/flowdesk/out/flowdesk"
    with tempfile.TemporaryDirectory() as folder:
        pages = Pages(program.resolve(), folder, random.Random(17))
        keep = pathlib.Path(given.keep or folder).resolve()
        keep.mkdir(parents=True, exist_ok=True)
        browser = Browser(pathlib.Path(folder) / "browser") if given.shots else None
        made = {name: pages.look(pages.drive(name)) for name in CASES}
        made["office"] = look_at_office(pages, given.cases)
        for name, text in made.items():
            path = keep / f"{name}.html"
            path.write_text(text, encoding="utf-8")
            for line in tidied(path):
                pages.wrong(name, line)
            if browser:
                shots(pages, browser, path)
            print(f"{name}: {path.stat().st_size} bytes", flush=True)
        if browser:
            browser.close()
    sys.exit(1 if pages.faults else 0)


if __name__ == "__main__":
    main()
