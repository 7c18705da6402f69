#!/usr/bin/env python3
"""Writes the table of docs/BENCHES.md from bench/results/*.tsv, which the benches write.

Usage: bench/benches.py [--write]     tells whether the table is what the results say; with `--write` writes it

ROWS has the figures that matter, each with the peer beside it. The first line of a file of results tells commit, date, processor and kit.
Ends with 1 where the page has another table, or a row of it is in no results.
"""
import pathlib
import sys

TOP = pathlib.Path(__file__).resolve().parent.parent
PAGE = TOP / "docs/BENCHES.md"
BEGIN, END = "| what | figure | beside it |", "\n\n## "
# Title, where it stands and its unit; and the same of the peer: a file, what begins its rows, the head of a column, a unit.
ROWS = [
    ("check of 1,024 events", ("worst", ["the greatest generated text"], "ms", "ms"), "no peer", None),
    ("check of the slowest text of 90", ("worst", ["options refused after"], "ms", "ms"),
     "the text above", ("worst", ["the greatest generated text"], "ms", "ms")),
    ("16,384 commands, 4,096 options", ("sessions", ["four thousand options changed"], "ms", "ms"),
     "the order desk", ("sessions", ["the order desk"], "ms", "ms")),
    ("audit of 1,024 journals, 4 workers", ("audits", ["the order desk"], "4 workers, ms", "ms"),
     "as many calls of `trace`", ("audits", ["the order desk"], "by trace", "ms")),
    ("audit of long journals, 4 workers", ("audits", ["64 leaves"], "4 workers, ms", "ms"),
     "1 worker", ("audits", ["64 leaves"], "1 workers, ms", "ms")),
    ("512 tasks of 1 ms, 64 workers", ("workers", ["asleep, 1000 us", "64"], "ms", "ms"),
     "1 worker", ("workers", ["asleep, 1000 us", "1"], "ms", "ms")),
    ("a step of `flowkeep`", ("kept", ["a step, kept"], "median", "us"),
     "SQLite with write-ahead log", ("kept", ["a step, sqlite, write"], "median", "us")),
    ("`todo` of a case, 60 entries", ("cases", ["todo, 60 entries"], "figure", "ms"), "no peer", None),
    ("a step in a dialogue", ("cases", ["a step in a dialogue"], "figure", "us"),
     "a step of `flowkeep` on that disk", ("cases", ["a step of flowkeep"], "figure", "us")),
    ("1,000,000 entries opened", ("kept", ["1,000,000 records"], "median", "ms"), "no peer", None),
    ("a step of the library, 60 entries", ("library", ["60"], "us from C", "us"),
     "a process that makes it", ("library", ["60"], "us of a process", "us")),
    ("a step in PostgreSQL, processor", ("postgres", ["one worker"], "ms of the processor a step", "ms"),
     "the same without the engine", ("postgres", ["one worker, noted answers"], "ms of the processor a step", "ms")),
]


class Missing(Exception):
    """A figure that no results have."""


def table(name):
    """The heads and the rows of a file of results."""
    path = TOP / f"bench/results/{name}.tsv"
    if not path.exists():
        raise Missing(f"no results {name}")
    _, heads, *rows = [line.split("\t") for line in path.read_text().splitlines()]
    return heads, rows


def figure(name, begins, head, unit):
    """A figure with its unit: of the first row whose cells begin so."""
    heads, rows = table(name)
    for row in rows:
        if head in heads and all(cell.startswith(begin) for cell, begin in zip(row, begins)):
            return f"{row[heads.index(head)]} {unit}"
    raise Missing(f"results {name}: no row {begins}, or no column {head}")


def made():
    """The table as text."""
    lines = [BEGIN, "|---|---|---|"]
    for title, place, peer, other in ROWS:
        beside = f"{peer}: {figure(*other)}" if other else peer
        lines.append(f"| {title} | {figure(*place)} | {beside} |")
    return "\n".join(lines)


def faults():
    """What is wrong of the page."""
    page = PAGE.read_text()
    try:
        return [] if made() in page else ["docs/BENCHES.md: bench/benches.py --write makes another table"]
    except Missing as missing:
        return [f"docs/BENCHES.md: {missing}"]


def main():
    if "--write" in sys.argv[1:]:
        page = PAGE.read_text()
        begin = page.index(BEGIN)
        PAGE.write_text(page[:begin] + made() + page[page.index(END, begin):])
    wrong = faults()
    print("\n".join(wrong) or f"docs/BENCHES.md: {len(ROWS)} rows, 0 faults")
    return 1 if wrong else 0


if __name__ == "__main__":
    sys.exit(main())
