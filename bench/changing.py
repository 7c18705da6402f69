#!/usr/bin/env python3
"""Writes docs/CHANGING.md: for each kind of change the files that name the nearest thing that exists, by layer.

Usage: bench/changing.py [--write]     tells whether the page is what the tree says; with `--write` writes the page
       bench/changing.py WORD [CRATE ..]     the files that name a word; code of all crates, or of these alone

WORD is a word, an option or a pattern of `re`. `lone_iso` finds `LoneIso`, `LONE_ISO`, `lone-iso` and longer names with it, too, and
`--older` the option in documents and `older` in code. The last lines have documents, man pages, completions, scripts and rows.

The kinds of change stand in bench/changes.py: the nearest thing, what names it, in which order the work is done and why. The files are found
in the tree. Ends with 1 where the page is not what the tree says, or where no file names a thing.
"""
import functools
import pathlib
import re
import sys
import textwrap

from changes import BEGIN, CHANGES, END, INTRODUCTION, SEEN, Thing

TOP = pathlib.Path(__file__).resolve().parent.parent
PAGE = TOP / "docs/CHANGING.md"
WIDTH = 100
PARTS = ["src", "specs", "proofs"]
COMMENT = {".rt": r"//.*", ".antt": r"(?m)(?:^|(?<=\s))--(?:\s.*)?$"}
# Where a user's word may stand, by kinds.
PROSE = {
    "documents": ["README.md", "CONTRIBUTING.md", "docs/**/*.md"],
    "man pages, completions, editors": ["man/*", "completions/*", "editors/**/*"],
    "libraries and examples": ["include/*", "bindings/**/*.md", "bindings/**/*.py", "bindings/**/*.rs", "examples/README.md",
                               "examples/c/*", "examples/dask/*", "examples/postgres/*", "examples/tools/*"],
    "scripts": ["bench/*.py", "bench/*.c", "bench/*.sh", "install", "prove", "crates.txt"],
    "READMEs of crates": ["crates/*/README.md"],
    "rows": ["crates/*/data/*.rows"],
}
# What says why it is so, or what was measured, and what a script writes.
NO_PROSE = r"docs/(CHANGING|DECISIONS|BENCHES|PROVING)\.md|bench/chang(es|ing)\.py|.*/(desk_\w+|cookbook|surprises)\.rows"


def layers():
    """The layers of crates.txt from below, each with its crates."""
    found, title = [], None
    for line in (TOP / "crates.txt").read_text().splitlines():
        if line.startswith("#"):
            title = re.split("[:,]", line[2:])[0]
        elif ":" in line:
            if not found or found[-1][0] != title:
                found.append((title, []))
            found[-1][1].append(line.partition(":")[0].split()[0])
    return found


@functools.cache
def code():
    """The text of each file of code, specs and proofs without its comments, by its path below crates/."""
    texts = {}
    paths = (path for part in PARTS for kind in COMMENT for path in (TOP / "crates").glob(f"*/{part}/**/*{kind}"))
    for path in sorted(paths):
        texts[str(path.relative_to(TOP / "crates"))] = re.sub(COMMENT[path.suffix], "", path.read_text())
    return texts


@functools.cache
def prose():
    """Of each kind of document, row file and script the texts by their paths."""
    found = {}
    for kind, patterns in PROSE.items():
        paths = sorted({path for pattern in patterns for path in TOP.glob(pattern) if path.is_file()})
        texts = {str(path.relative_to(TOP)): path.read_text(errors="replace") for path in paths}
        found[kind] = {name: text for name, text in texts.items() if not re.fullmatch(NO_PROSE, name)}
    return found


def forms_of(word):
    """The parts of a plain word, and whether it is an option; no parts of what is a pattern."""
    plain = re.fullmatch(r"(--)?([A-Za-z][A-Za-z0-9]*(?:[_-][A-Za-z0-9]+)*)", word)
    return ([], False) if not plain else (re.findall(r"[A-Z]+(?![a-z])|[A-Z]?[a-z0-9]+", plain[2]), bool(plain[1]))


def thing_of(word, only):
    """What a word names: in code the word in all forms of names, in prose that word or that option."""
    parts, is_option = forms_of(word)
    if not parts:
        return Thing(word, word, word, only=only)
    low = "[_-]".join(part.lower() for part in parts)
    high = "".join(part.lower().capitalize() for part in parts)
    names = rf"(?<![A-Za-z])({low}|{low.upper()})(?![A-Za-z])|(?<![A-Z]){high}(?![a-z])"
    return Thing(word, names, rf"(--|\\-\\-){low}\b" if is_option else names, only=only)


def is_in(crate, thing):
    """Whether the files of a crate are looked through."""
    return crate in thing.only if thing.only else crate not in thing.but


def has(text, thing):
    """Whether a text of code names the thing, with what is to stand beside it and without what is not."""
    return (re.search(thing.names, text) and re.search(thing.beside, text)
            and not (thing.without and re.search(thing.without, text)))


@functools.cache
def named(thing):
    """The files whose code names the thing, by their path below crates/."""
    return [path for path, text in code().items() if is_in(path.partition("/")[0], thing) and has(text, thing)]


def shown(path):
    """A file of a crate, in short: a file of src by its stem, answers by their folder."""
    stem = re.sub(r"\.(rt|antt)$", "", path)
    return re.sub(r"/(Answers|Invariants)$", "/", stem)


def of_crate(paths):
    """The files of a crate: each part with its files."""
    parts = {}
    for path in paths:
        part, _, rest = path.partition("/")
        parts.setdefault(part, []).append(f"`{shown(rest)}`")
    return "; ".join(f"{part} {', '.join(dict.fromkeys(parts[part]))}" for part in PARTS if part in parts)


def wrapped(text, first="", rest=""):
    """A paragraph as lines."""
    return textwrap.wrap(text, WIDTH, initial_indent=first, subsequent_indent=rest, break_long_words=False, break_on_hyphens=False)


def files_of(thing):
    """The lines with the files that name the thing, layer by layer."""
    by_crate = {}
    for path in named(thing):
        crate, _, rest = path.partition("/")
        by_crate.setdefault(crate, []).append(rest)
    lines = []
    for title, crates in layers():
        there = [crate for crate in crates if crate in by_crate]
        lines += [f"- *{title}*"] if there else []
        for crate in there:
            lines += wrapped(f"- `{crate}`: {of_crate(by_crate[crate])}", "  ", "    ")
    return lines


def prose_of(thing):
    """The lines with the documents, rows and scripts in which users' words for the thing stand."""
    lines = []
    for kind, texts in prose().items():
        found = [name for name, text in texts.items() if thing.said and re.search(thing.said, text, re.M)]
        if kind == "READMEs of crates":
            found = [name.split("/")[1] for name in found]
        if kind == "rows":
            found = [name.split("/")[-1].removesuffix(".rows") for name in found]
        if found:
            lines += wrapped(f"- *{kind}*: {', '.join(f'`{name}`' for name in found)}", "", "  ")
    return lines


def anchor(title):
    """Where a link to a section leads."""
    return "#" + re.sub(r"[^\w -]", "", title.lower()).replace(" ", "-")


def contents():
    """The lines that lead to each section, by what a user sees."""
    lines = []
    for seen in SEEN:
        lines += [f"- **{seen}**"]
        for change in CHANGES:
            if change.seen == seen:
                lines += wrapped(f"- [{change.title}]({anchor(change.title)}): {change.such}", "  ", "    ")
    return lines


def counted(thing):
    """What a list has: the thing, and the patterns that found the files."""
    patterns = f"`{thing.names}`" + (f", beside `{thing.beside}`" if thing.beside else "") + (f", without `{thing.without}`" if thing.without else "")
    return f"**{thing.what}**: {len(named(thing))} file{'s' * (len(named(thing)) != 1)} ({patterns})."


def section(change):
    """The lines of a kind of change."""
    lines = [f"## {change.title}", ""]
    for step in change.order:
        lines += wrapped(step, "- ", "  ")
    for thing in change.things:
        lines += ["", *wrapped(counted(thing))]
        lines += ["", *files_of(thing), *prose_of(thing)]
    return lines


@functools.cache
def page():
    """The whole page."""
    lines = ["# Changing the programs", ""]
    for text in INTRODUCTION:
        lines += [*wrapped(text), ""]
    lines += ["## Contents", "", *contents(), ""]
    for title, steps in (("Before each change", BEGIN), ("After each change", END)):
        lines += [f"## {title}", "", *(line for step in steps for line in wrapped(step, "- ", "  ")), ""]
    for change in CHANGES:
        lines += [*section(change), ""]
    return "\n".join(lines)


def faults():
    """What is wrong with the page, and with the table that it is made of."""
    found = [f"docs/CHANGING.md: no file names {thing.what} (`{thing.names}`): bench/changes.py names what is gone"
             for change in CHANGES for thing in change.things if not named(thing)]
    known = {crate for _, crates in layers() for crate in crates}
    found += [f"bench/changes.py: {change.title}: there is no crate {crate}"
              for change in CHANGES for thing in change.things for crate in sorted((thing.only | thing.but) - known)]
    found += [f"bench/changes.py: {change.title}: there is no file {name}"
              for change in CHANGES for step in change.order for name in re.findall(r"`(crates/[^`*{]+|flow_\w+/[^`*{]+)`", step)
              if not (TOP / "crates" / name.removeprefix("crates/")).exists()]
    found += [f"bench/changes.py: {change.title}: there is no file {name}"
              for change in CHANGES for step in change.order
              for name in re.findall(r"`((?:bench|bindings|docs|examples|include|man|completions|editors)/[^`*{ ]+)`", step) if not (TOP / name).exists()]
    found += [f"bench/changes.py: {change.title}: the contents do not have it" for change in CHANGES if change.seen not in SEEN]
    if not PAGE.exists() or PAGE.read_text() != page():
        found.append("docs/CHANGING.md: it is not what the tree says: bench/changing.py --write writes it")
    return found


def main(words):
    if words and words != ["--write"]:
        thing = thing_of(words[0], set(words[1:]))
        print("\n".join([*files_of(thing), *prose_of(thing)]))
        return 0
    if words:
        PAGE.write_text(page())
    found = faults()
    print("\n".join([*found, f"docs/CHANGING.md: {len(CHANGES)} kinds of change, {len(found)} faults"]))
    return 1 if found else 0


if __name__ == "__main__":
    sys.exit(main(sys.argv[1:]))
