#!/usr/bin/env python3
"""Functions that are lent something mutable, may be refused memory, and have no clause on what was lent after an error.

Usage: bench/lent.py [--all]     without --all those that other crates call

It reads the signatures under crates/*/src. A clause speaks of the time after an error where it names what was lent as it is at the
return, and is not of an Ok alone. Who hands an error on and lets go of what it was lent needs no such clause; who goes on does.
"""
import pathlib
import re
import sys

TOP = pathlib.Path(__file__).resolve().parent.parent / "crates"
HEAD = re.compile(r"(?ms)^(?P<indent> *)(?P<seen>pub |pub\(crate\) |)fn (?P<name>\w+)(?P<rest>.*?)(?:^(?P=indent)\{| \{$|\{\}$|;$)")
CLAUSE = re.compile(r"(?ms)^ *ensures(?: \w+)? \{(.*?)\}(?= *$)")
MEMORY = re.compile(r"AllocError|Stop\b|\w+Refusal|\w+Failed\b")
OF_OK = re.compile(r"\A *(?:\([^()]*\) →\s*)*(?:IfOk|OnOk)\b")


def signature(rest):
    return re.split(r"(?m)^ *(?:requires|ensures|ghost)\b", rest)[0]


def may_be_refused(head):
    """Whether it is lent something mutable, and its answer may be want of memory."""
    lends, _, answer = head.rpartition("->")
    return "&mut" in lends and "Result<" in answer and MEMORY.search(answer) is not None


def speaks_of_errors(rest):
    return any(not OF_OK.match(clause) and re.search(r"\.new\b", clause) for clause in CLAUSE.findall(rest))


def main():
    found = 0
    for file in sorted(TOP.glob("*/src/**/*.rt")):
        for function in HEAD.finditer(file.read_text()):
            seen, rest = function["seen"].strip() or "private", function["rest"]
            if seen != "pub" and "--all" not in sys.argv[1:]:
                continue
            if may_be_refused(signature(rest)) and not speaks_of_errors(rest):
                found += 1
                print(f"{file.relative_to(TOP)}: {seen} {function['name']}")
    print(f"{found} functions")


if __name__ == "__main__":
    main()
