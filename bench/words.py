#!/usr/bin/env python3
"""The words of the command line and of the texts, as documents, man pages, completions and editors' files have them, beside the code;
and the prose of the pages: lines, sentences and words (bench/prose.py).

Usage: bench/words.py

In the code: the modes and options of crates/flow_words with their bounds, the reserved words of crates/flow_reader, the commands of
sessions (crates/flow_record, and of users beside it) and the statements of policies (crates/flow_policy, and of cases crates/flow_case).
The script ends with 1 where a file has a word that the code has not, lacks one, or has another bound, and prints it.
"""
import json
import pathlib
import re
import sys

import prose

TOP = pathlib.Path(__file__).resolve().parent.parent


def text(path):
    """The text of a file; nothing where there is none, as of a crate that this tree has not."""
    file = TOP / path
    return file.read_text(encoding="utf-8") if file.exists() else ""


def sources(pattern):
    """The texts of all files of that pattern, one behind another."""
    return "".join(file.read_text(encoding="utf-8") for file in sorted(TOP.glob(pattern)))


def found(pattern, where):
    return set(re.findall(pattern, where))


def between(begin, end, where):
    """What stands behind a first mark and before a second one."""
    return where.partition(begin)[2].partition(end)[0]


# What the code has.

def limits():
    """The constants that bound options, by name."""
    return {name: int(figure.replace("_", "")) for name, figure in re.findall(r"pub const (\w+): \w+ = ([\d_]+);", text("crates/flow_model/src/limits.rt"))}


def options_of_code():
    """Each option with its least and greatest number, and the one without it."""
    known, options = limits(), {}
    form = r'number_option\(alloc, "(\w+)", (\w+), (\w+), "(\d+)"\)'
    for name, least, greatest, default in re.findall(form, text("crates/flow_words/src/command.rt")):
        options[name] = tuple(known.get(word) if word in known else int(word) for word in (least, greatest, default))
    return options


def modes_of_code():
    return found(r'"(\w+)" => Mode::', text("crates/flow_words/src/request.rt"))


def reserved_of_code():
    return found(r'is\(word, "(\w+)"\)', text("crates/flow_reader/src/reserved_words.rt"))


def commands_of_code():
    """Those of `drive`, and those that a session of users has besides (src/duty.rt of the crate that reads it)."""
    return found(r'is_word\(\w+, b"(\w+)"\)', sources("crates/flow_record/src/session.rt")) | found(r'== b"(\w+)"', sources("crates/*/src/duty.rt"))


def statements_of_code():
    code = sources("crates/flow_policy/src/*.rt") + sources("crates/flow_case/src/kind.rt")
    return found(r'== "(\w+)"\.as_bytes\(\)', code)


# What each file has: of each kind of words a set, and of options their bounds where it tells them.

def figure(digits):
    return int(digits.replace(",", ""))


def of_help():
    page = text("crates/flow_words/src/help.rt")
    bounds = re.findall(r"(?m)^ +--(\w+) N +.*, (\d+) to (\d+) \[default: (\d+)\]$", page)
    return {
        "modes": found(r"(?m)^  (\w+) +[A-Z]", between("Modes:", "\n\n", page)),
        "options": {name: tuple(map(int, rest)) for name, *rest in bounds},
    }


def of_man_page():
    page = text("man/flow.1")
    heads = re.findall(r"(?m)^\.TP\n\.B (.*)$", between(".SH THE SESSION", "\n.SH ", page))
    bounds = re.findall(r'(?s)\.BI \\-\\-(\w+) " N"\n.*?from\n?\s*([\d,]+) to ([\d,]+); ([\d,]+) without it', page)
    return {
        "modes": found(r"(?m)^\.TP\n\.B (\w+)$", between(".SH MODES", "\n.SH ", page)),
        "options": {name: tuple(map(figure, rest)) for name, *rest in bounds},
        "reserved words": found(r"[a-z]+", re.sub(r"(?m)^\.BR", "", between('.\\" reserved', '.\\" /reserved', page))),
        "commands": found(r"\b[a-z]+\b", re.sub(r"\\f.", " ", " ".join(heads))),
    }


def of_bash():
    script = text("completions/flow.bash")
    return {
        "modes": set(between("_flow_modes=(", ")", script).split()),
        "option names": found(r"--(\w+)", between("_flow_options=(", ")", script)),
    }


def of_zsh():
    script = text("completions/_flow")
    bounds = re.findall(r"'--(\w+)=\[[^]]*\]:[a-z]+ \((\d+) to (\d+)\)", between("    flow)", "    flowkeep)", script))
    return {
        "modes": found(r"(?m)^ *'(\w+):", between("modes=(", "\n)", script)),
        "bounds": {name: tuple(map(int, rest)) for name, *rest in bounds},
    }


def of_vim():
    kinds = {"reserved words": set(), "commands": set(), "statements": set()}
    for group, words in re.findall(r"(?m)^syntax keyword (\w+) (.*)$", text("editors/vim/syntax/flow.vim")):
        kind = {"flowCommand": "commands", "flowPolicy": "statements", "flowTodo": None}.get(group, "reserved words")
        if kind:
            kinds[kind] |= set(words.split()) - {"contained"}
    return kinds


def of_vscode():
    repository = json.loads(text("editors/vscode/syntaxes/flow.tmLanguage.json"))["repository"]
    words = {name: found(r"[a-z]+", between("(", ")", rule["match"])) for name, rule in repository.items() if rule.get("match", "").startswith("\\b(")}
    return {"commands": words.pop("command", set()), "statements": words.pop("policy", set()), "reserved words": set().union(*words.values())}


def of_reference():
    page = text("docs/reference/statuses.md")
    command_line = between("## The command line", "\n## ", page)
    bounds = re.findall(r"(?m)^\| `--(\w+) N` \|.*\| ([\d,]+) \| ([\d,]+) \| ([\d,]+) \|$", command_line)
    return {
        "modes": found(r"(?m)^ *flow ([a-z]+) {2,}", command_line),
        "modes of the usage lines": set(re.search(r"modes: ([a-z ]+)", command_line)[1].split()),
        "options": {name: tuple(map(figure, rest)) for name, *rest in bounds},
        "option names": found(r"\[--(\w+) N\]", re.search(r"usage: flow MODE.*", command_line)[0]),
        "reserved words": found(r"[a-z]+", between("Reserved are:", ".", text("docs/reference/text.md"))),
    }


def of_code():
    options, modes = options_of_code(), modes_of_code()
    return {
        "modes": modes,
        "modes of the usage lines": modes,
        "options": options,
        "option names": set(options),
        "bounds": {name: bounds[:2] for name, bounds in options.items()},
        "reserved words": reserved_of_code(),
        "commands": commands_of_code(),
        "statements": statements_of_code(),
    }


FILES = {
    "crates/flow_words/src/help.rt": of_help,
    "man/flow.1": of_man_page,
    "completions/flow.bash": of_bash,
    "completions/_flow": of_zsh,
    "editors/vim/syntax/flow.vim": of_vim,
    "editors/vscode/syntaxes/flow.tmLanguage.json": of_vscode,
    "docs/reference": of_reference,
}


def pairs(words):
    """Options as pairs with their bounds, other words as they are."""
    return set(words.items()) if isinstance(words, dict) else set(words)


def main():
    code, wrong, compared = of_code(), 0, 0
    for file, words_of in FILES.items():
        for kind, words in words_of().items():
            compared += len(words)
            for sign, rest in ("lacks", pairs(code[kind]) - pairs(words)), ("has, and the code has not,", pairs(words) - pairs(code[kind])):
                if rest:
                    wrong += 1
                    print(f"{file}: {kind}: it {sign} {', '.join(sorted(map(str, rest)))}")
    print(f"{compared} words in {len(FILES)} files, {wrong} differences")
    faults = prose.look()
    print("\n".join(faults), end="\n" if faults else "")
    print(f"{len(prose.pages())} pages, {len(faults)} faults of prose")
    sys.exit(1 if wrong or faults else 0)


if __name__ == "__main__":
    main()
