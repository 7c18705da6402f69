#!/usr/bin/env python3
"""The library as `install` installs it: its header beside what it exports, and the examples in C, Python and Rust.

Usage: bench/installed.py

header     include/flow.h, include/flow.map, crates/flow_c/src/lib.rt and libflow.so have the same calls with the same parameters; the modes
           and statuses of flow.h are those of the code, of the package for Python and of the crate for Rust; libflow.so asks for the C
           library alone.
install    `./install FOLDER` puts everything there that its own words say; flow.h compiles alone, as C and as C++.
C          examples/c/step.c, built by what pkg-config says of the installed library, drives a case as Python does.
Python     what the README for Python shows runs, by the installed package, but for what it shows of PostgreSQL (bench/postgres.py).
Rust       the tests of bindings/rust pass by the installed archive, where cargo is.

Needs ./prove flow_c, gcc and pkg-config. The script ends with 1 where something is not as it must be.
"""
import json
import os
import pathlib
import re
import shutil
import subprocess
import sys
import tempfile

from measuring import TOP
from python_page import DATABASE, run_page

SHOP = "event pack, card, bill; goal pack | (card + bill); constraint precedes pack bill;\n"
LINES = ["take 0", "take 1", "fail 2", "take 2", "done 1", "take 2", "done 3", "done 3", "facts", "commit", "next"]
HEADER = (TOP / "include/flow.h").read_text()
MADE = TOP / "crates/flow_c/out/libflow.so"
WRONG = []


def wrong(what):
    WRONG.append(what)
    print("WRONG", what[:800])


def same(what, one, other):
    if one != other:
        wrong(f"{what}: {one}, and not {other}")


def ran(*words, **how):
    """What a program wrote. Where it ends with anything but 0, that is wrong."""
    call = subprocess.run([str(word) for word in words], capture_output=True, text=True, check=False, **how)
    if call.returncode:
        wrong(f"{words[0]} ends with {call.returncode}: {call.stdout[-400:]} {call.stderr[-400:]}")
    return call.stdout


# --- the header

def calls_of_header():
    """Each call of flow.h with its parameters, a pointer and its length as one."""
    calls = {}
    for name, parameters in re.findall(r"^uint32_t (\w+)\(([^)]*)\);", HEADER, flags=re.M):
        plain = re.sub(r"const uint8_t \*(\w+), size_t \1_length", r"given \1", re.sub(r"\s+", " ", parameters))
        plain = plain.replace("uint8_t *room, size_t room_length", "room room").replace("size_t *length", "length length")
        calls[name] = [tuple(it.split()) for it in plain.replace("uint32_t", "number").split(", ")]
    return calls


def calls_of_code():
    """Each export of flow_c. Of an allocator nothing is seen in C."""
    kinds = {"u32": "number", "&[u8]": "given", "&mut [u8]": "room", "&mut usize": "length"}
    source, calls = (TOP / "crates/flow_c/src/lib.rt").read_text(), {}
    for name, parameters in re.findall(r'pub extern "C" fn (\w+)\((.*?)\) -> u32', source, flags=re.S):
        pairs = [it.strip().split(": ") for it in parameters.split(",") if it.strip()]
        calls[name] = [(kinds[kind], word) for word, kind in pairs if kind != "Global"]
    return calls


def numbers(pattern, path):
    """The numbers that a file gives to names, which stand in front of them or behind."""
    pairs = [pair[::-1] if pair[0][0].isdigit() else pair for pair in re.findall(pattern, (TOP / path).read_text(), flags=re.M)]
    return {name.replace("_", "").lower(): int(number) for name, number in pairs}


def statuses_of_code():
    """The statuses of both calls, by the names that flow.h gives them."""
    found = numbers(r"Status::(Fine|Input|No|Memory|Spent|Words) => (\d)", "crates/flow_front/src/status.rt")
    found |= numbers(r"const (WORDS|MEMORY): u32 = (\d)", "crates/flow_c/src/lib.rt")
    found |= numbers(r"const (NO_ROOM): u32 = (\d)", "crates/flow_c/src/hand.rt")
    found |= numbers(r"Stepped::(Illegal)\(_\) => (\d+)", "crates/flow_step/src/json.rt")
    other_names = {"fine": "ok", "words": "call", "illegal": "history"}
    return {other_names.get(name, name): number for name, number in found.items()}


def try_numbers():
    """Modes, statuses and limits are the same everywhere."""
    modes, statuses = numbers(r"(\d) => Some\(Mode::(\w+)\)", "crates/flow_c/src/request.rt"), statuses_of_code()
    same("modes and statuses of flow.h", numbers(r"^    FLOW_(\w+) = (\d+)", "include/flow.h"), modes | statuses)
    same("modes and statuses for Python", numbers(r"^    ([A-Z_]+) = (\d+)$", "bindings/python/flow/library.py"), modes | statuses)
    rust = "bindings/rust/src/lib.rs"
    same("modes for Rust", numbers(r"^    (\w+) = (\d),$", rust), modes)
    # what is no other status is want of memory there
    of_rust = numbers(r"^        (\d+) => (?:Ok\()?(?:Status::|return Err\(Error::)(\w+)", rust) | numbers(r"const (NO_ROOM): u32 = (\d)", rust)
    same("statuses for Rust", of_rust, {name: number for name, number in statuses.items() if name != "memory"})
    most = numbers(r"const (MOST_ENTRIES): u32 = ([\d_]+);", "crates/flow_model/src/limits.rt")["mostentries"]
    same("FLOW_MOST_STEPS", numbers(r"#define FLOW_(MOST_STEPS) (\d+)", "include/flow.h")["moststeps"], most)
    return len(modes), len(statuses)


def try_header():
    calls = calls_of_header()
    same("calls of flow.h and of crates/flow_c", calls, calls_of_code())
    same("include/flow.map", set(re.findall(r"\bflow_\w+", (TOP / "include/flow.map").read_text())), set(calls))
    same("exports of libflow.so", {line.split()[-1] for line in ran("nm", "-D", "--defined-only", MADE).splitlines()}, set(calls))
    same("libraries that libflow.so needs", set(re.findall(r"NEEDED\s+(\S+)", ran("objdump", "-p", MADE))), {"libc.so.6"})
    modes, statuses = try_numbers()
    print(f"header: {len(calls)} calls, {modes} modes, {statuses} statuses")


# --- what is installed

def try_install(folder):
    """Installs into a folder, and looks for what `install` says that it puts there."""
    ran(TOP / "install", folder, cwd=TOP)
    wanted = ["lib/libflow.a", "lib/libflow.so", "lib/pkgconfig/flow.pc", "include/flow.h"]
    wanted += [f"lib/python/flow/{path.name}" for path in (TOP / "bindings/python/flow").glob("*.py")]
    for path in wanted:
        if not (pathlib.Path(folder) / path).is_file():
            wrong(f"{path} is not installed")
    for words in (["gcc", "-x", "c"], ["g++", "-x", "c++"]):
        ran(*words, "-Wall", "-Wextra", "-Wpedantic", "-Werror", "-fsyntax-only", f"{folder}/include/flow.h")
    print(f"install: {len(wanted)} files of the library")


def try_c(folder):
    """Each line of a case, by examples/c/step.c and by the package for Python."""
    from flow import Case, StepRefused, Workflow

    apart = {**os.environ, "PKG_CONFIG_PATH": f"{folder}/lib/pkgconfig", "LD_LIBRARY_PATH": f"{folder}/lib"}
    flags = ran("pkg-config", "--cflags", "--libs", "flow", env=apart).split()
    made, history = f"{folder}/step", pathlib.Path(folder) / "history"
    ran("gcc", "-Wall", "-Wextra", "-Werror", "-o", made, TOP / "examples/c/step.c", *flags)
    (pathlib.Path(folder) / "shop.flow").write_text(SHOP)
    case = Case(Workflow(SHOP))
    for line in LINES:
        call = subprocess.run([made, f"{folder}/shop.flow", history, "0", *line.split()], env=apart, capture_output=True, check=False)
        try:
            wanted = (0, case.give(line).reply)
        except StepRefused as refused:
            wanted = (1, refused.reply)
        same(f"examples/c/step.c: {line}", (call.returncode, json.loads(call.stdout)["reply"]), wanted)
    same("examples/c/step.c: the history", history.read_bytes(), case.history)
    print(f"C: {len(LINES)} lines")


def try_python():
    """What the README for Python shows, but for PostgreSQL."""
    count, failed = run_page(but=[DATABASE])
    for what in failed:
        wrong(what)
    print(f"Python: {count} blocks of the README")


def try_rust(folder):
    if not shutil.which("cargo"):
        print("Rust: no cargo is there")
        return
    apart = {**os.environ, "CARGO_TARGET_DIR": f"{folder}/target", "FLOW_LIB_DIR": f"{folder}/lib"}
    ran("cargo", "test", "--offline", "--quiet", cwd=TOP / "bindings/rust", env=apart)
    print("Rust: tests")


def main():
    with tempfile.TemporaryDirectory() as folder:
        try_header()
        try_install(folder)
        sys.path.insert(0, f"{folder}/lib/python")
        try_c(folder)
        try_python()
        try_rust(folder)
    sys.exit(1 if WRONG else 0)


if __name__ == "__main__":
    main()
