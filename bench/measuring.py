"""What a call of the program takes, and where it is kept. GNU time (/usr/bin/time) counts its memory."""
import datetime
import os
import pathlib
import subprocess
import sys
import time

TOP = pathlib.Path(__file__).resolve().parent.parent
RESULTS = TOP / "bench/results"


def arguments():
    """The program that is measured (the first word, where it is a file; else crates/flow/out/flow), and the other words."""
    words = sys.argv[1:]
    program = str(TOP / "crates/flow/out/flow")
    if words and os.path.exists(words[0]):
        program = words.pop(0)
    return program, words


def called(program, words, source):
    """The seconds of a call, its memory in MB, and the last line of what it wrote."""
    begun = time.perf_counter()
    call = subprocess.run(["/usr/bin/time", "-f", "%M", program, *words], input=source, capture_output=True, check=False)
    spent = time.perf_counter() - begun
    last = call.stdout.decode().rstrip("\n").split("\n")[-1] or f"status {call.returncode}"
    return spent, int(call.stderr.split()[-1]) / 1024, last


def by_turns(program, words, *sources):
    """Of each source the least seconds of five calls, the most memory in MB, and the last line of what was written. The calls take turns,
    since a machine is faster at one time than at another."""
    best, peak, last = [None] * len(sources), [0] * len(sources), [""] * len(sources)
    for _ in range(5):
        for number, source in enumerate(sources):
            spent, memory, last[number] = called(program, words, source)
            best[number] = spent if best[number] is None else min(best[number], spent)
            peak[number] = max(peak[number], memory)
        if max(best) > 5:
            break
    return list(zip(best, peak, last))


def measured(program, words, source):
    """The least seconds of five calls, the most memory in MB, and the last line of what was written."""
    return by_turns(program, words, source)[0]


def told_by(*words):
    """The first line that a call writes; nothing where there is no such program."""
    try:
        return subprocess.run(words, capture_output=True, text=True, cwd=TOP, check=False).stdout.partition("\n")[0]
    except OSError:
        return ""


def where():
    """The commit, the date, the processor and the kit, as the first line of results tells them."""
    commit = told_by("git", "rev-parse", "--short", "HEAD") + ("-changed" if told_by("git", "status", "--porcelain", "-uno") else "")
    lines = pathlib.Path("/proc/cpuinfo").read_text().splitlines()
    names = [line.partition(": ")[2] for line in lines if line.startswith("model name")]
    kit = told_by("rt", "version").partition(" ")[0]
    return f"# commit {commit}\tdate {datetime.date.today()}\tprocessor {len(names)} x {names[0] if names else '?'}\tkit {kit}"


def keep_results(name, heads, rows):
    """Writes bench/results/NAME.tsv: where it was measured, the heads of the columns, and a row a line."""
    RESULTS.mkdir(exist_ok=True)
    cells = [heads, *([f"{cell:.4g}" if isinstance(cell, float) else str(cell) for cell in row] for row in rows)]
    text = "\n".join([where(), *("\t".join(row) for row in cells)]) + "\n"
    (RESULTS / f"{name}.tsv").write_text(text, encoding="utf-8")
