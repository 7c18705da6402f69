#!/usr/bin/env python3
"""Tells what the proof of a crate costs, module by module and goal by goal: for whoever makes it cheaper.

Usage: bench/dear.py CRATE [ROWS]     after ./prove, by which the crates below it are built

The crate is checked from nothing by one process, which keeps its work in a folder that is removed. A module costs the time between
the file before it and its own: seconds of this machine, which swing. They are told by the module, by the function and by the kind
(`Lts` has who owns what, `Proof` the goals), and in all for what drops values of a type, also one of a crate below, which each crate
that drops such a value proves. A goal costs steps, in millions, as the prover counts them, with what each tactic took of them: these
do not swing, and a million is some six tenths of a second.
"""
import collections
import json
import os
import re
import subprocess
import sys
import tempfile
from importlib.machinery import SourceFileLoader
from importlib.util import module_from_spec, spec_from_loader

TOP = os.path.dirname(os.path.dirname(os.path.realpath(__file__)))


def loaded(path):
    """The script `prove` as a module, for the kit's library and the words of a check."""
    loader = SourceFileLoader("prove", path)
    made = module_from_spec(spec_from_loader("prove", loader))
    loader.exec_module(made)
    return made


def check(prove, name, room):
    """Checks the crate by one process, and leaves what is kept in the room."""
    crate = prove.rt.Crate(f"{TOP}/crates/{name}", TOP, {})
    words = [*crate.words(["--jobs", "1"], keeps=False), "--incremental", room]
    how = {"stdout": subprocess.PIPE, "stderr": subprocess.STDOUT, "text": True}
    said = subprocess.run([prove.rtlib.RATTLE, "check", *words], cwd=crate.folder, **how).stdout
    verdict = [it for it in said.splitlines() if it.startswith("logic=")]
    print(*verdict or [said[-4000:]], sep="\n")


def name_of(file):
    return file.removesuffix(".oantt").removesuffix(".decls").split("-proofs.", 1)[-1]


def modules(kept):
    """Seconds and name of each module."""
    files = [it for it in os.listdir(kept) if it.endswith(".oantt")]
    written = sorted((os.stat(f"{kept}/{it}").st_mtime_ns, it) for it in files)
    return [((now - before) / 1e9, name_of(it)) for (before, _), (now, it) in zip(written, written[1:])]


def summed(found, key):
    """The seconds of all modules with the same key."""
    sums = collections.Counter()
    for seconds, name in found:
        sums[key(name)] += seconds
    return [(seconds, name) for name, seconds in sums.items()]


def goals(kept):
    """Steps in millions of each declaration that has their number, its name, and what its tactics took."""
    rows = []
    for file in os.listdir(f"{kept}/records"):
        with open(f"{kept}/records/{file}", "rb") as it:
            text = it.read().decode(errors="replace")
        for found in re.finditer(r'\{"a(?:ux|xiom)":', text):
            try:
                said, _ = json.JSONDecoder().raw_decode(text, found.start())
            except ValueError:
                continue
            if said.get("spent"):
                tactics = " ".join(f"{it[0]}:{it[2] / 1e6:.2f}" for it in said.get("calls", []))
                rows.append((said["spent"][0] / 1e6, f"{name_of(file)} {said['name']}  {tactics}"))
    return rows


def main(name, rows):
    os.chdir(TOP)
    prove = loaded(f"{TOP}/prove")
    prove.rt.Crate.allowed = prove.rt.handles_of(TOP)
    prove.rt.Crate.cuts_libraries = True
    prove.rtlib.Crate = prove.rt.Crate
    with tempfile.TemporaryDirectory() as room:
        check(prove, name, room)
        kept = f"{room}/{os.listdir(room)[0]}"
        made = modules(kept)
        drops = [it for it in made if "Destruct" in it[1]]
        print(f"\n{sum(it for it, _ in drops):.0f} of {sum(it for it, _ in made):.0f} seconds for what drops values")
        tables = (
            ("seconds, kind", summed(made, lambda it: it.rsplit(".", 1)[-1])),
            ("seconds, function", summed(made, lambda it: it.rsplit(".", 1)[0])),
            ("seconds, module", made),
            ("million steps, goal", goals(kept)),
        )
        for title, found in tables:
            print(f"\n{title}")
            for cost, it in sorted(found, reverse=True)[:rows]:
                print(f"{cost:7.2f} {it}")


if __name__ == "__main__":
    main(sys.argv[1], int(sys.argv[2]) if len(sys.argv) > 2 else 25)
