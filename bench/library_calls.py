"""Calls of the library from C, by bench/library.c, and what is found wrong."""
import pathlib
import struct
import subprocess

from measuring import TOP

MADE = TOP / "crates/flow_c/out"
# the room is too small: no answer follows
NO_ROOM = 9
WRONG = []


def wrong(what):
    WRONG.append(what)
    print("WRONG", what[:600])


def built(folder, *flags):
    """The harness, linked with the archive."""
    made = f"{folder}/{'sanitized' if flags else 'plain'}"
    compiler = ["gcc", "-g", "-O1", "-Wall", "-Wextra", *flags, f"-I{TOP}/include"]
    subprocess.run([*compiler, "-o", made, TOP / "bench/library.c", MADE / "libflow.a", "-pthread"], check=True)
    return made


def packed(which, number, steps, parts, room):
    parts = [*parts, b"", b"", b""][:4]
    return struct.pack("8I", which, number, steps, *map(len, parts), room) + b"".join(parts)


def made_by(harness, calls, *words):
    """What came of the calls: status, length, microseconds and the answer of each."""
    ran = subprocess.run([harness, *map(str, words)], input=b"".join(packed(*call) for call in calls), capture_output=True, check=False)
    if ran.returncode or ran.stderr:
        wrong(f"{pathlib.Path(harness).name} ends with {ran.returncode}: {ran.stderr.decode(errors='replace')[-2000:]}")
    came, place = [], 0
    while place < len(ran.stdout):
        status, length, spent = struct.unpack_from("2If", ran.stdout, place)
        place += 12
        written = 0 if status == NO_ROOM else length
        came.append((status, length, spent, ran.stdout[place : place + written]))
        place += written
    if len(came) != len(calls):
        wrong(f"{len(came)} of {len(calls)} calls came back")
    return came
