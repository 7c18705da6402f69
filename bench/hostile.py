#!/usr/bin/env python3
"""Hostile use of the built program: memory that is refused, streams that fail, and damaged inputs.

Usage: bench/hostile.py [PROGRAM] [PART ..] [--inputs COUNT] [--seed SEED]     PART: memory, reads, writes, damage; without one all

memory   the order desk in each mode, with one call for memory refused, the first, the second and so on until a run makes
         fewer calls: each ends with the usual answer, or with status 6 and a front of the usual text written
reads    each mode that reads, with each read failing in turn, as many bytes a read as the program asks for and 7: status 4; with 1, 2
         and 7 bytes a read, and from a pipe into which so many are written at a time: the usual answer; from a folder and a closed
         file: status 4
writes   each mode with each write failing in turn, as many bytes a write as the program hands out and 7: status 5 and a front of the
         usual text written; with 1, 2 and 7 bytes a write: the usual answer; to a full device, a closed file, and a pipe whose reader
         has gone, before the first byte or in the middle: status 5
damage   inputs with bytes flipped, cut, doubled or exchanged (10,000 of them, seed 1): each ends with status 0, 1, 3 or 7
         within a second of the processor's time, and with no word on standard error

refusing.c, built by cc, refuses memory and fails reads and writes. The script ends with 1 where something came out otherwise, and
prints that.
"""
import argparse
import collections
import contextlib
import fcntl
import os
import pathlib
import random
import re
import subprocess
import sys
import tempfile
import threading

from generated import text as generated
from measuring import TOP
from worst import TEXTS

# What a mode reads after the workflow, as the ending of a file of examples/.
MODES = {"check": None, "drive": "session", "run": None, "trace": "journal", "verify": "query", "duty": "shift", "audit": "journals"}
# The calls whose memory, reads and writes fail; what several workers write is not always the same; the last two read nothing.
CALLS = {"check": None, "drive": "session", "run --workers 1": None, "trace": "journal", "verify": "query", "duty": "shift", "audit --workers 1": "journals"}
SEVERAL = {"run --workers 4": None, "audit --workers 4": "journals"}
UNREAD = {"gen --size 16": None, "large --size 16 --workers 1": None}
PIECES = [1, 2, 7]
CALLERS = re.compile(rb"(?m)^[01](: ?|\Z)")
EXAMPLES = TOP / "examples"
# A longer text takes the seconds of a bench, undamaged.
GREATEST_TEXT = 20_000
SECONDS = 1.0
WRONG = []


def wrong(what):
    WRONG.append(what)
    print(f"wrong: {what}")


def sources(name, ending):
    """The inputs of a workflow of examples/ with what follows it, where there is that."""
    workflow = (EXAMPLES / f"{name}.flow").read_bytes()
    if ending is None:
        return [workflow]
    if ending == "shift":
        # the policy stands between the two
        workflow += b"".join(policy.read_bytes() for policy in EXAMPLES.glob(f"{name}.policy"))
    return [workflow + more.read_bytes() for more in EXAMPLES.glob(f"{name}.{ending}")]


def called(program, words, source, environment=None, **streams):
    """The status of a call, negative after a signal; what it wrote; what stands on standard error; its processor seconds."""
    before = os.times()
    usual = {"input": source, "stdout": subprocess.PIPE} | streams
    call = subprocess.run([program, *words], stderr=subprocess.PIPE, check=False, timeout=60,
                          env=environment and {**os.environ, **environment}, **usual)
    after = os.times()
    spent = after.children_user + after.children_system - before.children_user - before.children_system
    return call.returncode, call.stdout or b"", call.stderr, spent


class Use:
    """A call of the program over the order desk, whose memory, reads and writes may fail."""

    def __init__(self, program, library, line, ending):
        self.program, self.library, self.line, self.words = program, library, line, line.split()
        self.source = sources("back_office" if ending == "shift" else "order_desk", ending)[0]
        self.usual = self.told(*self.call({})[:2])

    def call(self, environment, **streams):
        loaded = {"LD_PRELOAD": self.library} | {name: str(number) for name, number in environment.items()}
        return called(self.program, self.words, self.source, loaded, **streams)

    def told(self, status, written):
        """What is answered: by several workers the verdict alone, since which worker makes an entry is left open. Without memory for
        the lock one worker's entries are made by the finisher, so the numbers of callers are left out."""
        return status, written.splitlines()[-1:] if self.line in SEVERAL else CALLERS.sub(b"", written)

    def is_usual(self, status, written):
        return self.told(status, written) == self.usual

    def is_front(self, written):
        return written == b"" if self.line in SEVERAL else self.usual[1].startswith(CALLERS.sub(b"", written))

    def in_turn(self, number_of, environment, is_right):
        """How many calls there were with the first, the second and so on refused, until the program makes fewer."""
        number = 0
        while True:
            status, written, told, _ = self.call(environment | {number_of: number + 1})
            if b"refused" not in told:
                return number
            number += 1
            if told != b"refused\n" or not is_right(status, written):
                wrong(f"{self.line}, {number_of} {number} {environment}: status {status}, {written[:60]!r} {told[:80]!r}")

    def expect(self, what, wanted, status, written):
        """Tells where a call came out otherwise than with the status that is wanted, or as usual where none is."""
        right = self.is_usual(status, written) if wanted is None else status == wanted and self.is_front(written)
        if not right:
            wrong(f"{self.line}, {what}: status {status}, {written[:60]!r}")


def uses(program, calls):
    with tempfile.TemporaryDirectory() as folder:
        library = pathlib.Path(folder) / "refusing.so"
        subprocess.run(["cc", "-shared", "-fPIC", "-O1", "-o", library, TOP / "bench/refusing.c"], check=True)
        for line, ending in calls.items():
            yield Use(program, str(library), line, ending)


def table_row(*columns):
    print(f"{columns[0]:<30}" + "".join(f"{column:>14}" for column in columns[1:]))


def memory(program, _):
    table_row("memory, the order desk", "refused", "status 6", "as usual")
    for use in uses(program, CALLS | SEVERAL | UNREAD):
        ends = collections.Counter()

        def is_right(status, written):
            end = "status 6" if status == 6 and use.is_front(written) else "as usual" if use.is_usual(status, written) else ""
            ends[end] += 1
            return end != ""

        table_row(use.line, use.in_turn("REFUSED", {}, is_right), ends["status 6"], ends["as usual"])


def through_pipe(use, piece):
    """The answer to a source that is written into a pipe so many bytes at a time."""
    end, begin = os.pipe()

    def write_all():
        with os.fdopen(begin, "wb", buffering=0) as pipe:
            for place in range(0, len(use.source), piece):
                pipe.write(use.source[place:place + piece])

    writer = threading.Thread(target=write_all)
    writer.start()
    with os.fdopen(end, "rb") as source:
        answer = use.call({}, input=None, stdin=source)[:2]
        source.read()
    writer.join()
    return answer


def closed(use, stream):
    """The answer where standard input (0) or output (1) is closed."""
    words = ["sh", "-c", f'exec "$0" "$@" {stream}>&-', use.program, *use.words]
    call = subprocess.run(words, input=use.source, capture_output=True, check=False, timeout=60)
    return call.returncode, call.stdout


def reads(program, _):
    table_row("reads, the order desk", "failed", "7 a read", "short")
    for use in uses(program, CALLS):
        def is_right(status, written):
            return (status, written) == (4, b"refused: read\n")

        failed = [use.in_turn("READ_FAILS", how, is_right) for how in [{}, {"READ_AT_MOST": 7}]]
        for piece in PIECES:
            use.expect(f"{piece} a read", None, *use.call({"READ_AT_MOST": piece})[:2])
            use.expect(f"{piece} a write into the pipe", None, *through_pipe(use, piece))
        folder = os.open("/", os.O_RDONLY)
        answers = {"a folder": use.call({}, input=None, stdin=folder)[:2], "a closed file": closed(use, 0)}
        os.close(folder)
        for what, answer in answers.items():
            if not is_right(*answer):
                wrong(f"{use.line} reads {what}: status {answer[0]}, {answer[1][:60]!r}")
        table_row(use.line, *failed, 2 * len(PIECES))


def left_by_reader(program, words, source, count):
    """The status where the reader of a small pipe goes after so many bytes."""
    end, begin = os.pipe()
    fcntl.fcntl(begin, fcntl.F_SETPIPE_SZ, 4096)
    # before the program begins: what reads nothing writes at once
    if count == 0:
        os.close(end)
    with subprocess.Popen([program, *words], stdin=subprocess.PIPE, stdout=begin, stderr=subprocess.DEVNULL) as call:
        os.close(begin)
        with contextlib.suppress(BrokenPipeError):
            call.stdin.write(source)
            call.stdin.close()
        if count > 0:
            os.read(end, count)
            os.close(end)
        return call.wait(timeout=60)


def writes(program, _):
    table_row("writes, the order desk", "failed", "7 a write", "short")
    for use in uses(program, CALLS | UNREAD):
        def is_right(status, written):
            return status == 5 and use.is_front(written)

        failed = [use.in_turn("WRITE_FAILS", how, is_right) for how in [{}, {"WRITE_AT_MOST": 7}]]
        for piece in PIECES:
            use.expect(f"{piece} a write", None, *use.call({"WRITE_AT_MOST": piece})[:2])
        with open("/dev/full", "wb") as full:
            use.expect("a full device", 5, *use.call({}, stdout=full)[:2])
        use.expect("a closed output", 5, *closed(use, 1))
        use.expect("a reader that has gone", 5, left_by_reader(program, use.words, use.source, 0), b"")
        table_row(use.line, *failed, len(PIECES))
    text = generated(3, 128).encode()
    for words in [["check"], ["run"], ["gen", "--seed", "3", "--size", "128"]]:
        status = left_by_reader(program, words, text, 1)
        if status != 5:
            wrong(f"{words[0]}, a reader that goes in the middle: status {status}")


def flipped(draw, source):
    place = draw.randrange(len(source))
    byte = draw.choice([source[place] ^ (1 << draw.randrange(8)), draw.randrange(256), draw.choice(b"()*|+;,?!%#0123456789 \n\r")])
    return source[:place] + bytes([byte]) + source[place + 1:]


def cut(draw, source):
    return source[:draw.randrange(len(source))]


def left_out(draw, source):
    first, last = sorted(draw.choices(range(len(source) + 1), k=2))
    return source[:first] + source[last:]


def doubled(draw, source):
    first = draw.randrange(len(source))
    piece = source[first:first + draw.randrange(1, 200)]
    return source[:first] + piece + source[first:]


def exchanged(draw, source):
    """With two lines, or two words where there is one line, in each other's place."""
    between = b"\n" if b"\n" in source.rstrip() else b" "
    pieces = source.split(between)
    one, other = draw.randrange(len(pieces)), draw.randrange(len(pieces))
    pieces[one], pieces[other] = pieces[other], pieces[one]
    return between.join(pieces)


def damaged(draw, source):
    """With one to four damages; where something follows the workflow, half of the time only that is damaged."""
    workflow, between, more = source.partition(b"%%\n")
    kept = workflow + between if more and draw.random() < 0.5 else b""
    rest = source[len(kept):]
    for _ in range(draw.choice([1, 1, 2, 4])):
        rest = draw.choice([flipped, flipped, cut, left_out, doubled, exchanged])(draw, rest or b" ")
    return kept + rest


def undamaged():
    """For each mode the inputs that are damaged: those of examples/, and texts of the benches that are not long."""
    workflows = sorted(path.stem for path in EXAMPLES.glob("*.flow"))
    texts = [generated(seed, size).encode() for seed, size in [(1, 1), (2, 2), (3, 8), (4, 16)]]
    texts += [text for text in (make().encode() for make in TEXTS.values()) if len(text) <= GREATEST_TEXT]
    session = b"%%\n" + b"".join(b"take %d\nenabled\ndone %d\nnext\n" % (leaf, leaf + 1) for leaf in range(8)) + b"rewind\ncommit\n"
    second = {None: b"", "session": session, "journal": b"%%\n0 e0\n1 e1\n2 e2\n", "query": b"%%\nholds precedes e0 e1;\n",
              "shift": b"%%\nrole r = u, v;\nallow r e0, e1, e2;\nseparate e0 e1;\nbind e0 e2;\n%%\nas u\n" + session.removeprefix(b"%%\n"),
              "journals": b"%%\n0 e0\n%%\n1 e1\n2 e2\n%%\n"}
    return {mode: [source for name in workflows for source in sources(name, ending)] + [text + b"\n" + second[ending] for text in texts]
            for mode, ending in MODES.items()}


def damage(program, options):
    draw = random.Random(options.seed)
    inputs = undamaged()
    ends = collections.defaultdict(collections.Counter)
    slowest = collections.Counter()
    for number in range(options.inputs):
        mode = list(MODES)[number % len(MODES)]
        # half of the inputs come from examples/ alone
        source = damaged(draw, draw.choice(inputs[mode] if draw.random() < 0.5 else inputs[mode][:5]))
        status, _, told, spent = called(program, [mode], source)
        ends[mode][status] += 1
        slowest[mode] = max(slowest[mode], spent)
        if status not in (0, 1, 3, 7) or told or spent > SECONDS:
            kept = pathlib.Path(tempfile.gettempdir()) / f"hostile_{options.seed}_{number}"
            kept.write_bytes(source)
            wrong(f"{mode} < {kept}: status {status}, {spent:.2f} s, {told[:80]!r}")
    print(f"{'damage, seed ' + str(options.seed):<26}{'inputs':>9}" + "".join(f"{'status ' + str(status):>10}" for status in (0, 1, 3, 7)) + f"{'most ms':>9}")
    for mode, counts in ends.items():
        told = "".join(f"{counts[status]:>10}" for status in (0, 1, 3, 7))
        print(f"{mode:<26}{counts.total():>9}{told}{slowest[mode] * 1000:>9.0f}")


PARTS = {"memory": memory, "reads": reads, "writes": writes, "damage": damage}


def main():
    reader = argparse.ArgumentParser(description="Hostile use of the built program.")
    reader.add_argument("words", nargs="*", help="the program, and the parts")
    reader.add_argument("--inputs", type=int, default=10_000)
    reader.add_argument("--seed", type=int, default=1)
    options = reader.parse_args()
    programs = [word for word in options.words if word not in PARTS]
    program = os.path.abspath(programs[0]) if programs else str(TOP / "crates/flow/out/flow")
    for part in [word for word in options.words if word in PARTS] or PARTS:
        PARTS[part](program, options)
    sys.exit(1 if WRONG else 0)


if __name__ == "__main__":
    main()
