#!/usr/bin/python3
"""Cases in PostgreSQL (examples/postgres): workers killed at random, the server stopped at once, and what a step costs.

Usage: bench/postgres.py [PART ..] [--cases COUNT] [--minutes COUNT] [--workers COUNT] [--hosts COUNT] [--seed SEED]
PART: page, crash, times; without one all

A real server of the machine's packages (postgresql) runs in a folder of its own, and is stopped at the end. Needs ./prove flow_c and
psycopg 3 for Python (python3-psycopg). Where the bench is run by root and iproute2 is there, the last --hosts workers (4 of 8) each run on
a host of their own, a network namespace; the others reach the server by the loopback.

page     what the README for Python shows of PostgreSQL runs.
crash    cases of the order desk are driven to their commit by workers, each a process. Again and again one that has stored a step is killed
         (SIGKILL) and begun anew, or the wire of a host is cut for a while; after each 40 of these the server is stopped at once
         (immediate) and started again. Then: every case is committed, its history is legal, its journal an execution, its tasks those of
         the history; every step that a worker had told of is stored; no task was out under two claims at once.
times    steps a second of 1, 2, 4 and 8 workers, and of the same transactions with answers that were noted before in place of the
         library's. These figures tell something only on a machine that does nothing else.

--cases: 10,000 where it is not given (crash), 50 for each row of times at most. After --minutes the workers are killed, and what is open
then is looked at as it stands. The script ends with 1 where something is not as it must be.
"""
import argparse
import glob
import os
import pathlib
import random
import sys
import tempfile
import time

TOP = pathlib.Path(__file__).resolve().parent.parent
sys.path[:0] = [str(TOP / "examples/postgres"), str(TOP / "bindings/python")]
import office  # noqa: E402
import psycopg  # noqa: E402
import servers  # noqa: E402
from measuring import keep_results  # noqa: E402
from postgres_crew import Crew  # noqa: E402
from python_page import run_page  # noqa: E402
from flow.library import step as flow_step  # noqa: E402

DESK = (TOP / "examples/order_desk.flow").read_text()
# seconds in which some case is to be committed
PATIENCE = 900
# how many workers are killed and wires cut before the server is stopped again
STOP_AFTER = 40
NO_END = float("inf")
WRONG = []


def wrong(what):
    WRONG.append(what)
    print("WRONG", what, flush=True)


def connect(server):
    return psycopg.connect(server.where(), autocommit=True)


def prepared(server, cases):
    """New tables with so many cases of the order desk."""
    with connect(server) as db:
        db.execute("DROP SCHEMA public CASCADE; CREATE SCHEMA public")
        db.execute((TOP / "examples/postgres/schema.sql").read_text())
        digest = office.put_workflow(db, DESK)
        with db.transaction():
            for _ in range(cases):
                office.new_case(db, digest)


# --- crash

def try_crash(server, folder, hosts, words):
    prepared(server, words.cases)
    began = time.monotonic()
    with Crew(server, folder, words.workers, hosts) as crew:
        stops = disturbed(server, crew, words, random.Random(words.seed))
        crew.wait()
    spent = time.monotonic() - began
    rows = [("cases", words.cases), ("workers", words.workers), ("of them on hosts of their own", len(hosts)), ("seconds", int(spent)),
            ("workers killed", crew.kills), ("wires cut", crew.cuts), ("stops of the server at once", stops), *look_at(server, folder, words)]
    for what, number in rows:
        print(f"crash: {what}: {number}", flush=True)
    keep_results("crash", ["what", "number"], rows)


def disturbed(server, crew, words, rng):
    """Disturbs the crew until no case is open, or the time is over. Gives how often the server was stopped."""
    stops, left, least, since = 0, words.cases, words.cases, time.monotonic()
    until = since + words.minutes * 60
    while left and time.monotonic() < until:
        time.sleep(rng.uniform(0.2, 2))
        crew.disturb(rng)
        with connect(server) as db:
            left = db.execute("SELECT count(*) FROM case_ WHERE state = 'open'").fetchone()[0]
        if crew.kills + crew.cuts >= STOP_AFTER * (stops + 1):
            server.stop("immediate")
            server.start()
            stops += 1
        if left < least:
            least, since = left, time.monotonic()
        elif time.monotonic() - since > PATIENCE:
            wrong(f"{left} cases are open, and none was committed in {PATIENCE} s")
            break
    if left:
        crew.end()
    return stops


def look_at(server, folder, words):
    """What was found: how many cases are in which state, entries, and steps that workers had told of."""
    stored = {}
    with connect(server) as db:
        states = dict(db.execute("SELECT state, count(*) FROM case_ GROUP BY state").fetchall())
        if states != {"committed": words.cases} and (words.minutes == NO_END or set(states) != {"committed", "open"}):
            wrong(f"states: {states}")
        for case, in db.execute("SELECT id FROM case_").fetchall():
            found = office.audit(db, case)
            if found:
                wrong(found)
        for case, record in db.execute("SELECT case_id, record FROM entry ORDER BY case_id, n"):
            stored.setdefault(case, []).append(said(bytes(record)))
    for case, entries in stored.items():
        look_for_two_claims(case, entries)
    told = [line.split() for path in glob.glob(f"{folder}/told.*") for line in pathlib.Path(path).read_text().splitlines()]
    for case, what, number in told:
        if not any(it[0] == what and it[2 if what == "took" else 1] == int(number) for it in stored[int(case)]):
            wrong(f"a step that was told of is not stored: case {case}, {what} {number}")
    return [*sorted(states.items()), ("entries", sum(map(len, stored.values()))), ("steps told of, each stored", len(told)), ("wrong", len(WRONG))]


def look_for_two_claims(case, entries):
    out = {}
    for what, first, second in entries:
        if what == "took":
            if second in out.values():
                wrong(f"case {case}: leaf {second} was out under two claims")
            out[first] = second
        elif what != "did":
            out.pop(first, None)


def said(record):
    """What an entry does, and its numbers, as bytes tell it."""
    names = ["took", "done", "failed", "failed", "late", "did", "rewound", "committed"]
    return names[record[1]], int.from_bytes(record[8:12], "big"), int.from_bytes(record[12:16], "big")


# --- times

def noted_engine():
    """Answers that were noted: the library's, kept by what it is asked, so that a second case costs no call."""
    kept = {}

    def engine(text, policy, history, by, line):
        key = (history, by, line)
        if key not in kept:
            kept[key] = flow_step(text, policy, history, by, line)
        return kept[key]

    return engine


def busy(db):
    """The seconds that the processor has spent on this process and on its server's."""
    words = pathlib.Path(f"/proc/{db.info.backend_pid}/stat").read_text().rpartition(")")[2].split()
    return time.process_time() + sum(map(int, words[11:13])) / os.sysconf("SC_CLK_TCK")


def alone(server, cases, engine):
    """Steps a second of one worker in this process, and the processor's milliseconds of a step."""
    prepared(server, cases + 1)
    count = [0]

    def told(case, what):
        count[0] += 1

    with connect(server) as db:
        # one case, so that what is noted is noted
        db.execute("UPDATE case_ SET state = 'stuck' WHERE id <> 1")
        office.work(db, 1, engine=engine)
        db.execute("UPDATE case_ SET state = 'open' WHERE state = 'stuck'")
        begun_at, busy_before = time.perf_counter(), busy(db)
        office.work(db, 1, told=told, engine=engine)
        return count[0] / (time.perf_counter() - begun_at), 1000 * (busy(db) - busy_before) / count[0]


def beside(server, folder, cases, workers):
    """Steps a second of so many workers, each a process."""
    prepared(server, cases)
    began = time.perf_counter()
    with Crew(server, folder, workers, []) as crew:
        crew.wait()
    spent = time.perf_counter() - began
    with connect(server) as db:
        return db.execute("SELECT count(*) FROM entry").fetchone()[0] / spent


def try_times(server, folder, cases):
    engines = [flow_step, noted_engine()]
    runs = [[alone(server, cases, engine) for engine in engines] for _ in range(3)]
    rows = []
    for what, found in zip(["one worker", "one worker, noted answers"], zip(*runs)):
        rows.append((what, max(rate for rate, _ in found), min(ms for _, ms in found)))
        print(f"{what}: {rows[-1][1]:.0f} steps a second, {rows[-1][2]:.2f} ms of the processor a step", flush=True)
    print(f"a share of {rows[0][1] / rows[1][1]:.2f}, by the processor {rows[1][2] / rows[0][2]:.2f}")
    for workers in (1, 2, 4, 8):
        rows.append((f"{workers} processes", beside(server, folder, cases * workers, workers), ""))
        print(f"{workers} workers, each a process: {rows[-1][1]:.0f} steps a second", flush=True)
    keep_results("postgres", ["workers", "steps a second", "ms of the processor a step"], rows)


# --- the page

def try_page(server):
    """What the README for Python shows, with PostgreSQL."""
    os.environ.update({"PGHOST": "127.0.0.1", "PGPORT": str(server.port), "PGUSER": "office", "PGDATABASE": "postgres"})
    with connect(server) as db:
        db.execute("DROP SCHEMA public CASCADE; CREATE SCHEMA public")
    count, failed = run_page()
    for what in failed:
        wrong(what)
    print(f"page: {count} blocks of the README for Python")


def main():
    parser = argparse.ArgumentParser(usage=__doc__)
    parser.add_argument("parts", nargs="*")
    parser.add_argument("--cases", type=int, default=10_000)
    parser.add_argument("--minutes", type=float, default=NO_END)
    parser.add_argument("--workers", type=int, default=8)
    parser.add_argument("--hosts", type=int, default=4)
    parser.add_argument("--seed", type=int, default=1)
    words = parser.parse_args()
    parts = words.parts or ["page", "crash", "times"]
    count = min(words.hosts, words.workers) if servers.can_have_hosts() else 0
    servers.end_by_sigterm()
    with tempfile.TemporaryDirectory() as home, tempfile.TemporaryDirectory() as folder, servers.hosts(count) as hosts:
        server = servers.Postgres(home, ["127.0.0.1", *(host.outside for host in hosts)])
        try:
            if "page" in parts:
                try_page(server)
            if "crash" in parts:
                try_crash(server, folder, hosts, words)
            if "times" in parts:
                try_times(server, folder, min(words.cases, 50))
        finally:
            server.stop("fast")
    return 1 if WRONG else 0


if __name__ == "__main__":
    sys.exit(main())
