#!/usr/bin/env python3
"""Cases of flow in PostgreSQL: each step is one transaction.

Usage: office.py init | new WORKFLOW [POLICY] | step CASE BY LINE.. | work WHO | audit [CASE]     the database is named by PGHOST,
PGPORT, PGDATABASE ..

init    makes the tables (schema.sql)
new     begins a case of the workflow in that file, and prints its number
step    gives a line to a case: `step 7 2 take 0`
work    is a worker: takes open tasks, one after another, performs them (here: does nothing) and tells that they are done, until none is
        left. A worker of the same number that was killed is gone on with: what it had taken is performed first.
audit   reads each case back: its history is legal, its journal an execution or the front of one, and its tasks are those of the history

Needs psycopg 3 (python3-psycopg), and the package flow (bindings/python).
"""
import hashlib
import json
import pathlib
import sys
from contextlib import contextmanager

import psycopg

HERE = pathlib.Path(__file__).resolve().parent
try:
    import flow
except ImportError:
    sys.path.insert(0, str(HERE.parent.parent / "bindings/python"))
    import flow
from flow.library import Status, step as flow_step

LABELS = {}


class Refused(Exception):
    """A step that the run, a duty or a text refuses, in flow's words. What it wrote is stored all the same: a late result is an entry."""


def labels_of(text):
    """The labels of a workflow's leaves."""
    if text not in LABELS:
        LABELS[text] = flow.Workflow(text).check().leaves
    return LABELS[text]


def put_workflow(db, text, policy=""):
    """Stores the texts, and gives their digest."""
    digest = hashlib.sha256(text.encode() + b"\0" + policy.encode()).digest()
    db.execute("INSERT INTO workflow VALUES (%s, %s, %s) ON CONFLICT DO NOTHING", (digest, text, policy))
    return digest


def new_case(db, digest):
    """Begins a case, with the tasks that may be begun, and gives its number."""
    with db.transaction():
        case = db.execute("INSERT INTO case_ (digest) VALUES (%s) RETURNING id", (digest,)).fetchone()[0]
        text, policy = db.execute("SELECT text, policy FROM workflow WHERE digest = %s", (digest,)).fetchone()
        _, answer = flow_step(text.encode(), policy.encode(), b"", 0, b"enabled")
        rewrite_tasks(db, case, labels_of(text), json.loads(answer)["next"])
    return case


def rewrite_tasks(db, case, labels, leaves):
    """The tasks that may be begun are those of these leaves. What is out stays."""
    db.execute("DELETE FROM task WHERE case_id = %s AND claim IS NULL AND leaf <> ALL (%s)", (case, leaves))
    db.execute(
        "INSERT INTO task (case_id, leaf, event) SELECT %s, * FROM unnest(%s::int[], %s::text[]) ON CONFLICT DO NOTHING",
        (case, leaves, [labels[leaf] for leaf in leaves]),
    )


def note_claim(db, case, by, line, answer):
    """What a line does to a task that is out: `take` begins it, and its result ends it, whether it counts or is late."""
    words = line.split()
    if words[0] == "take" and answer["ok"]:
        claim = int(answer["reply"].split()[1])
        db.execute("UPDATE task SET claim = %s, who = %s, since = now() WHERE case_id = %s AND leaf = %s", (claim, by, case, int(words[1])))
    elif words[0] in ("done", "fail") and answer["entries"]:
        db.execute("DELETE FROM task WHERE case_id = %s AND claim = %s", (case, int(words[1])))


def stored(db, case):
    """The texts of a case whose row this transaction has locked, its history, how many entries that has, and the first leaf that may be
    begun. This is a statement of its own, behind the one that locks: so it sees what whoever had the lock before has stored."""
    return db.execute(
        "SELECT text, policy, coalesce(string_agg(record, '' ORDER BY n), ''), count(n), "
        "(SELECT min(leaf) FROM task WHERE case_id = id AND claim IS NULL) "
        "FROM case_ JOIN workflow USING (digest) LEFT JOIN entry ON case_id = id WHERE id = %s GROUP BY id, text, policy",
        (case,),
    ).fetchone()


def step(db, case, by, line, engine=flow_step, found=None):
    """Gives a line to a case whose row this transaction has locked; stores what it writes. Gives flow's answer."""
    text, policy, history, count, _ = found or stored(db, case)
    status, came = engine(text.encode(), policy.encode(), bytes(history), by, line.encode())
    answer = json.loads(came)
    for record in answer["entries"]:
        db.execute("INSERT INTO entry (case_id, n, record, by, line) VALUES (%s, %s, %s, %s, %s)", (case, count, bytes.fromhex(record), by, line))
    if status is Status.OK or answer["entries"]:
        note_claim(db, case, by, line, answer)
    if status is Status.OK:
        rewrite_tasks(db, case, labels_of(text), answer["next"])
    if line == "commit" and status is Status.OK:
        db.execute("UPDATE case_ SET state = 'committed' WHERE id = %s", (case,))
    return answer


@contextmanager
def one_step(db):
    """A transaction whose statements are sent together as far as no answer is waited for. It is stored once this block has ended."""
    with db.pipeline(), db.transaction():
        yield


def give(db, case, by, line):
    """Gives a line to a case, in a transaction of its own."""
    with one_step(db):
        if not db.execute("SELECT 1 FROM case_ WHERE id = %s FOR UPDATE", (case,)).fetchone():
            raise Refused(f"there is no case {case}")
        answer = step(db, case, by, line)
    if not answer["ok"]:
        raise Refused(answer["reply"])
    return answer


# --- workers

def end_if_over(db, case, by, answer, engine):
    """A case with nothing to begin and nothing out is committed; where that is refused, it is stuck."""
    if answer.get("next") or db.execute("SELECT 1 FROM task WHERE case_id = %s LIMIT 1", (case,)).fetchone():
        return
    if not step(db, case, by, "commit", engine)["ok"]:
        db.execute("UPDATE case_ SET state = 'stuck' WHERE id = %s", (case,))


def begin_task(db, who, engine=flow_step):
    """Takes an open task of a case that nobody steps just now: its case, leaf, label and claim. None where there is none; no leaf where
    somebody took the last one of the case just before. What is no event is done at once."""
    with one_step(db):
        found = db.execute(
            "SELECT id FROM case_ WHERE state = 'open' AND EXISTS (SELECT 1 FROM task WHERE case_id = id AND claim IS NULL) "
            "ORDER BY id LIMIT 1 FOR UPDATE SKIP LOCKED"
        ).fetchone()
        if not found:
            return None
        case = found[0]
        found = stored(db, case)
        leaf = found[4]
        if leaf is None:
            return case, None, None, None
        label = labels_of(found[0])[leaf]
        if not label.isidentifier():
            end_if_over(db, case, who, step(db, case, who, f"do {leaf}", engine, found), engine)
            return case, leaf, label, None
        answer = step(db, case, who, f"take {leaf}", engine, found)
        return case, leaf, label, int(answer["reply"].split()[1])


def end_task(db, who, case, claim, engine=flow_step):
    """Tells that the task of a claim is done."""
    with one_step(db):
        db.execute("SELECT 1 FROM case_ WHERE id = %s FOR UPDATE", (case,))
        end_if_over(db, case, who, step(db, case, who, f"done {claim}", engine), engine)


def out_of(db, who):
    """The claims that the worker has: those that it took before it was killed."""
    return db.execute("SELECT case_id, leaf, event, claim FROM task WHERE who = %s AND claim IS NOT NULL", (who,)).fetchall()


def work(db, who, perform=lambda case, leaf, label, claim: None, told=lambda case, what: None, engine=flow_step):
    """Performs open tasks until none is left. `told` is called once a step is stored."""
    todo = out_of(db, who)
    while True:
        task = todo.pop() if todo else begin_task(db, who, engine)
        if not task:
            return
        case, leaf, label, claim = task
        if leaf is None:
            continue
        told(case, f"took {leaf}" if claim else f"did {leaf}")
        if claim:
            perform(case, leaf, label, claim)
            end_task(db, who, case, claim, engine)
            told(case, f"done {claim}")


# --- reading back

def audit(db, case):
    """What is wrong with a case: nothing, or a line."""
    text, policy, state = db.execute("SELECT text, policy, state FROM case_ JOIN workflow USING (digest) WHERE id = %s", (case,)).fetchone()
    stored = db.execute("SELECT n, record FROM entry WHERE case_id = %s ORDER BY n", (case,)).fetchall()
    if [n for n, _ in stored] != list(range(len(stored))):
        return f"case {case}: entries are missing"
    workflow = flow.Workflow(text, policy)
    try:
        read = flow.Case(workflow, b"".join(record for _, record in stored))
        journal, leaves = read.journal(), read.enabled()
    except flow.HistoryRefused as refused:
        return f"case {case}: {refused}"
    verdict = workflow.trace(journal).verdict
    if verdict not in ("execution", "prefix") or (state == "committed") != (read.next() == "ended"):
        return f"case {case}: {state}, and its journal is {verdict}"
    open_ = [leaf for leaf, in db.execute("SELECT leaf FROM task WHERE case_id = %s AND claim IS NULL ORDER BY leaf", (case,))]
    return None if open_ == leaves else f"case {case}: open tasks {open_}, and not {leaves}"


def main(words):
    with psycopg.connect(autocommit=True) as db:
        if words[:1] == ["init"]:
            db.execute((HERE / "schema.sql").read_text())
        elif words[:1] == ["new"] and len(words) in (2, 3):
            texts = [pathlib.Path(path).read_text() for path in words[1:]]
            print(new_case(db, put_workflow(db, *texts)))
        elif words[:1] == ["step"] and len(words) > 3:
            print(give(db, int(words[1]), int(words[2]), " ".join(words[3:]))["reply"])
        elif words[:1] == ["work"] and len(words) == 2:
            work(db, int(words[1]))
        elif words[:1] == ["audit"]:
            cases = [int(it) for it in words[1:]] or [it for it, in db.execute("SELECT id FROM case_ ORDER BY id")]
            found = [it for it in (audit(db, case) for case in cases) if it]
            print("\n".join(found) or f"{len(cases)} cases are as their histories say")
            return 1 if found else 0
        else:
            print(__doc__, file=sys.stderr)
            return 2
    return 0


if __name__ == "__main__":
    try:
        sys.exit(main(sys.argv[1:]))
    except (Refused, flow.FlowError, psycopg.Error) as error:
        print(f"office: {error}", file=sys.stderr)
        sys.exit(1)
