"""Event logs that `flowdesk export` writes, read by the programs of others: XES by an XML parser and by the rules of its schema (IEEE
1849-2016), which are written out here; SQL by sqlite3 and by PostgreSQL. Each gives rows as those of the lines of JSON."""
import csv
import datetime
import io
import os
import re
import sqlite3
import subprocess
import xml.etree.ElementTree as tree

COLUMNS = ["case", "entry", "activity", "kind", "leaf", "lifecycle", "timestamp", "resource", "counts", "note"]
SPACE = "{http://www.xes-standard.org/}"
TYPES = ("string", "date", "int", "float", "boolean", "id", "list")
# What stands in a log, in this order.
PARTS = [("extension",), ("global",), ("classifier",), TYPES, ("trace",), ("event",)]
EXTENSIONS = {name: (prefix, f"http://www.xes-standard.org/{prefix}.xesext")
              for name, prefix in (("Concept", "concept"), ("Lifecycle", "lifecycle"), ("Organizational", "org"), ("Time", "time"))}
STANDARD = {"concept:name": "string", "org:resource": "string", "time:timestamp": "date", "lifecycle:transition": "string", "lifecycle:model": "string"}
# The transitions of the standard's model.
TRANSITIONS = {"schedule", "assign", "withdraw", "reassign", "start", "suspend", "resume", "pi_abort", "ate_abort", "complete", "autoskip", "manualskip", "unknown"}
WORDS = {"start": "start", "complete": "complete", "fail": "ate_abort", "late": "unknown", "undone": "unknown"}
NAME = re.compile(r"[A-Za-z_][\w.-]*")
DATE = re.compile(r"\d{4}-\d\d-\d\dT\d\d:\d\d:\d\d(\.\d+)?(Z|[+-]\d\d:\d\d)")


def placed(text):
    """What XML can say of a text: a control character goes by its sign, U+FFFE and U+FFFF by U+FFFD."""
    signed = re.sub("[\x00-\x08\x0b\x0c\x0e-\x1f]", lambda found: chr(0x2400 + ord(found.group())), text)
    return re.sub("[\ufffe\uffff]", "\ufffd", signed)


def is_date(text):
    """Whether it is a moment of XML Schema, with a zone: by Python's own reader of the day and the time, since fractions may be longer."""
    if not DATE.fullmatch(text):
        return False
    zone = re.search(r"[+-](\d\d):(\d\d)$", text)
    try:
        datetime.datetime.fromisoformat(text[:19])
    except ValueError:
        return False
    return not zone or (int(zone[2]) < 60 and 100 * int(zone[1]) + int(zone[2]) <= 1400)


def value_fault(kind, value):
    """What is wrong with a value of that type."""
    fits = {"string": True, "int": re.fullmatch(r"[+-]?\d+", value), "boolean": value in ("true", "false", "1", "0"), "date": is_date(value)}
    return None if fits.get(kind) else f"{kind} {value!r}"


def local(element):
    return element.tag.removeprefix(SPACE)


def attributes(element, faults):
    """The attributes of an element by their keys."""
    found = {}
    for child in element:
        if local(child) not in TYPES:
            continue
        key, value = child.get("key"), child.get("value")
        if set(child.attrib) != {"key", "value"} or len(child) or key in found:
            faults.append(f"attribute {child.attrib}")
        if value_fault(local(child), value) or STANDARD.get(key, local(child)) != local(child):
            faults.append(f"{key}: {local(child)} {value!r}")
        found[key] = value
    if (element.text or "").strip() or any((child.tail or "").strip() for child in element):
        faults.append("text between elements")
    return found


def head_faults(log):
    """What is wrong with what stands in front of the traces."""
    faults = []
    if log.tag != f"{SPACE}log" or log.get("xes.version") != "1849-2016" or "xes.features" not in log.attrib:
        faults.append(f"log {log.tag} {log.attrib}")
    places = [next((place for place, part in enumerate(PARTS) if local(child) in part), None) for child in log]
    if None in places or places != sorted(places):
        faults.append("elements of the log, or their order")
    extensions = {child.get("name"): (child.get("prefix"), child.get("uri")) for child in log.iter(f"{SPACE}extension")}
    if extensions != EXTENSIONS:
        faults.append(f"extensions {extensions}")
    scopes = [child.get("scope") for child in log.iter(f"{SPACE}global")]
    if sorted(scopes) != ["event", "trace"]:
        faults.append(f"scopes {scopes}")
    for child in log.iter(f"{SPACE}classifier"):
        if not NAME.fullmatch(child.get("name")) or not set(child.get("keys").split()) <= set(global_of(log, "event")):
            faults.append(f"classifier {child.attrib}")
    attributes(log, faults)
    return faults


def global_of(log, scope):
    return attributes(next(child for child in log.iter(f"{SPACE}global") if child.get("scope") == scope), [])


def event_row(case, event, faults):
    """The row of an event."""
    if any(local(child) not in TYPES for child in event):
        faults.append("elements of an event")
    told = attributes(event, faults)
    if told.get("lifecycle:transition") not in TRANSITIONS or told["lifecycle:transition"] != WORDS.get(told.get("flow:lifecycle")):
        faults.append(f"transition {told}")
    if "time:timestamp" in told and "flow:time" in told or is_date(told.get("flow:time", "")):
        faults.append(f"time {told}")
    when = told.get("time:timestamp", told.get("flow:time", ""))
    return told, dict(zip(COLUMNS, [case, int(told["flow:entry"]), told["concept:name"], told["flow:kind"], int(told["flow:leaf"]), told["flow:lifecycle"],
                                    when, told.get("org:resource", ""), told["flow:counts"] == "true", told.get("flow:note", "")]))


def xes_rows(text):
    """The names of the traces of a log in XES, its rows, and what is wrong with it."""
    log = tree.fromstring(text)
    faults, names, rows = head_faults(log), [], []
    of_trace, of_event = set(global_of(log, "trace")), set(global_of(log, "event"))
    for trace in log.iter(f"{SPACE}trace"):
        order = [local(child) == "event" for child in trace]
        own = attributes(trace, faults)
        if order != sorted(order) or not of_trace <= set(own) or any(local(child) not in (*TYPES, "event") for child in trace):
            faults.append(f"trace {own}")
        names.append(own["concept:name"])
        for event in trace.iter(f"{SPACE}event"):
            told, row = event_row(own["concept:name"], event, faults)
            if not of_event <= set(told):
                faults.append(f"an attribute of each event is missing: {told}")
            rows.append(row)
    return names, rows, faults


def well_formed(text):
    """What xmllint says of a text, where it is on this machine."""
    try:
        return subprocess.run(["xmllint", "--noout", "--huge", "-"], input=text, capture_output=True, check=False).stderr.decode()
    except OSError:
        return ""


# ---- SQL

def in_order(rows):
    """Rows of a table have no order: by case, entry and leaf."""
    return sorted(rows, key=lambda row: (row["case"], row["entry"], row["leaf"]))


SELECT = ", ".join(f'"{name}"' for name in COLUMNS)


def sqlite_rows(script):
    """The cases and the rows that Python's sqlite3 has after the script."""
    with sqlite3.connect(":memory:") as base:
        base.executescript(script)
        cases = [name for (name,) in base.execute('select "case" from "cases" order by "case"')]
        rows = [dict(zip(COLUMNS, row)) for row in base.execute(f'select {SELECT} from "events"')]
    return cases, in_order({**row, "counts": bool(row["counts"])} for row in rows)


def shell_fault(folder, script):
    """What the sqlite3 program says of the script twice over: the second load of the same cases is refused, and leaves what is there."""
    base = folder / "log.sqlite"
    base.unlink(missing_ok=True)
    first = subprocess.run(["sqlite3", "-bail", base], input=script, capture_output=True, check=False)
    count = ["sqlite3", base, 'select count(*) from "events"']
    before = subprocess.run(count, capture_output=True, check=False).stdout
    second = subprocess.run(["sqlite3", "-bail", base], input=script, capture_output=True, check=False)
    after = subprocess.run(count, capture_output=True, check=False).stdout
    return first.stderr.decode() or (None if second.returncode and before == after else "a second load changed the tables")


def postgres_rows(server, folder, script):
    """The cases and the rows that PostgreSQL has after the script, and what psql said."""
    file = folder / "log.sql"
    file.write_bytes(script)
    psql = ["psql", server.where(), "-X", "-q", "-v", "ON_ERROR_STOP=1"]
    environment = {**os.environ, "PGCLIENTENCODING": "UTF8"}

    def told(*words):
        return subprocess.run([*psql, *words], capture_output=True, env=environment, check=False)

    loaded = told("-f", str(file))
    cases = told("--csv", "-t", "-c", 'select "case" from "cases" order by "case" collate "C"').stdout.decode()
    rows = told("--csv", "-c", f'select {SELECT} from "events"').stdout.decode()
    found = [{**row, "entry": int(row["entry"]), "leaf": int(row["leaf"]), "counts": row["counts"] == "t"}
             for row in csv.DictReader(io.StringIO(rows, newline=""))]
    return [name for name, in csv.reader(io.StringIO(cases, newline=""))], in_order(found), loaded.stderr.decode()
