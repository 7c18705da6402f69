#!/usr/bin/env python3
"""Tries what the documents show: every input and output of them is given to the programs, and must be as it is shown.

Usage: bench/documents.py [--write] [DOCUMENT.md ..] [FLOW [FLOWKEEP [FLOWDESK]]]

All documents, and the programs crates/NAME/out/NAME, where they are not given. docs/DOCUMENTS.md has the form of what is shown.
COOKBOOK and SURPRISES have their blocks as rows of crates/test_cases/data too: each block has its rows and each row its block, byte
for byte; `--write` writes these rows, with what the program writes. Where all documents are tried, docs/CHANGING.md must be what
bench/changing.py makes of the tree, and the table of docs/BENCHES.md what bench/benches.py makes of the results. Ends with 1 where a document and the program, a row, or the tree differ.
"""
import pathlib
import re
import subprocess
import sys
import tempfile

from blocks import (ASKING, PARTS, PLAIN, WORDS, Faulty, columns, first_difference, is_alike, looks_like_one, read_blocks,
                    wrong_links)
import benches
import changing
from executions import Workflow
from templates import holds_by_hand, named_lists

TOP = pathlib.Path(__file__).resolve().parent.parent
DOCUMENTS = ["README.md", "docs/GUIDE.md", "docs/COOKBOOK.md", "docs/SURPRISES.md", "docs/FORMATS.md", "docs/SCALE.md",
             *sorted(str(path.relative_to(TOP)) for path in (TOP / "docs/reference").glob("*.md")), "examples/README.md"]
ROWS = {"docs/COOKBOOK.md": "cookbook.rows", "docs/SURPRISES.md": "surprises.rows"}
PROGRAMS = ["flow", "flowkeep", "flowdesk"]
LINKED = ["examples", "bench", "docs", "man", "completions", "install", "README.md"]
# As many journals as an audit takes.
JOURNALS = 1024


class Programs:
    """The programs by their names, and a folder in which they are called."""

    def __init__(self, paths, folder):
        self.paths, self.folder, self.calls = paths, folder, 0

    def answer(self, call, text):
        """The status of a call, and what it writes."""
        name, *words = call.split()
        self.calls += 1
        done = subprocess.run([self.paths[name], *words], input=text.encode(), capture_output=True, cwd=self.folder, timeout=60)
        return done.returncode, done.stdout.decode("ascii", "replace")

    def labels(self, text):
        """The labels of a workflow's leaves."""
        return re.findall(r"^leaf \d+ (.*)$", self.answer("flow check", text)[1], re.M)

    def audited(self, text, labels, lists):
        """What an audit says of each list of leaves: `execution`, `prefix` or `bad K`."""
        found = []
        for start in range(0, len(lists), JOURNALS):
            journals = ("".join(f"{leaf} {labels[leaf]}\n" for leaf in leaves) for leaves in lists[start:start + JOURNALS])
            answers = self.answer("flow audit", text + "%%\n" + "%%\n".join(journals))[1].splitlines()
            found += [line.partition(" ")[2] for line in answers[:-1]]
        return found

    def executions(self, text):
        """All executions of a workflow, as lists of events: fronts are grown leaf by leaf, as long as they are fronts."""
        labels, fronts, whole = self.labels(text), [()], set()
        while fronts:
            found = self.audited(text, labels, fronts)
            whole |= {front for front, word in zip(fronts, found) if word == "execution"}
            going = [front for front, word in zip(fronts, found) if not word.startswith("bad")]
            fronts = [front + (leaf,) for front in going for leaf in range(len(labels)) if leaf not in front]
        return {tuple(labels[leaf] for leaf in leaves if re.match(r"\w+$", labels[leaf])) for leaves in whole}


def told(status, written):
    """What an answer of `verify` says, in the form of a right column."""
    lines = written.splitlines()
    if not lines or lines[0] not in ("fails", "needed"):
        return lines[:1]
    return [lines[0], f"{lines[0]} by " + (", ".join(line.partition(" ")[2] for line in lines[2:]) or "nothing")]


def wrong_answer(shown):
    """Of a call of `verify`: what differs from the right column."""
    def wrong(status, written):
        return None if shown in told(status, written) else f"the answer is `{'`, `'.join(told(status, written))}`, shown is `{shown}`"
    return wrong


def wrong_replies(shown):
    """Of a call of `drive`: what differs from the replies that are shown."""
    def wrong(status, written):
        replies = written.split("history ")[0].splitlines()
        return None if replies == shown else first_difference(shown, replies)
    return wrong


def wrong_output(shown, wanted):
    """Of any call: what differs from what is shown, and from the status, where one is."""
    def wrong(status, written):
        if wanted and status != int(wanted):
            return f"the status is {status}, shown is {wanted}"
        lines = written.splitlines()
        return None if is_alike(shown, lines) else first_difference(shown, lines)
    return wrong


def wrong_status(status, written):
    """Of a call that must end with 0."""
    return f"the status is {status}: {written.splitlines()[-1:]}" if status else None


def joined(flow, part):
    """A workflow and its second part."""
    return flow + ("" if not part or part.startswith("%%\n") else "%%\n") + part


class Document:
    """A document whose blocks are tried from its top to its end."""

    def __init__(self, name, programs):
        self.name, self.programs = name, programs
        text = (TOP / name).read_text()
        self.blocks, self.faults = read_blocks(name, text)
        self.faults += wrong_links(TOP / name, name)
        self.rows, self.numbers = [], {}
        self.flow, self.part, self.unread = None, "", None
        sections = [line for line in re.findall(r"^#+ (.*)$", re.sub(r"^```.*?^```$", "", text, flags=re.S | re.M), re.M)]
        if name in ROWS:
            self.faults += [f"{name}: two sections `{title}`" for title in sorted({t for t in sections if sections.count(t) > 1})]

    def fault(self, block, what):
        self.faults.append(f"{block.place}: {what}")

    def name_of(self, block):
        """The name of a try: the section, the word of its block, and a number."""
        key = f"{block.section}: {block.word}"
        self.numbers[key] = self.numbers.get(key, 0) + 1
        return f"{key} {self.numbers[key]}"

    def add(self, block, call, text, wrong):
        """Makes a call, and keeps it as a row; `wrong` tells what is wrong of its status and of what it wrote."""
        status, written = self.programs.answer(call, text)
        found = wrong(status, written)
        if found:
            self.fault(block, f"{call}: {found}")
        self.rows.append(f"{self.name_of(block)}\n{call}\n{status}\n{text}---\n{written}")

    def take_flow(self, block, below):
        """A workflow: `flow check` takes it, unless an output below says what comes."""
        self.flow, self.part = block.text, ""
        outputs = [other.rest for other in below if other.word == "output"]
        if not any("=" in rest or rest.startswith("flow check") for rest in outputs):
            self.add(block, "flow check", block.text, wrong_status)

    def leave_part(self):
        """A second part must have been read by an output, where it is no file that a console reads."""
        if self.unread:
            self.fault(self.unread, "no output below reads this part")
        self.unread = None

    def take_output(self, block):
        call, _, wanted = block.rest.partition(" = ")
        if call.split()[:1] not in [[name] for name in PROGRAMS]:
            raise Faulty(f"{block.place}: an output of no call")
        self.unread = None
        self.add(block, call, joined(self.flow, self.part), wrong_output(block.lines, wanted))

    def take_asked(self, block):
        for query, shown in columns(block):
            self.add(block, "flow verify", joined(self.flow, query + "\n"), wrong_answer(shown))
            against = Workflow(self.flow).against(query)
            if (shown in ("holds", "redundant")) == bool(against):
                self.fault(block, f"`{query}` is otherwise by the definitions: {sorted(against)[:3]}")
            if " by " in shown and shown.partition(" by ")[2] not in against:
                self.fault(block, f"`{query}`: what is shown is no counterexample by the definitions")

    def take_driven(self, block):
        pairs = list(columns(block))
        session = "".join(pair[0] + "\n" for pair in pairs)
        self.add(block, "flow drive", joined(self.flow, session), wrong_replies([pair[1] for pair in pairs]))

    def take_executions(self, block):
        """These lists of events are the executions: all of them, by the program, and by the definitions."""
        listed = {tuple(line.split()) if line != "nothing" else () for line in block.lines}
        found = self.programs.executions(self.flow)
        for name, lists in (("is no execution", listed - found), ("is an execution that is not shown", found - listed)):
            for events in sorted(lists):
                self.fault(block, f"`{' '.join(events)}` {name}")
        if len(listed) != len(block.lines):
            self.fault(block, "an execution is shown twice")
        if Workflow(self.flow).executions() != listed:
            self.fault(block, "by the definitions the executions are others")

    def take_rules(self, block):
        """Each rule, as a constraint, leaves so many lists; and they are those that its name means, where it is known by hand."""
        labels = self.programs.labels(self.flow)
        lists = named_lists(labels)
        leaves = [tuple(labels.index(event) for event in events) for events in lists]
        for name, rule, count in columns(block):
            text = self.flow + f"constraint {rule};\n"
            self.add(block, "flow check", text, wrong_status)
            found = [word == "execution" for word in self.programs.audited(text, labels, leaves)]
            if sum(found) != int(count):
                self.fault(block, f"{name} holds of {sum(found)} lists, shown is {count}")
            for events, is_one in zip(lists, found):
                if is_one != holds_by_hand(name, events):
                    self.fault(block, f"{name}: `{' '.join(events)}` is otherwise by hand")

    def take_console(self, block):
        commands, shown = [], []
        for line in block.lines:
            if line.startswith("$ "):
                commands.append(line[2:])
                shown.append([])
            elif line.startswith("> ") and commands and not shown[-1]:
                commands[-1] += "\n" + line[2:]
            elif commands:
                shown[-1].append(line)
            else:
                raise Faulty(f"{block.place}: no command before `{line}`")
        for command, lines, written in zip(commands, shown, run_shell(commands, self.programs)):
            if not is_alike(lines, written):
                self.fault(block, f"`{command}`: {first_difference(lines, written)}")
            if any(line.endswith(": command not found") for line in written):
                self.fault(block, f"`{command}`: a command that is not found")

    def take_piece(self, block):
        """A part of a text of this document or of the examples."""
        texts = [other.lines for other in self.blocks if other.word == "flow"]
        texts += [path.read_text().splitlines() for path in sorted((TOP / "examples").rglob("*")) if path.is_file()]
        part = [line.strip() for line in block.lines]
        for lines in texts:
            stripped = [line.strip() for line in lines]
            if any(stripped[at:at + len(part)] == part for at in range(len(stripped))):
                return
        self.fault(block, "this part stands in no text of the document and of the examples")

    def take_copied(self, block):
        """What is not tried: it must not look as if it were."""
        line = looks_like_one(block)
        if block.word in PLAIN and line:
            self.fault(block, f"`{line}` looks like an input or an output, and is not tried")
        if block.word == "form" and not re.search(r"\b[A-Z]{2,}\b", block.text):
            self.fault(block, "a form has words in capitals")
        if block.word == "sh":
            done = subprocess.run(["bash", "-n"], input=block.text.encode(), capture_output=True)
            if done.returncode:
                self.fault(block, "bash does not take it")

    def take(self, index):
        block = self.blocks[index]
        if block.word not in WORDS:
            raise Faulty(f"{block.place}: `{block.word}` says not how the block is tried")
        if block.word in ASKING and self.flow is None:
            raise Faulty(f"{block.place}: no workflow stands above")
        if block.rest and block.word in {"flow"} | PARTS:
            (self.programs.folder / block.rest).write_text(block.text)
        if block.word in {"flow"} | PARTS:
            self.leave_part()
        if block.word == "flow":
            rest = self.blocks[index + 1:]
            end = next((at for at, other in enumerate(rest) if other.word == "flow"), len(rest))
            self.take_flow(block, rest[:end])
        elif block.word in PARTS:
            self.part, self.unread = block.text, None if block.rest else block
        elif block.word in PLAIN | {"form", "sh"}:
            self.take_copied(block)
        else:
            getattr(self, "take_" + block.word)(block)

    def take_all(self):
        """Goes through the blocks, makes the calls, and gives them as rows."""
        for index in range(len(self.blocks)):
            try:
                self.take(index)
            except Faulty as fault:
                self.faults.append(str(fault))
        self.leave_part()
        return self.rows


def run_shell(commands, programs):
    """What each command writes, in one shell."""
    mark = "@@ the next command @@"
    script = "".join(f"{command}\nstatus=$?; echo; echo '{mark}'; (exit $status)\n" for command in commands)
    path = f"{programs.folder}/bin:/usr/local/bin:/usr/bin:/bin"
    done = subprocess.run(["bash", "-c", script], stdout=subprocess.PIPE, stderr=subprocess.STDOUT, cwd=programs.folder,
                          env={"PATH": path, "HOME": str(programs.folder), "LC_ALL": "C"}, timeout=120)
    parts = done.stdout.decode("utf-8", "replace").split(f"\n{mark}\n")
    return [part.splitlines() for part in parts[:len(commands)]] + [[]] * (len(commands) - len(parts))


def wrong_rows(name, rows):
    """What differs between the rows of a document's blocks and the file that the gate tries."""
    file = TOP / "crates/test_cases/data" / ROWS[name]
    kept = file.read_text().split("\n=== ")[1:] if file.exists() else []
    kept = {row.split("\n")[0]: row.rstrip("\n") for row in kept}
    made = {row.split("\n")[0]: row.rstrip("\n") for row in rows}
    faults = [f"{file.name}: no row `{title}`" for title in made if title not in kept]
    faults += [f"{file.name}: no block of {name} is the row `{title}`" for title in kept if title not in made]
    return faults + [f"{file.name}: `{title}` is another in {name}" for title in made if title in kept and made[title] != kept[title]]


def write_rows(name, rows):
    """Writes the file of rows of a document."""
    head = f"What {name} shows, block by block: bench/documents.py --write writes these rows, and tells where one is another.\n"
    assert not any("\\" in row for row in rows)
    (TOP / "crates/test_cases/data" / ROWS[name]).write_text(head + "".join("=== " + row for row in rows))


def folder_of(path, programs):
    """A folder for a document, with links to what its consoles name."""
    (path / "bin").mkdir(parents=True)
    for name, program in programs.items():
        (path / "bin" / name).symlink_to(program)
    for name in LINKED:
        if (TOP / name).exists():
            (path / name).symlink_to(TOP / name)
    return path


def main(words):
    paths = [word for word in words if word != "--write" and not word.endswith(".md")]
    named = [word for word in words if word.endswith(".md")] or DOCUMENTS
    paths += [TOP / f"crates/{name}/out/{name}" for name in PROGRAMS[len(paths):]]
    called = {name: pathlib.Path(path).resolve() for name, path in zip(PROGRAMS, paths)}
    faults, counts, calls, rowed = [], {}, 0, 0
    with tempfile.TemporaryDirectory(prefix="documents-") as top:
        for number, name in enumerate(name for name in named if (TOP / name).exists()):
            programs = Programs(called, folder_of(pathlib.Path(top) / str(number), called))
            document = Document(name, programs)
            rows = document.take_all()
            if name in ROWS:
                if "--write" in words:
                    write_rows(name, rows)
                document.faults += wrong_rows(name, rows)
                rowed += len(rows)
            faults += document.faults
            calls += programs.calls
            for block in document.blocks:
                counts[block.word] = counts.get(block.word, 0) + 1
            print(f"{name}: {len(document.blocks)} blocks, {len(rows)} calls shown, {len(document.faults)} faults")
    if named == DOCUMENTS:
        faults += changing.faults() + benches.faults()
    print("\n".join(faults), end="\n" if faults else "")
    blocks = ", ".join(f"{word} {counts[word]}" for word in sorted(counts))
    print(f"{sum(counts.values())} blocks ({blocks}), {rowed} rows, {calls} calls: {len(faults)} faults")
    return 1 if faults else 0


if __name__ == "__main__":
    sys.exit(main(sys.argv[1:]))
