#!/usr/bin/env python3
"""Duties: `flow duty` beside a model of the definitions, and the dearest policies.

Usage: bench/duties.py [PROGRAM] [PART ..] [--sessions COUNT] [--policies COUNT] [--seed SEED]     PART: model, texts, times; without one all

model    sessions of users on small workflows made at random, under policies made at random: what is replied to each line, the history and
         the verdict are told before by a model that knows of no option's rows and of no claim's place: it goes through all executions of
         the goal (bench/desk.py has them), and looks for who has an event in the whole history.
texts    policies that are damaged at random: which of the four refusals comes, and at which place, told before by the grammar as a regular
         expression, into which a text is completed.
times    texts of a megabyte: as many users as fit in a line, one user with as many roles as fit, as many constraints of one event as fit,
         and as many equal ones; read with a session of one line, and with one of 16,384 takes of the user whom they cost most. The least
         milliseconds of five calls, megabytes, and the last line. These figures tell something only on a machine that does nothing else.

--sessions and --policies set how many are tried (2,000 and 4,000). `times` needs GNU time (/usr/bin/time). The script ends with 1 where an
answer is not the model's, and prints that.
"""
import argparse
import itertools
import os
import pathlib
import random
import re
import string
import subprocess
import sys
import tempfile

from desk import Workflow, lists
from measuring import TOP, measured

GREATEST_INPUT = 1_048_576
MOST_LINES = 16_384
RESERVED = set("fact event flow goal constraint nop iso ins del must never order precedes needs not and or done fail holds redundant".split())
NAME = "[A-Za-z][A-Za-z0-9_]*"
WRONG = []


# --- the policy

def is_name(word):
    return re.fullmatch(NAME, word) is not None and word not in RESERVED


class Refused(Exception):
    """Why a text is no policy, as it is told."""


def letter_of(word):
    """A token as one letter: R, A, S and B begin statements, n is another name, x is nothing of a policy."""
    if word in ("role", "allow", "separate", "bind"):
        return word[0].upper()
    if word in ("=", ",", ";"):
        return word
    return "n" if is_name(word) else "x"


POLICY = re.compile(r"(?:R\w=\w(?:,\w)*;|A\w\w(?:,\w)*;|[SB]\w\w;)*".replace(r"\w", "[RASBn]"))
# Whatever can still become a policy becomes one by one of these.
ENDS = ["", ";", "n;", "nn;", "=n;", "n=n;"]


def tokens_of(text):
    """The words of a text and their places."""
    for place, letter in enumerate(text):
        if ord(letter) > 127:
            raise Refused(f"byte {place}")
    found, place = [], 0
    pattern = re.compile(rf"[\t\n\r ]+|#[^\n]*|({NAME}|[0-9]+|[*|+(),;=?!])")
    while place < len(text):
        token = pattern.match(text, place)
        if not token or token[1] and token[1].isdigit() and int(token[1]) > 0xFFFF_FFFF:
            raise Refused(f"token {place}")
        if token[1]:
            found.append((token[1], place))
        place = token.end()
    return found


class Policy:
    """What a text says who may take what, for a workflow of these events."""

    def __init__(self, text, events):
        tokens = tokens_of(text)
        letters = "".join(letter_of(word) for word, _ in tokens)
        going = [any(POLICY.fullmatch(letters[:count] + end) for end in ENDS) for count in range(len(letters) + 1)]
        if not all(going):
            raise Refused(f"expected {tokens[going.index(False) - 1][1]}")
        if not POLICY.fullmatch(letters):
            raise Refused(f"expected {len(text)}")
        statements, rest = [], tokens
        while rest:
            end = [word for word, _ in rest].index(";")
            statements.append(rest[:end])
            rest = rest[end + 1:]
        roles = {words[1][0] for words in statements if words[0][0] == "role"}
        self.users, self.members, self.allowed = [], set(), set()
        self.pairs = {"separate": [], "bind": []}
        for words in statements:
            self.say(words[0][0], [name for name in words[1:] if name[0] not in "=,"], roles, events)

    def say(self, kind, names, roles, events):
        for number, (name, place) in enumerate(names):
            known = None if kind == "role" else roles if kind == "allow" and number == 0 else events
            if known is not None and name not in known:
                raise Refused(f"unknown {place}")
        first, *others = [name for name, _ in names]
        if kind == "role":
            self.users += [user for user in dict.fromkeys(others) if user not in self.users]
            self.members |= {(user, first) for user in others}
        elif kind == "allow":
            self.allowed |= {(first, event) for event in others}
        else:
            self.pairs[kind].append((first, *others))

    def denies(self, user, event, takers):
        """Why the event is not left to the user of that number, where others have these."""
        roles = {role for name, role in self.members if user and name == self.users[user - 1]}
        if not any((role, event) in self.allowed for role in roles):
            return "role"
        for kind, is_wrong in [("separate", lambda taker: taker == user), ("bind", lambda taker: taker != user)]:
            for number, pair in enumerate(self.pairs[kind]):
                if event in pair and any(is_wrong(taker) for taker in takers.get(pair[pair[0] == event], ())):
                    return f"{kind} {number}"
        return None


# --- the run

def resolutions(goal):
    """The goal with one side taken at each choice."""
    kind, *parts = goal
    if kind in ("leaf", "nop"):
        return [goal]
    if kind == "either":
        return [taken for part in parts for taken in resolutions(part)]
    return [(kind, *taken) for taken in itertools.product(*map(resolutions, parts))]


class Run:
    """A run of a small workflow, by all executions of its goal, and users at a desk."""

    def __init__(self, text, policy, steps):
        workflow = Workflow(text)
        self.labels, self.policy, self.steps, self.by = workflow.labels, policy, steps, 0
        self.options = [[tuple(trace) for trace in lists(goal) if self.is_meeting(workflow, trace)] for goal in resolutions(workflow.goal)]
        self.history, self.journal, self.bans, self.claims, self.epoch, self.committed = [], [], [], [], 0, False

    def is_meeting(self, workflow, trace):
        at = {self.labels[leaf]: place for place, leaf in enumerate(trace)}
        return all(at[first] < at[second] for first, second in workflow.precedes if first in at and second in at) and all(
            event not in at or other in at for event, other in workflow.needs)

    def is_event(self, leaf):
        return re.fullmatch("[a-z_]+", self.labels[leaf]) is not None

    def free(self, option, journal, barred):
        return [trace for trace in option if trace[:len(journal)] == tuple(journal) and not barred & set(trace)]

    def follow(self, first, together):
        """Whether in one option the first leaves may follow, and the others then in every order."""
        barred = {leaf for _, leaf in self.bans}
        for option in self.options:
            traces = self.free(option, self.journal, barred)
            orders = [tuple(first) + order for order in itertools.permutations(together)]
            if all(any(trace[len(self.journal):][:len(order)] == order for trace in traces) for order in orders):
                return True
        return False

    def current(self):
        return [claim for claim in self.claims if not claim["answered"] and claim["epoch"] == self.epoch]

    def leaves_out(self):
        return [claim["leaf"] for claim in self.current()]

    def holds(self, leaf):
        facts = set()
        for label in (self.labels[done] for done in self.journal):
            if label[:4] in ("ins ", "del "):
                (facts.add if label[0] == "i" else facts.discard)(label[4:])
        label = self.labels[leaf]
        return label[0] not in "?!" or (label[1:] in facts) == (label[0] == "?")

    def is_good(self):
        return any(tuple(self.journal) in option for option in self.options)

    def new_epoch(self):
        spared, self.epoch = [], self.epoch + 1
        for claim in self.claims:
            if not claim["answered"] and claim["epoch"] == self.epoch - 1 and self.follow([], [*spared, claim["leaf"]]):
                spared.append(claim["leaf"])
                claim["epoch"] = self.epoch

    def open_index(self):
        for index in reversed(range(len(self.journal))):
            barred = {leaf for at, leaf in self.bans if at <= index} | {self.journal[index]}
            if any(self.free(option, self.journal[:index], barred) for option in self.options):
                return index
        return None

    def takers(self):
        """Of each event that is done or under a claim, who has it: looked for in the whole history."""
        found, out = {}, {claim["number"] for claim in self.current()}
        done = [int(line.split()[1]) for _, line in self.history if line.startswith("done")]
        for leaf in self.journal + self.leaves_out():
            if self.is_event(leaf):
                taken = {int(words[1]): by for by, words in ((by, line.split()) for by, line in self.history) if words[0] == "took" and int(words[2]) == leaf}
                last = [taken[claim] for claim in done if claim in taken][-1:] if leaf in self.journal else [taken[claim] for claim in taken if claim in out]
                found.setdefault(self.labels[leaf], set()).update(last)
        return found

    def note(self, line):
        self.history.append((self.by, line))

    # what is replied

    def reply(self, line):
        words = line.split()
        if words[0] == "as":
            if words[1] not in self.policy.users:
                return "refused user"
            self.by = self.policy.users.index(words[1]) + 1
            return line
        if words[0] in ("enabled", "journal"):
            return " ".join([words[0], *map(str, self.enabled() if words[0] == "enabled" else self.journal)])
        if self.committed:
            return "refused closed"
        return getattr(self, "to_" + words[0])(*map(int, words[1:]))

    def can_take(self, leaf):
        return self.is_event(leaf) and leaf not in self.leaves_out() and self.follow([], [*self.leaves_out(), leaf])

    def can_do_aside(self, leaf):
        return not self.is_event(leaf) and self.follow([leaf], self.leaves_out())

    def enabled(self):
        if self.committed:
            return []
        return [leaf for leaf in range(len(self.labels)) if self.can_take(leaf) or self.can_do_aside(leaf) and self.holds(leaf)]

    def asked(self, leaf, is_event):
        """Why nothing of the kind is begun on the leaf."""
        if leaf >= len(self.labels):
            return f"refused leaf {leaf}"
        if self.is_event(leaf) != is_event:
            return f"refused kind {leaf}"
        return self.spent()

    def spent(self):
        return f"refused spent {self.steps}" if len(self.history) == self.steps else None

    def to_take(self, leaf):
        refused = self.asked(leaf, True)
        if refused or not self.can_take(leaf):
            return refused or f"refused not-enabled {leaf}"
        event = self.labels[leaf]
        denied = self.policy.denies(self.by, event, self.takers())
        if denied:
            return f"refused role {leaf}" if denied == "role" else f"refused {denied}"
        number = len(self.claims) + 1
        attempt = 1 + sum(self.labels[claim["leaf"]] == event for claim in self.claims)
        self.claims.append({"number": number, "leaf": leaf, "epoch": self.epoch, "answered": False, "by": self.by})
        self.note(f"took {number} {leaf}")
        return f"claim {number} epoch {self.epoch} attempt {attempt} {event}"

    def to_do(self, leaf):
        refused = self.asked(leaf, False)
        if refused or not self.can_do_aside(leaf):
            return refused or f"refused not-enabled {leaf}"
        if not self.holds(leaf):
            return f"refused false {leaf}"
        self.note(f"did {leaf}")
        self.journal.append(leaf)
        return f"did {leaf}"

    def posted(self, number):
        """The claim, or why no result is posted for it."""
        if not 1 <= number <= len(self.claims):
            return None, f"refused claim {number}"
        claim = self.claims[number - 1]
        if claim["answered"]:
            return None, f"refused answered {number}"
        if self.spent():
            return None, self.spent()
        if claim["by"] != self.by:
            return None, f"refused holder {number}"
        claim["answered"] = True
        if claim["epoch"] < self.epoch:
            self.note(f"late {number}")
            return None, f"late {number} {claim['epoch']} {self.epoch}"
        return claim, None

    def to_done(self, number):
        claim, refused = self.posted(number)
        if claim:
            self.note(f"done {number}")
            self.journal.append(claim["leaf"])
        return refused or f"done {number}"

    def to_fail(self, number):
        claim, refused = self.posted(number)
        if not claim:
            return refused
        barred = {leaf for _, leaf in self.bans} | {claim["leaf"]}
        if not any(self.free(option, self.journal, barred) for option in self.options):
            self.note(f"failed {number} kept")
            return f"failed {number} kept"
        self.note(f"failed {number} switched")
        self.bans.append((len(self.journal), claim["leaf"]))
        self.new_epoch()
        return f"failed {number} switched"

    def to_rewind(self):
        index = self.open_index()
        if self.spent() or index is None:
            return self.spent() or "refused no-choice"
        self.note(f"rewound {index}")
        self.bans = [ban for ban in self.bans if ban[0] <= index] + [(index, self.journal[index])]
        del self.journal[index:]
        self.new_epoch()
        return f"rewound {index}"

    def to_commit(self):
        if self.spent():
            return self.spent()
        if self.current():
            return f"refused claims-out {self.current()[0]['number']}"
        if not self.is_good():
            return "refused unfinished"
        self.note("committed")
        self.committed = True
        return "committed"

    def written(self, session):
        """All that is written, and the status."""
        replies = [self.reply(line) for line in session]
        ended = ("committed", 0) if self.committed else ("spent", 7) if len(self.history) == self.steps else ("unfinished", 1)
        lines = [*replies, f"history {len(self.history)}", *(f"{by}: {line}" for by, line in self.history), f"journal {len(self.journal)}"]
        lines += [*(f"{leaf} {self.labels[leaf]}" for leaf in self.journal), f"verdict {ended[0]}"]
        return "".join(line + "\n" for line in lines), ended[1]

    def breach(self):
        """Whether duties are broken by who has what now."""
        takers = self.takers()
        for event, users in takers.items():
            others = {other: has for other, has in takers.items() if other != event}
            if any(self.policy.denies(user, event, others) for user in users):
                return True
        return False


# --- what is tried

def small_goal(draw, events):
    """A goal of these events, some with a test or a change of a fact beside them."""
    if len(events) <= 1:
        leaf = events[0] if events else "nop"
        return draw.choice([leaf] * 6 + [f"(?p(x) * {leaf})", f"(!p(x) * {leaf})", f"(ins p(x) * {leaf})", f"({leaf} * ?p(x))"])
    cut = draw.randrange(1, len(events))
    parts = f" {draw.choice('**||++')} ".join(small_goal(draw, part) for part in [events[:cut], events[cut:]])
    return f"{draw.choice(['', '', '', '', 'iso'])}({parts})"


def small_workflow(draw):
    events = list("abcdef"[:draw.randrange(2, 6)])
    rules = [f"constraint {draw.choice(['precedes', 'needs'])} {' '.join(draw.sample(events, 2))};" for _ in range(draw.choice([0, 0, 0, 1, 1, 2]))]
    return events, f"event {', '.join(events)}; goal {small_goal(draw, draw.sample(events, len(events)))};\n{''.join(rules)}\n"


def policy_text(draw, events):
    """A policy in which most users may take most events."""
    users, roles = ["ann", "bob", "cid", "role", "a"][:draw.randrange(1, 6)], ["clerk", "lead", "bind"][:draw.randrange(1, 4)]
    said = [f"role {role} = {', '.join(draw.choices(users, k=draw.randrange(1, 4)))};" for role in roles for _ in range(draw.choice([1, 1, 2]))]
    said += [f"allow {draw.choice(roles)} {', '.join(draw.sample(events, draw.randrange(1, len(events) + 1)))};" for _ in range(draw.randrange(1, 4))]
    said += [f"{draw.choice(['separate', 'separate', 'bind'])} {draw.choice(events)} {draw.choice(events)};" for _ in range(draw.choice([0, 1, 1, 2, 3, 5]))]
    draw.shuffle(said)
    return draw.choice(["\n", " ", " # so\n"]).join(said) + "\n", users


def line_of(draw, run, users):
    """A line that often is accepted, and the run after it."""
    names, leaves = [*users, "eve"], range(len(run.labels) + 1)
    able = run.enabled()
    out = [claim for claim in run.claims if not claim["answered"]]
    kind = draw.choices(["as", "take", "done", "fail", "rewind", "commit", "do", "look"], [6, 7, 6, 2, 1, 1, 3, 1])[0]
    if kind == "as":
        of_claims = [run.policy.users[claim["by"] - 1] for claim in out]
        return f"as {draw.choice(draw.choice([names, of_claims or names]))}"
    if kind in ("take", "do"):
        fitting = [leaf for leaf in able if run.is_event(leaf) == (kind == "take")]
        return f"{kind} {draw.choice(fitting if fitting and draw.random() < 0.9 else leaves)}"
    if kind in ("done", "fail"):
        mine = [claim["number"] for claim in out if claim["by"] == run.by] or [claim["number"] for claim in out]
        return f"{kind} {draw.choice(mine) if mine and draw.random() < 0.9 else draw.randrange(len(run.claims) + 2)}"
    return draw.choice(["enabled", "journal"]) if kind == "look" else kind


def wrong(what, source):
    kept = pathlib.Path(tempfile.gettempdir()) / f"duty_{len(WRONG)}"
    kept.write_bytes(source)
    WRONG.append(what)
    print(f"wrong: {what}: {kept}")


def told(program, words, source):
    call = subprocess.run([*program, "duty", *words], input=source, capture_output=True, check=False)
    return call.stdout.decode(), call.returncode


def model(program, options):
    draw, lines = random.Random(options.seed), 0
    for _ in range(options.sessions):
        events, workflow = small_workflow(draw)
        policy, users = policy_text(draw, events)
        steps = draw.choice([65_536, 65_536, 65_536, draw.randrange(1, 12)])
        try:
            said = Policy(policy, events)
        except Refused as refused:
            wanted, session = (f"refused: policy {refused}\n", 3), []
        else:
            run, session, replies = Run(workflow, said, steps), [], []
            if not any(run.options):
                continue
            for _ in range(draw.randrange(60)):
                session.append(line_of(draw, run, users))
                replies.append(run.reply(session[-1]))
                if run.breach():
                    raise SystemExit(f"the model breaks duties: {workflow} {policy} {session}")
            report, status = run.written([])
            wanted = "".join(f"{reply}\n" for reply in replies) + report, status
        source = f"{workflow}%%\n{policy}%%\n".encode() + "".join(f"{line}\n" for line in session).encode()
        if told(program, ["--steps", str(steps)], source) != wanted:
            wrong("a session is not answered as the model does", source)
        lines += len(session)
    print(f"model, seed {options.seed}: {options.sessions} workflows with a policy and a session each, {lines} lines")


def damaged(draw, text):
    """The text with one to three damages."""
    words = re.findall(rf"{NAME}|[0-9]+|\s+|.", text)
    for _ in range(draw.choice([1, 1, 2, 3])):
        place = draw.randrange(len(words) + 1)
        kind = draw.randrange(4)
        if kind == 0:
            del words[place:place + 1]
        elif kind == 1:
            del words[place:]
        else:
            put = ["=", ",", ";", "role", "allow", "separate", "bind", "ann", "a", "z", "order", "7", "4294967296", "*", "@", "\xe9", "#", "(", " "]
            words[place:place + draw.randrange(2)] = [draw.choice(put)]
    return "".join(words)


def texts(program, options):
    draw, counts = random.Random(options.seed), {}
    for _ in range(options.policies):
        events = list("abcd"[:draw.randrange(1, 5)])
        text = damaged(draw, policy_text(draw, events)[0])
        workflow = f"event {', '.join(events)}; goal {' | '.join(events)};\n"
        try:
            Policy(text, events)
            wanted = ("history 0\njournal 0\nverdict unfinished\n", 1)
        except Refused as refused:
            wanted = (f"refused: policy {refused}\n", 3)
        kind = wanted[0].split()[2] if wanted[1] == 3 else "said"
        counts[kind] = counts.get(kind, 0) + 1
        source = f"{workflow}%%\n".encode() + text.encode("latin-1")
        if told(program, [], source) != wanted:
            wrong(f"a policy is not refused so: {wanted[0]!r}", source)
    print(f"texts, seed {options.seed}: {options.policies} policies: " + ", ".join(f"{count} {kind}" for kind, count in sorted(counts.items())))


# --- the times

def short_names():
    """Names that are no words of the language and of one to four letters, the shortest first."""
    first, more = string.ascii_letters, string.ascii_letters + string.digits + "_"
    for length in range(4):
        for rest in itertools.product(more, repeat=length):
            for letter in first:
                name = letter + "".join(rest)
                if name not in RESERVED:
                    yield name


def filled(workflow, session, before, item, between, after):
    """An input of the greatest length: the items, as many as fit, between what stands before and after them."""
    room = GREATEST_INPUT - len(workflow) - len(session) - len(before) - len(after) - 8
    items, size = [], 0
    for name in short_names():
        one = item(name)
        size += len(one) + len(between)
        if size > room:
            break
        items.append(one)
    return f"{workflow}\n%%\n{before}{between.join(items)}{after}\n%%\n{session}", len(items)


def takes(lines):
    return "as zzzz\n" + "take 0\n" * (lines - 1)


def many_users(lines):
    return filled("event a; goal a;", takes(lines), "role r=", lambda name: name, ",", ",zzzz;")


def many_roles(lines):
    return filled("event a; goal a;", takes(lines), "role r=zzzz;", lambda name: f"role {name}=zzzz;", "", "allow r a;role s=a;allow s a;")


def many_constraints(lines):
    """Of one event, each with another, and none of these is done; all of them are declared."""
    room = GREATEST_INPUT - len(takes(lines)) - 200
    others, size = [], 0
    for name in short_names():
        size += 2 * len(name) + len(",") + len("bind  e0e0;")
        if size > room:
            break
        others.append(name)
    constraints = "".join(f"bind {name} e0e0;" for name in others)
    workflow = f"event e0e0,{','.join(others)}; goal e0e0;"
    return f"{workflow}\n%%\nrole r=zzzz;allow r e0e0;{constraints}\n%%\n" + "as zzzz\ntake 0\nfail 1\n" + "take 0\n" * (lines - 3), len(others)


def equal_constraints(lines):
    return filled("event a, b; goal a | b;", takes(lines), "role r=zzzz;allow r a,b;", lambda name: "separate a b;", "", "")


KINDS = {
    "as many users as fit": many_users,
    "one user with as many roles as fit": many_roles,
    "as many constraints of an event as fit": many_constraints,
    "as many equal constraints as fit": equal_constraints,
}


def times(program, options):
    print(f"{'policies':<42}{'count':>8}{'lines':>8}{'bytes':>10}{'ms':>9}{'MB':>8}  ends with")
    for name, make in KINDS.items():
        for lines in [4, MOST_LINES]:
            source, count = make(lines)
            spent, memory, last = measured(program[0], [*program[1:], "duty"], source.encode())
            print(f"{name:<42}{count:>8}{lines:>8}{len(source):>10}{1000 * spent:>9.0f}{memory:>8.1f}  {last}", flush=True)


PARTS = {"model": model, "texts": texts, "times": times}


def main():
    reader = argparse.ArgumentParser(description="Duties.")
    reader.add_argument("words", nargs="*", help="the program, and the parts")
    reader.add_argument("--sessions", type=int, default=2_000)
    reader.add_argument("--policies", type=int, default=4_000)
    reader.add_argument("--seed", type=int, default=1)
    options = reader.parse_args()
    programs = [word for word in options.words if word not in PARTS]
    program = [os.path.abspath(programs[0])] if programs else [str(TOP / "crates/flow/out/flow")]
    for part in [word for word in options.words if word in PARTS] or PARTS:
        PARTS[part](program, options)
    sys.exit(1 if WRONG else 0)


if __name__ == "__main__":
    main()
