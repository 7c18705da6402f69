#!/usr/bin/env python3
"""Questions to a policy: `flowdesk alone`, `flowdesk staffed` and `flowdesk lint --policy` beside a model of the definitions, and costs.

Usage: bench/questions.py [DESK] [PART ..] [--count COUNT] [--seed SEED]     PART: model, times, hole; without one all

DESK is the program flowdesk (crates/flowdesk/out/flowdesk where it is left out).

model    small workflows and policies made at random. A model goes through all fronts of all executions of the goal that meet the
         constraints and whose tests hold in turn, and through all users who may take the events of each. It knows no option, no plan and no
         stage. Each run that is shown must be one of the model's, and show what is told. Where the model has such a run, one must be shown,
         or the states must be spent; where it has none, the answer must be `never` or `always`, or the states must be spent. It is counted
         how often each of these comes. And what `lint --policy` finds, with an event that is final: just what the model finds.
times    the back office, and the order desk with twelve people: all pairs of events, and `staffed`. How often each answer comes, and the
         most seconds of a call; more than 5 is wrong.
lint     the back office and the order desk: what `lint --policy` finds, and how long it takes; more than 5 seconds is wrong.
hole     a purchase with a match that may differ: who matched clarifies and releases. One call must find it.

Where all parts ran, bench/results/questions.tsv has the figures. The script ends with 1 where an answer is wrong, and prints that.
"""
import argparse
import collections
import itertools
import json
import pathlib
import random
import subprocess
import sys
import tempfile
import time

from duties import Policy
from measuring import TOP, keep_results
from model import Drawn, Model

WRONG, ROWS = [], []
MOST_SECONDS = 5
MOST_STATES = 1_000_000

HOLE = """event request, match_ok, match_diff, clarify, release_1, release_2, pay;
goal request * (match_ok + match_diff * clarify) * release_1 * release_2 * pay;
"""
HOLE_POLICY = """role clerk = fay, fred; role buyer = rita; role lead = leo, fay; role cashier = carl;
allow clerk match_ok, match_diff, clarify, release_1;
allow buyer request; allow lead clarify, release_1, release_2; allow cashier pay;
separate match_ok release_1; separate match_ok release_2; separate release_1 release_2;
"""


def wrong(what, *texts):
    folder = pathlib.Path(tempfile.mkdtemp(prefix="questions_"))
    for number, text in enumerate(texts):
        (folder / str(number)).write_text(text)
    WRONG.append(what)
    print(f"wrong: {what}: {folder}")


# --- the model

def fronts(model):
    """All fronts of good executions whose tests hold in turn, and the leaves that may come next after each, whatever holds."""
    found = {}
    for trace in model.good:
        for count in range(len(trace) + 1):
            if not model.runs(trace[:count]):
                break
            found.setdefault(trace[:count], set()).update(trace[count:count + 1])
    return found


def takers(model, policy, front):
    """All ways in which users may take the events of the front, one after another."""
    events = [model.labels[leaf] for leaf in front if model.is_event(leaf)]
    ways = [{}]
    for event in events:
        ways = [{**way, event: {user}} for way in ways for user in range(1, len(policy.users) + 1) if policy.denies(user, event, way) is None]
    return ways


def can_have_both(model, policy, one, two):
    return any(way.get(one) and way.get(one) == way.get(two) for front in fronts(model) for way in takers(model, policy, front))


def is_for_nobody(policy, event, way):
    return all(policy.denies(user, event, way) for user in range(len(policy.users) + 1))


def is_unmanned(model, policy):
    return any(is_for_nobody(policy, model.labels[leaf], way) for front, nexts in fronts(model).items() for leaf in nexts if model.is_event(leaf)
               for way in takers(model, policy, front))


def policy_for(draw, events):
    """A policy made at random for these events."""
    users, roles = ["ann", "bob", "cid"][:draw.randint(1, 3)], ["r", "s"]
    lines = [f"role {role} = {', '.join(draw.sample(users, draw.randint(1, len(users))))};" for role in roles]
    lines += [f"allow {draw.choice(roles)} {event};" for event in events if draw.random() < 0.9]
    lines += [f"allow {draw.choice(roles)} {event};" for event in events if draw.random() < 0.4]
    for kind in ("separate", "bind"):
        lines += [f"{kind} {draw.choice(events)} {draw.choice(events)};" for _ in range(draw.choice([0, 0, 1, 2, 3]))]
    return "\n".join(lines) + "\n"


def shown_front(told):
    """The leaves of a run that is shown, and who took which event."""
    front, way = [], {}
    for entry in told["run"]:
        if entry["entry"] == "took":
            way[entry["label"]] = entry["by"]
        else:
            front.append(entry["leaf"])
    return tuple(front), way


def asked(desk, words, texts):
    with tempfile.TemporaryDirectory() as folder:
        paths = [pathlib.Path(folder) / name for name in ("w.flow", "w.policy")]
        for path, text in zip(paths, texts):
            path.write_text(text)
        call = subprocess.run([desk, words[0], paths[0], *words[1:], "--policy", paths[1], "--json"], capture_output=True, check=False)
    return call.returncode, call.stdout.decode(), call.stderr.decode()


def is_shown(model, policy, told):
    front, way = shown_front(told)
    numbered = {event: {policy.users.index(user) + 1} for event, user in way.items()}
    return front in fronts(model) and numbered in takers(model, policy, front)


def is_right_of_both(model, policy, answer, one, two):
    """Whether the run that is shown is the model's, and the user has both events in it."""
    _, way = shown_front(answer)
    return is_shown(model, policy, answer) and way.get(one) == way.get(two) == answer["user"]


def is_right_of_nobody(model, policy, answer):
    """Whether the run that is shown is the model's, and the event may come next and is for nobody."""
    front, way = shown_front(answer)
    numbered = {event: {policy.users.index(user) + 1} for event, user in way.items()}
    nexts = {model.labels[leaf] for leaf in fronts(model).get(front, ())}
    return is_shown(model, policy, answer) and answer["task"] in nexts and is_for_nobody(policy, answer["task"], numbered)


def judge(counts, words, said, shown, none, exists, is_right, texts):
    """Counts an answer, and tells it where it is wrong; `shown` is the word for a run, which the model has or not, and `none` for that there is
    none."""
    status, told, _ = said
    answer = json.loads(told) if told else {}
    word = answer.get("answer")
    if word == shown and status == 1 and exists and is_right(answer):
        counts["found"] += 1
    elif word == none and status == 0 and not exists:
        counts["none"] += 1
    elif word == "undecided" and status == 7 and answer["states"] == MOST_STATES:
        counts["spent" if exists else "open"] += 1
    else:
        wrong(f"{' '.join(words)}: {told.strip()} {status}, the model has {'such a run' if exists else 'none'}", *texts)


def pairs_of(text, kind, events):
    """The two events of each statement of the kind, the lesser first, each pair once, and none of an event with itself."""
    found = set()
    for statement in text.split(";"):
        words = statement.split()
        if words[:1] == [kind]:
            found.add(tuple(sorted(map(events.index, words[1:]))))
    return {pair for pair in found if pair[0] < pair[1]}


def users_for(text, event):
    """The users with a role that is allowed the event."""
    statements = [statement.split() for statement in text.replace(",", " ").split(";")]
    roles = {words[1] for words in statements if words[:1] == ["allow"] and event in words[2:]}
    return {user for words in statements if words[:1] == ["role"] and words[1] in roles for user in words[3:]}


def stuck_behind(model, last, task):
    """Each execution with the last event has the task, which some execution does without, and in some it comes behind."""
    traces = [[model.labels[leaf] for leaf in trace if model.is_event(leaf)] for trace in model.good]
    return (all(task in trace for trace in traces if last in trace) and any(task not in trace for trace in traces)
            and any(last in trace and task in trace and trace.index(last) < trace.index(task) for trace in traces))


def findings(model, text, events, finals):
    """What is to be found in a policy, as the program tells it, without places."""
    users = {event: users_for(text, event) for event in events}
    bound, separate = pairs_of(text, "bind", events), pairs_of(text, "separate", events)
    found = [("untaken", event) for event in events if not users[event]]
    statements = [statement.split() for statement in text.split(";")]
    allowed = {words[1] for words in statements if words[:1] == ["allow"]}
    found += [("idle_role", words[1]) for words in statements if words[:1] == ["role"] and words[1] not in allowed]
    named = lambda pairs: [(events[one], events[two]) for one, two in sorted(pairs)]
    found += [("unmet_bind", one, two) for one, two in named({pair for pair in bound if pair in separate or not users[events[pair[0]]] & users[events[pair[1]]]})]
    found += [("unmet_separate", one, two) for one, two in named(separate) if not any(a != b for a in users[one] for b in users[two])]
    return found + [("stuck", last, task) for last in events if last in finals for task in events if stuck_behind(model, last, task)]


def told_findings(told):
    """The same, as the program tells them."""
    names = {"untaken": ["task"], "idle_role": ["role"], "unmet_bind": ["task", "other"], "unmet_separate": ["task", "other"], "stuck": ["final", "task"]}
    return [(one["finding"], *(one[name] for name in names[one["finding"]])) for one in json.loads(told)["findings"]]


def judge_lint(desk, draw, counts, model, texts, events):
    finals = draw.sample(events, 1)
    texts = texts[0], texts[1] + "".join(f"final {event};\n" for event in finals)
    status, told, _ = asked(desk, ["lint"], texts)
    wanted = findings(model, texts[1], events, finals)
    if not told or told_findings(told) != wanted or status != bool(wanted):
        wrong(f"lint: {told.strip()} {status}, the model has {wanted}", *texts)
    counts["found" if wanted else "none"] += 1


def try_one(desk, draw, counts):
    drawn = Drawn(draw)
    model = Model(drawn)
    events = [event for event in drawn.events if event != "z"]
    if not model.good or len(events) < 2:
        return False
    texts = drawn.text(), policy_for(draw, drawn.events)
    policy = Policy(texts[1], drawn.events)
    one, two = draw.sample(events, 2)
    words = ["alone", one, two]
    judge(counts["alone"], words, asked(desk, words, texts), "yes", "never", can_have_both(model, policy, one, two),
          lambda answer: is_right_of_both(model, policy, answer, one, two), texts)
    judge(counts["staffed"], ["staffed"], asked(desk, ["staffed"], texts), "no", "always", is_unmanned(model, policy),
          lambda answer: is_right_of_nobody(model, policy, answer), texts)
    judge_lint(desk, draw, counts["lint"], model, texts, drawn.events)
    return True


def part_model(desk, count, seed):
    draw, tried, counts = random.Random(seed), 0, collections.defaultdict(collections.Counter)
    while tried < count:
        tried += try_one(desk, draw, counts)
    for name, of_name in counts.items():
        print(f"model: {name}: {of_name['found']} found, {of_name['none']} none, {of_name['open']} undecided with none in the model, {of_name['spent']} with one")
        ROWS.append([f"model, {name}", tried, " ".join(f"{of_name[word]} {word}" for word in ("found", "none", "open", "spent"))])
    print(f"model: {tried} workflows, {len(WRONG)} wrong")


# --- what calls cost

ORDER_POLICY_ROLES = 4


def order_desk_policy(events):
    """Twelve people in four roles, each event for two roles, and a tie for each third pair of neighbours."""
    people = [f"p{number}" for number in range(12)]
    lines = [f"role r{number} = {', '.join(people[3 * number:3 * number + 4])};" for number in range(ORDER_POLICY_ROLES)]
    for number, event in enumerate(events):
        lines += [f"allow r{number % ORDER_POLICY_ROLES} {event};", f"allow r{(number + 1) % ORDER_POLICY_ROLES} {event};"]
    lines += [f"separate {one} {two};" for one, two in list(zip(events, events[1:]))[::3]]
    return "\n".join(lines) + "\n"


def events_of(text):
    found = []
    for line in text.split(";"):
        words = [word for word in line.split("\n") if not word.lstrip().startswith("#")]
        line = " ".join(words).strip()
        if line.startswith("event "):
            found += [name.split()[0] for name in line[len("event "):].split(",")]
    return found


def part_times(desk):
    office, orders = (TOP / "examples/back_office.flow").read_text(), (TOP / "examples/order_desk.flow").read_text()
    cases = {"back office": (office, (TOP / "examples/back_office.policy").read_text()), "order desk": (orders, order_desk_policy(events_of(orders)))}
    for name, texts in cases.items():
        events, answers, most = events_of(texts[0]), {}, 0
        calls = [["staffed"], *(["alone", one, two] for one, two in itertools.combinations(events, 2))]
        for words in calls:
            begun = time.perf_counter()
            _, told, _ = asked(desk, words, texts)
            spent = time.perf_counter() - begun
            most = max(most, spent)
            answer = json.loads(told)["answer"]
            answers[answer] = answers.get(answer, 0) + 1
            if words == ["staffed"]:
                print(f"{name}: staffed {answer}, {spent:.2f} s")
        print(f"{name}: {len(calls)} calls, at most {most:.2f} s: " + ", ".join(f"{answer} {count}" for answer, count in sorted(answers.items())))
        ROWS.append([f"{name}, seconds at most", len(calls), f"{most:.2f}"])
        if most > MOST_SECONDS:
            wrong(f"{name}: {most:.2f} s", *texts)


def part_lint(desk):
    office, orders = (TOP / "examples/back_office.flow").read_text(), (TOP / "examples/order_desk.flow").read_text()
    events = events_of(orders)
    finals = f"final {events[len(events) // 2]}, {events[-1]};\n"
    cases = {"back office": (office, (TOP / "examples/back_office.policy").read_text() + "final pay_transfer, pay_check;\n"),
             "order desk": (orders, order_desk_policy(events) + finals)}
    for name, texts in cases.items():
        begun = time.perf_counter()
        _, told, _ = asked(desk, ["lint"], texts)
        spent = time.perf_counter() - begun
        print(f"{name}: lint, {len(told_findings(told))} found, {spent:.2f} s")
        ROWS.append([f"{name}, lint, seconds", 1, f"{spent:.2f}"])
        if spent > MOST_SECONDS:
            wrong(f"{name}: lint {spent:.2f} s", *texts)


def part_hole(desk):
    status, told, _ = asked(desk, ["alone", "match_diff", "release_1"], (HOLE, HOLE_POLICY))
    answer = json.loads(told)
    if status != 1 or answer.get("answer") != "yes" or not any(entry["label"] == "clarify" for entry in answer["run"]):
        wrong(f"hole: {told}", HOLE, HOLE_POLICY)
    else:
        print(f"hole: {answer['user']} matches, clarifies and releases")


def main():
    parser = argparse.ArgumentParser()
    parser.add_argument("words", nargs="*")
    parser.add_argument("--count", type=int, default=2000)
    parser.add_argument("--seed", type=int, default=1)
    given = parser.parse_args()
    words = given.words
    desk = words.pop(0) if words and pathlib.Path(words[0]).is_file() else str(TOP / "crates/flowdesk/out/flowdesk")
    parts = {"model": lambda: part_model(desk, given.count, given.seed), "times": lambda: part_times(desk), "lint": lambda: part_lint(desk), "hole": lambda: part_hole(desk)}
    for part in words or parts:
        parts[part]()
    if not words:
        keep_results("questions", ["what", "tried", "figure"], ROWS)
    sys.exit(bool(WRONG))


if __name__ == "__main__":
    main()
