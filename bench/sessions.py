#!/usr/bin/env python3
"""Long sessions: time and memory of `flow drive` on each, and on the longest history that can be asked for.

Usage: bench/sessions.py [PROGRAM] [WORD ..]   the sessions whose names have one of the words, or all of them
"""
from measuring import TOP, arguments, keep_results, measured
from worst import named, names

MOST_LINES = 16_384
SESSIONS = {}


def session(function):
    SESSIONS[function.__name__.replace("_", " ")] = function
    return function


def driven(workflow, lines, words=()):
    """The words of the call and its input: the workflow, and as many of the lines as a session may have."""
    lines = list(lines)[:MOST_LINES]
    return ["drive", *words], f"{workflow}\n%%\n" + "\n".join(lines) + "\n"


def order_desk():
    return (TOP / "examples/order_desk.flow").read_text()


def of_each(count, between):
    return f"event {names('e', count, ', ')}; goal {names('e', count, between)};"


@session
def the_order_desk_looked_at():
    return driven(order_desk(), ["enabled", "next"] * (MOST_LINES // 2))


@session
def the_order_desk_failing_at_its_first_event():
    lines = []
    for claim in range(1, MOST_LINES // 2 + 1):
        lines += ["take 0", f"fail {claim}"]
    return driven(order_desk(), lines)


@session
def a_thousand_beside_taken_and_failed_all_together():
    lines, given = [], 0
    while len(lines) < MOST_LINES:
        lines += [f"take {leaf}" for leaf in range(1024)] + [f"fail {given + leaf + 1}" for leaf in range(1024)]
        given += 1024
    return driven(of_each(1024, " | "), lines)


@session
def a_thousand_beside_done_and_looked_at():
    lines = [f"take {leaf}" for leaf in range(1024)] + [f"done {leaf + 1}" for leaf in range(1024)]
    return driven(of_each(1024, " | "), lines + ["next", "enabled"] * MOST_LINES)


@session
def a_thousand_beside_looked_at():
    return driven(of_each(1024, " | "), ["next", "enabled"] * MOST_LINES)


@session
def a_thousand_alternatives_that_fail():
    lines = []
    for claim in range(1, MOST_LINES // 2 + 1):
        lines += [f"take {min(claim - 1, 1023)}", f"fail {claim}"]
    return driven(of_each(1024, " + "), lines)


@session
def a_thousand_alternatives_that_fail_looked_at():
    lines = []
    for claim in range(1, MOST_LINES // 4 + 1):
        lines += [f"take {min(claim - 1, 1023)}", f"fail {claim}", "next", "enabled"]
    return driven(of_each(1024, " + "), lines)


@session
def a_thousand_named_alternatives_that_fail_looked_at():
    lines = []
    for claim in range(1, MOST_LINES // 4 + 1):
        lines += [f"take {min(claim - 1, 1023)}", f"fail {claim}", "next", "enabled"]
    rules = "".join(f" constraint needs e{leaf} e{leaf};" for leaf in range(1024))
    return driven(of_each(1024, " + ") + rules, lines)


@session
def a_thousand_beside_in_the_longest_history():
    lines = [f"take {leaf}" for leaf in range(1024)] + [f"done {leaf + 1}" for leaf in range(1024)] + ["commit"]
    return driven(of_each(1024, " | "), lines, ["--steps", "1000000"])


def many_options(between):
    """4,096 options of 64 leaves: twelve choices of two, each with an event that is named, beside 52 events that all options have, from leaf 24 on."""
    choices = " | ".join(f"(a{i} + b{i})" for i in range(12))
    return f"event {names('a', 12, ', ')}, {names('b', 12, ', ')}, {names('x', 52, ', ')}; goal {choices} | ({names('x', 52, between)});{named(12)}"


def taken_and_failed(leaf, looks, claims=()):
    """Claims on some leaves, and then one after another on that leaf, each of which fails; looked at after each line."""
    lines = [f"take {claim}" for claim in claims]
    for claim in range(len(lines) + 1, MOST_LINES // 4 + 1):
        lines += [f"take {leaf}", looks[0], f"fail {claim}", looks[1]]
    return lines


@session
def four_thousand_options_changed_and_looked_at():
    return driven(many_options(" * "), taken_and_failed(24, ("enabled", "next")))


@session
def four_thousand_options_beside_changed_and_looked_at():
    return driven(many_options(" | "), taken_and_failed(24, ("enabled", "enabled")))


@session
def four_thousand_options_with_thirty_claims_out():
    return driven(many_options(" | "), taken_and_failed(54, ("enabled", "next"), range(24, 54)))


@session
def four_thousand_options_refused():
    return driven(many_options(" * "), ["take 75"] * MOST_LINES)


@session
def a_thousand_alternatives_that_fail_once_looked_at():
    lines = []
    for leaf in range(1024):
        lines += [f"take {leaf}", f"fail {leaf + 1}", "next"]
    return driven(of_each(1024, " + "), lines)


@session
def a_thousand_beside_taken_done_and_looked_at():
    lines = []
    for leaf in range(1024):
        lines += [f"take {leaf}", "enabled"]
    for leaf in range(1024):
        lines += [f"done {leaf + 1}", "enabled"]
    return driven(of_each(1024, " | "), lines)


def main():
    program, wanted = arguments()
    rows = []
    print(f"{'session':<58}{'ms':>8}{'MB':>6}  ends with")
    for name, make in SESSIONS.items():
        if wanted and not any(word in name for word in wanted):
            continue
        words, source = make()
        seconds, peak, last = measured(program, words, source.encode())
        rows.append((name, seconds * 1000, peak))
        print(f"{name:<58}{seconds * 1000:>8.0f}{peak:>6.0f}  {last[:40]}", flush=True)

    if not wanted:
        keep_results("sessions", ["session", "ms", "MB"], rows)


if __name__ == "__main__":
    main()
