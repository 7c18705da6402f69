#!/usr/bin/env python3
"""Texts, sessions and traces in which choices stay folded, or just do not: time and memory of each at the limit of leaves and at half of it.

It needs GNU time (/usr/bin/time). Usage: bench/folded.py [PROGRAM] [WORD ..]   those whose names have one of the words, or all of them
The program is crates/flow/out/flow where none is named. The least time of five calls counts, by turns with `check` of the greatest
generated text; `grows` is the time at the limit over that at half of it.
"""
from generated import text as generated
from measuring import arguments, by_turns, keep_results

MOST_LEAVES = 4096
MOST_LINES = 16384
CASES = {}


def case(function):
    CASES[function.__name__.replace("_", " ")] = function
    return function


def names(letter, count, between, first=0):
    return between.join(f"{letter}{number}" for number in range(first, first + count))


def checked(events, goal, *rules, flows=""):
    return ["check"], f"event {events};{flows} goal {goal};" + "".join(f" constraint {rule};" for rule in rules)


def driven(events, goal, lines, *rules, flows=""):
    _, text = checked(events, goal, *rules, flows=flows)
    return ["drive", "--steps", "65536"], text + "\n%%\n" + "\n".join(lines[:MOST_LINES]) + "\n"


def named_choices(count):
    """So many choices of two events, each with a name: 2 to their number options."""
    return (", ".join(f"x{n}, y{n}" for n in range(count)), " | ".join(f"(x{n} + y{n})" for n in range(count)),
            [f"needs x{n} x{n}" for n in range(count)])


def pairs(count, between):
    """So many choices of two events of which no constraint speaks."""
    return ", ".join(f"a{n}, b{n}" for n in range(count)), between.join(f"(a{n} + b{n})" for n in range(count))


def nested(count):
    """So many choices one in another, by sub-workflows."""
    flows, inner, number = "", "e0", 1
    while number <= count:
        some = range(number, min(number + 150, count + 1))
        for leaf in some:
            inner = f"({inner} + e{leaf})"
        flows += f" flow n{number} = {inner};"
        inner, number = f"n{number}", some[-1] + 1
    return names("e", count + 1, ", "), inner, flows


@case
def a_choice_of_many_sides(leaves):
    return checked(names("e", leaves, ", "), names("e", leaves, " + "))


@case
def a_choice_of_many_named_sides(leaves):
    return checked(names("e", leaves, ", "), names("e", leaves, " + "), *[f"needs e{n} e{n}" for n in range(leaves)])


@case
def choices_beside_one_another(leaves):
    return checked(*pairs(leaves // 2, " | "))


@case
def choices_one_in_another_among_64_options(leaves):
    events, goal, rules = named_choices(6)
    more, inner, flows = nested(leaves - 16)
    return checked(f"{events}, {more}", f"{goal} | {inner}", *rules, flows=flows)


@case
def sixty_four_options_of_many_leaves(leaves):
    events, goal, rules = named_choices(6)
    return checked(f"{events}, {names('e', leaves - 12, ', ')}", f"{goal} | {names('e', leaves - 12, ' | ')}", *rules)


@case
def sixty_four_options_of_isolated_pairs(leaves):
    events, goal, rules = named_choices(6)
    some = " | ".join(f"iso(e{2 * n} | e{2 * n + 1})" for n in range((leaves - 12) // 2))
    return checked(f"{events}, {names('e', leaves - 12, ', ')}", f"{goal} | {some}", *rules)


@case
def thirty_two_options_backwards(leaves):
    events, goal, rules = named_choices(5)
    count = min(leaves - 10, 8000)
    order = " ".join(f"e{n}" for n in reversed(range(count)))
    return checked(f"{events}, {names('e', count, ', ')}", f"{goal} | {names('e', count, ' | ')}", f"order {order}", *rules)


@case
def choices_beside_an_order_backwards(leaves):
    events, goal = pairs(leaves // 4, " | ")
    count = leaves // 2
    order = " ".join(f"e{n}" for n in reversed(range(count)))
    return checked(f"{events}, {names('e', count, ', ')}", f"{goal} | {names('e', count, ' | ')}", f"order {order}")


@case
def many_resolutions_refused_by_bulk(leaves):
    events, goal, rules = named_choices(12)
    count = leaves - 24
    return checked(f"{events}, {names('e', count, ', ')}", f"{goal} | {names('e', count, ' | ')}", *rules)


@case
def one_event_on_all_sides(leaves):
    return checked("a", " + ".join("a" for _ in range(leaves)))


@case
def one_event_on_all_sides_and_once_more(leaves):
    return checked("a", "(" + " + ".join("a" for _ in range(leaves - 1)) + ") * a")


@case
def choices_beside_done_and_gone_back(leaves):
    events, goal, rules = named_choices(6)
    count = leaves // 2 - 6
    more, inner = pairs(count, " | ")
    lines, claim = [], 0
    for _ in range(MOST_LINES):
        claim += 1
        lines += [f"take {12 + 2 * (claim % count)}", f"done {claim}", "rewind"]
    return driven(f"{events}, {more}", f"{goal} | {inner}", lines, *rules)


@case
def choices_beside_looked_at_after_each_change(leaves):
    events, goal, rules = named_choices(6)
    count = leaves // 2 - 6
    more, inner = pairs(count, " | ")
    lines = []
    for claim in range(1, 201):
        lines += [f"take {12 + 2 * (claim % count)}", f"done {claim}", "enabled", "rewind"]
    return driven(f"{events}, {more}", f"{goal} | {inner}", lines, *rules)


@case
def choices_in_series_done_and_gone_back(leaves):
    count = leaves // 2
    events, goal = pairs(count, " * ")
    lines = []
    for number in range(count):
        lines += [f"take {2 * number}", f"done {number + 1}"]
    lines += ["rewind", "enabled"] * MOST_LINES
    return driven(events, goal, lines)


@case
def choices_one_in_another_done_and_gone_back(leaves):
    events, goal, rules = named_choices(6)
    more, inner, flows = nested(leaves // 2)
    lines, claim = [], 0
    for _ in range(MOST_LINES):
        claim += 1
        lines += [f"take {12 + claim % (leaves // 2)}", f"done {claim}", "rewind"]
    return driven(f"{events}, {more}", f"{goal} | {inner}", lines, *rules, flows=flows)


@case
def claims_in_choices_that_all_fail(leaves):
    count = leaves // 2
    events, goal = pairs(count, " | ")
    lines = [f"take {2 * n}" for n in range(count)] + [f"fail {n + 1}" for n in range(count)] + ["enabled"]
    return driven(events, goal, lines)


@case
def a_step_back_that_is_refused(leaves):
    events, goal = pairs(leaves // 2, " * ")
    return driven(events, goal, ["rewind"] * MOST_LINES)


@case
def isolations_one_in_another_done_and_looked_at(leaves):
    events, goal, rules = named_choices(6)
    count, flows, inner, number = leaves // 2, "", "e0", 1
    while number < count:
        some = range(number, min(number + 150, count))
        for leaf in some:
            inner = f"iso({inner} * e{leaf})"
        flows += f" flow o{number} = {inner};"
        inner, number = f"o{number}", some[-1] + 1
    lines = []
    for leaf in range(count):
        lines += [f"take {12 + leaf}", f"done {leaf + 1}", "enabled"]
    return driven(f"{events}, {names('e', count, ', ')}", f"{goal} | {inner}", lines, *rules, flows=flows)


def isolated_pairs(leaves, looks, steps):
    """Isolated pairs side by side over 64 options, whose leaves are done one after another, each looked at so."""
    events, goal, rules = named_choices(6)
    count = (leaves - 12) // 2
    some = " | ".join(f"iso(e{2 * n} | e{2 * n + 1})" for n in range(count))
    lines = []
    for leaf in range(min(2 * count, steps)):
        lines += [f"take {12 + leaf}", f"done {leaf + 1}", *looks]
    return driven(f"{events}, {names('e', 2 * count, ', ')}", f"{goal} | {some}", lines, *rules)


@case
def isolated_pairs_done(leaves):
    return isolated_pairs(leaves, [], leaves)


@case
def isolated_pairs_looked_at_after_each_of_200_steps(leaves):
    return isolated_pairs(leaves, ["enabled"], 200)


@case
def a_claim_that_waits_for_a_choice_of_tests(leaves):
    tests = " + ".join(f"?p{n}" for n in range(leaves - 8))
    return driven("m, x", f"((nop + ({tests})) * m) | x", [f"take {leaves - 8}"] + ["enabled"] * 1000, "needs x x")


def of_choices(leaves, between):
    events, goal, rules = named_choices(6)
    count = leaves // 2 - 6
    more, inner = pairs(count, between)
    _, text = checked(f"{events}, {more}", f"({goal}) * ({inner})", *rules)
    done = [(2 * n, f"x{n}") for n in range(6)] + [(12 + 2 * n + n % 2, f"{'ab'[n % 2]}{n}") for n in range(count)]
    return ["trace"], text + "\n%%\n" + "".join(f"{leaf} {label}\n" for leaf, label in done)


@case
def a_trace_of_choices_beside_over_64_options(leaves):
    return of_choices(leaves, " | ")


@case
def a_trace_of_choices_in_series_over_64_options(leaves):
    return of_choices(leaves, " * ")


def main():
    program, wanted = arguments()
    greatest = generated(3, 128).encode()
    rows = []
    print(f"{'case':<58}{'ms':>9}{'grows':>7}{'times':>8}{'MB':>6}  ends with")
    for name, make in CASES.items():
        if wanted and not any(word in name for word in wanted):
            continue
        (words, whole), (_, half) = make(MOST_LEAVES), make(MOST_LEAVES // 2)
        (base, _, _), = by_turns(program, ["check"], greatest)
        (seconds, peak, last), (less, _, _) = by_turns(program, words, whole.encode(), half.encode())
        rows.append((name, seconds * 1000, seconds / less, seconds / base, peak))
        print(f"{name:<58}{seconds * 1000:>9.1f}{seconds / less:>7.1f}{seconds / base:>8.1f}{peak:>6.0f}  {last[:40]}", flush=True)

    if not wanted:
        keep_results("folded", ["case", "ms", "times half of it", "times", "MB"], rows)


if __name__ == "__main__":
    main()
