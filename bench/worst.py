#!/usr/bin/env python3
"""The worst texts within the limits: time and memory of `flow check` on each, beside those of the greatest generated text.

It needs GNU time (/usr/bin/time) and cc. Usage: bench/worst.py [PROGRAM] [WORD ..]   the texts whose names have one of the words, or all of them
The program is crates/flow/out/flow where none is named (`./prove` and the gate make it). Each text is checked five times,
by turns with the generated text of seed 3 and size 128, and the least time of each counts.
"""
import pathlib
import random
import subprocess
import tempfile

from generated import text as generated
from measuring import TOP, arguments, by_turns, keep_results, measured

GREATEST_INPUT = 1_048_576
TEXTS = {}


def text(function):
    TEXTS[function.__name__.replace("_", " ")] = function
    return function


def names(letter, count, between):
    return between.join(f"{letter}{number}" for number in range(count))


def as_many(head, member, between, tail):
    """As many members as fit between head and tail, each made of its number."""
    room, members = GREATEST_INPUT - len(head) - len(tail), []
    while room > 0:
        members.append(member(len(members)))
        room -= len(members[-1]) + len(between)
    return head + between.join(members[:-1]) + tail


def in_no_order(head, member, tail):
    """As many members as fit, each made of its number, in an order that tells nothing."""
    members = as_many("", member, ", ", " " * (len(head) + len(tail))).rstrip(" ").split(", ")
    random.Random(1).shuffle(members)
    return head + ", ".join(members) + tail


def row(goal_between, count=1024):
    return f"event {names('e', count, ', ')}; goal {names('e', count, goal_between)};"


def filled(head, piece, tail):
    """As many pieces as fit between head and tail."""
    room = GREATEST_INPUT - len(head) - len(tail)
    return head + piece * (room // len(piece)) + tail


# --- the reading of a text

@text
def blanks():
    return filled("", " ", "goal nop;")


@text
def one_comment():
    return filled("# ", "x", "\ngoal nop;")


@text
def one_name():
    return filled("event e", "x", "; goal nop;")


@text
def one_name_in_a_goal_twice():
    name = "e" + "x" * (GREATEST_INPUT // 2 - 40)
    return f"event {name}; goal {name};"


@text
def many_events():
    return as_many("event ", lambda n: f"e{n}", ", ", "; goal nop;")


@text
def many_facts():
    return as_many("fact ", lambda n: f"p{n}", ", ", "; goal nop;")


@text
def many_facts_with_one_argument():
    return as_many("fact ", lambda n: f"p({n})", ", ", "; goal nop;")


@text
def events_in_no_order():
    return in_no_order("event ", lambda n: f"e{n}", "; goal nop;")


@text
def long_events_in_no_order():
    return in_no_order("event ", lambda n: f"{'x' * 16}{n}", "; goal nop;")


def colliding(count):
    """Names that fall together in a table whose hash has no key: colliding.c, built by cc, finds them by trial."""
    with tempfile.TemporaryDirectory() as folder:
        program = pathlib.Path(folder) / "colliding"
        subprocess.run(["cc", "-O2", "-o", program, TOP / "bench/colliding.c"], check=True)
        return subprocess.run([program, str(count)], capture_output=True, check=True, text=True).stdout.split()


@text
def events_that_fall_together_without_a_key():
    return f"event {','.join(colliding(174_000))};goal nop;"


@text
def facts_that_fall_together_without_a_key():
    return f"fact {','.join(colliding(174_000))};goal nop;"


@text
def facts_in_no_order():
    return in_no_order("fact ", lambda n: f"p({n})", "; goal nop;")


@text
def facts_with_words_in_no_order():
    return in_no_order("fact ", lambda n: f"p(a{n})", "; goal nop;")


@text
def facts_in_leaves():
    leaves = " * ".join(f"?p({n})" for n in range(1024))
    return as_many("fact ", lambda n: f"p({n})", ", ", f"; goal {leaves};")


@text
def one_fact_with_many_arguments():
    half = ",".join("a" for _ in range(260_000))
    return f"fact p({half}); goal ?p({half});"


@text
def long_facts_alike():
    args = "a," * 200
    return f"goal {' * '.join(f'?p({args}{number})' for number in range(1024))};"


@text
def long_names_alike():
    stem = "x" * 480
    events = ", ".join(f"{stem}{number}" for number in range(1024))
    goal = " * ".join(f"{stem}{number}" for number in range(1024))
    return f"event {events}; goal {goal};"


@text
def names_of_one_length():
    return as_many("event ", lambda n: f"a{n:07}z", ", ", "; goal nop;")


@text
def parentheses():
    deep = "(" * 200 + "nop" + ")" * 200
    return f"goal {' * '.join(deep for _ in range(1024))};"


@text
def inside_199_parentheses():
    inner = " * ".join("nop" for _ in range(1000))
    return "goal " + "(" * 199 + inner + ")" * 199 + ";"


@text
def long_lists_deep_in_sub_workflows():
    flows = []
    for number in range(250):
        inner = " * ".join("nop" for _ in range(600))
        flows.append(f"flow f{number} = " + "(" * 199 + inner + ")" * 199 + ";")
    return " ".join(flows) + " goal nop;"


@text
def a_refusal_at_the_end():
    return filled("event e; goal nop; ", "constraint must e; ", "x")


@text
def repeated_at_the_end():
    return as_many("event ", lambda n: f"e{n}", ", ", ", e9; goal nop;")


@text
def unknown_at_the_end():
    return as_many("event ", lambda n: f"e{n}", ", ", "; goal z;")


# --- sub-workflows

@text
def sub_workflows_in_reverse():
    flows = [f"flow f{number} = f{number + 1} * nop;" for number in range(255)]
    return "event a; " + " ".join(flows) + " flow f255 = a; goal f0;"


@text
def sub_workflows_that_double():
    flows = " ".join(f"flow f{number + 1} = f{number} * f{number};" for number in range(255))
    return f"event a; flow f0 = a; {flows} goal f255;"


@text
def sub_workflows_that_name_all_others():
    flows = []
    for number in range(256):
        others = " * ".join(f"f{other}" for other in range(number + 1, 256)) or "nop"
        flows.append(f"flow f{number} = nop + {others};")
    return " ".join(flows) + " goal f0;"


@text
def sub_workflows_with_long_goals():
    flows = []
    for number in range(256):
        follower = f"f{number + 1}" if number < 255 else "nop"
        flows.append(f"flow f{number} = {' * '.join(follower for _ in range(500))};")
    return " ".join(flows) + " goal nop;"


@text
def a_ring_at_the_end():
    flows = [f"flow f{number} = {' * '.join(f'f{number + 1}' for _ in range(500))};" for number in range(255)]
    return " ".join(flows) + " flow f255 = f0; goal nop;"


# --- goals

@text
def leaves_in_series():
    return row(" * ")


@text
def leaves_beside():
    return row(" | ")


@text
def leaves_in_choice():
    return row(" + ")


@text
def leaves_in_choice_each_named():
    return row(" + ") + "".join(f" constraint needs e{leaf} e{leaf};" for leaf in range(1024))


def isolated(inner, count):
    """The goal in so many isolations, by sub-workflows of at most 190."""
    flows, name, left = [], inner, count
    while left > 0:
        some = min(left, 190)
        flows.append(f"flow i{len(flows)} = " + "iso(" * some + name + ")" * some + ";")
        name = f"i{len(flows) - 1}"
        left -= some
    return " ".join(flows), name


@text
def isolations_of_one_leaf():
    flows, name = isolated("a", 1024)
    return f"event a; {flows} goal {name};"


def onion(count, flip=False):
    """iso(iso(e0 * e1) * e2) .., by sub-workflows of at most 150 layers."""
    flows, inner, number = [], "e0", 1
    while number < count:
        some = min(count - number, 150)
        layers = inner
        for layer in range(number, number + some):
            layers = f"iso(e{layer} | {layers})" if flip else f"iso({layers} * e{layer})"
        flows.append(f"flow o{len(flows)} = {layers};")
        inner = f"o{len(flows) - 1}"
        number += some
    return " ".join(flows), inner


@text
def isolations_one_in_another():
    flows, name = onion(1024)
    return f"event {names('e', 1024, ', ')}; {flows} goal {name};"


@text
def isolations_one_in_another_beside():
    flows, name = onion(1024, True)
    return f"event {names('e', 1024, ', ')}; {flows} goal {name};"


@text
def isolations_one_in_another_backwards():
    flows, name = onion(1024, True)
    order = " ".join(f"e{number}" for number in reversed(range(1024)))
    return f"event {names('e', 1024, ', ')}; {flows} goal {name}; constraint order {order};"


@text
def many_isolated_pairs():
    pairs = " | ".join(f"iso(e{2 * pair} | e{2 * pair + 1})" for pair in range(512))
    return f"event {names('e', 1024, ', ')}; goal {pairs};"


@text
def many_isolated_pairs_backwards():
    pairs = " | ".join(f"iso(e{2 * pair} | e{2 * pair + 1})" for pair in range(512))
    order = " ".join(f"e{number}" for number in reversed(range(1024)))
    return f"event {names('e', 1024, ', ')}; goal {pairs}; constraint order {order};"


@text
def free_leaves_beside_an_isolated_chain_backwards():
    part = " | ".join(f"p{number}" for number in range(512))
    order = " ".join(f"p{number}" for number in reversed(range(512)))
    return (f"event {names('e', 512, ', ')}, {names('p', 512, ', ')}; goal iso({part}) | {names('e', 512, ' | ')};"
            f" constraint order {order};")


@text
def sequences_deep_on_the_right():
    flows, inner, number = [], "e1023", 1022
    while number >= 0:
        some = range(max(number - 149, 0), number + 1)
        goal = inner
        for leaf in reversed(some):
            goal = f"e{leaf} * ({goal})"
        flows.append(f"flow r{len(flows)} = {goal};")
        inner = f"r{len(flows) - 1}"
        number = some[0] - 1
    return f"event {names('e', 1024, ', ')}; {' '.join(flows)} goal {inner};"


@text
def one_event_in_every_choice():
    return f"event a; goal {' + '.join('a' for _ in range(1024))};"


@text
def two_events_in_every_choice():
    return f"event a, b; goal ({' + '.join('a' for _ in range(32))}) * ({' + '.join('b' for _ in range(32))});"


@text
def an_event_twice_at_the_end():
    return f"event {names('e', 1023, ', ')}; goal {names('e', 1023, ' | ')} | e1022;"


# --- constraints

@text
def an_order_backwards():
    order = " ".join(f"e{number}" for number in reversed(range(1024)))
    return row(" | ") + f" constraint order {order};"


@text
def orders_of_8_192_names():
    order = " ".join(f"e{number}" for number in range(1024))
    return row(" | ") + f" constraint order {order};" * 8


@text
def constraints_that_ask_for_nothing():
    return row(" | ") + "".join(f" constraint must e{number % 1024};" for number in range(8192))


@text
def ors_that_ask_for_nothing():
    ors = "".join(f" constraint must e{2 * n % 1024} or must e{(2 * n + 1) % 1024};" for n in range(4096))
    return row(" | ") + ors


@text
def one_and_of_8_192():
    return row(" | ") + " constraint " + " and ".join(f"must e{number % 1024}" for number in range(8192)) + ";"


@text
def one_or_of_8_192_that_cannot_be_met():
    return row(" | ") + " constraint " + " or ".join(f"never e{number % 1024}" for number in range(8192)) + ";"


@text
def one_or_of_4_096_orders():
    ors = " or ".join(f"order e{n % 60} e{(n + 1 + n // 60) % 60 if (n + 1 + n // 60) % 60 != n % 60 else 61}" for n in range(4000))
    return f"event {names('e', 62, ', ')}; goal {names('e', 62, ' | ')}; constraint {ors};"


@text
def constraints_nested_200_deep():
    inner = "must e0"
    for depth in range(100):
        inner = f"not (must e{depth} and {inner})"
    return row(" | ") + f" constraint {inner};" * 80


@text
def thirty_either_orders_that_cannot_be_met():
    pairs = "".join(f" constraint order a{n} b{n} or order b{n} a{n};" for n in range(30))
    return (f"event z, {names('a', 30, ', ')}, {names('b', 30, ', ')}; goal {names('a', 30, ' | ')} | {names('b', 30, ' | ')};"
            f"{pairs} constraint must z;")


# --- choices

def choices(count):
    return " | ".join(f"(a{number} + b{number})" for number in range(count))


def choice_events(count):
    return f"{names('a', count, ', ')}, {names('b', count, ', ')}"


def named(count):
    """A constraint that asks for nothing and names an event of each choice, so that none of them is folded."""
    return "".join(f" constraint needs a{number} a{number};" for number in range(count))


@text
def twelve_choices():
    return f"event {choice_events(12)}; goal {choices(12)};{named(12)}"


@text
def twelve_choices_beside_a_thousand_nothings():
    return f"event {choice_events(12)}; goal {choices(12)} | {' * '.join('nop' for _ in range(1000))};{named(12)}"


@text
def seven_choices_beside_an_order_of_a_thousand_backwards():
    order = " ".join(f"e{number}" for number in reversed(range(1000)))
    return f"event {choice_events(7)}, {names('e', 1000, ', ')}; goal {choices(7)} | {names('e', 1000, ' | ')}; constraint order {order};{named(7)}"


@text
def twelve_choices_and_a_thousand_nothings_side_by_side():
    return f"event {choice_events(12)}; goal {choices(12)} | {' | '.join('nop' for _ in range(1000))};{named(12)}"


@text
def twelve_choices_and_a_thousand_isolated_nothings_side_by_side():
    return f"event {choice_events(12)}; goal {choices(12)} | {' | '.join('iso(nop)' for _ in range(1000))};{named(12)}"


@text
def twelve_choices_each_after_isolated_nothings_side_by_side():
    some = " | ".join("iso(nop)" for _ in range(83))
    goal = " | ".join(f"{some} | (a{number} + b{number})" for number in range(12))
    return f"event {choice_events(12)}; goal {goal};{named(12)}"


@text
def eleven_choices_beside_a_series_and_isolated_nothings():
    some = " | ".join("iso(nop)" for _ in range(880))
    return f"event {choice_events(11)}, {names('x', 110, ', ')}; goal {choices(11)} | ({names('x', 110, ' * ')}) | {some};{named(11)}"


@text
def eleven_choices_after_isolated_nothings():
    some = " | ".join("iso(nop)" for _ in range(880))
    return f"event {choice_events(11)}, {names('x', 110, ', ')}; goal {some} | {choices(11)} | ({names('x', 110, ' * ')});{named(11)}"


@text
def twelve_choices_beside_52_leaves():
    return f"event {choice_events(12)}, {names('e', 52, ', ')}; goal {choices(12)} | {names('e', 52, ' * ')};{named(12)}"


@text
def twelve_choices_beside_52_isolations():
    flows, name = onion(52)
    return f"event {choice_events(12)}, {names('e', 52, ', ')}; {flows} goal {choices(12)} | {name};{named(12)}"


@text
def twelve_choices_in_isolations():
    goal = "a0 + b0"
    for number in range(1, 12):
        goal = f"iso({goal}) * (a{number} + b{number})"
    for number in range(52):
        goal = f"iso({goal} * e{number})"
    return f"event {choice_events(12)}, {names('e', 52, ', ')}; goal {goal};{named(12)}"


@text
def twelve_choices_and_8_192_names_that_ask_for_nothing():
    rules = "".join(f" constraint must e{number % 52};" for number in range(8168)) + named(12)
    return f"event {choice_events(12)}, {names('e', 52, ', ')}; goal {choices(12)} | {names('e', 52, ' * ')};{rules}"


@text
def twelve_choices_and_4_096_ors_that_ask_for_nothing():
    rules = "".join(f" constraint never a{n % 12} or must a{n % 12};" for n in range(4096))
    return f"event {choice_events(12)}, {names('e', 52, ', ')}; goal {choices(12)} | {names('e', 52, ' * ')};{rules}"


@text
def twelve_choices_and_4_096_ors_on_their_sides_with_one_order():
    rules = "".join(f" constraint must a{n % 12} or must b{n % 12};" for n in range(4095))
    return (f"event {choice_events(12)}, {names('e', 52, ', ')}; goal {choices(12)} | {names('e', 52, ' * ')};"
            f"{rules} constraint order e0 e1;")


@text
def twelve_choices_and_2_048_orders_that_need_not_be_kept():
    rules = "".join(f" constraint order e{n % 51 + 1} e{n % 51} or must b{n % 12} or must a{n % 12};" for n in range(2048))
    return f"event {choice_events(12)}, {names('e', 52, ', ')}; goal {choices(12)} | {names('e', 52, ' * ')};{rules}"


@text
def twelve_choices_and_2_047_orders_that_need_not_be_kept_beside_one_that_is():
    rules = "".join(f" constraint order e{n % 50 + 1} e{n % 50} or must b{n % 12} or must a{n % 12};" for n in range(2047))
    return f"event {choice_events(12)}, {names('e', 51, ', ')}; goal {choices(12)} | {names('e', 51, ' * ')};{rules} constraint order e0 e1;"


@text
def twelve_choices_and_1_365_ors_of_two_orders_that_need_not_be_kept():
    rules = "".join(f" constraint order e{n % 51 + 1} e{n % 51} or order e{n % 51} e{n % 51 + 1} or must b{n % 12} or must a{n % 12};" for n in range(1365))
    return f"event {choice_events(12)}, {names('e', 52, ', ')}; goal {choices(12)} | {names('e', 52, ' * ')};{rules}"


@text
def twelve_choices_and_1_170_orders_each_kept_by_one_resolution_in_32():
    rules = "".join(
        f" constraint order e{n % 7} e{n % 7 + 1} or {' or '.join(f'must a{(n + side) % 12}' for side in range(5))};" for n in range(1170))
    return f"event {choice_events(12)}, {names('e', 8, ', ')}; goal {choices(12)} | {names('e', 8, ' * ')};{rules}"


def nested(leaf, order):
    """An order inside 95 `or`s and 95 `and`s that none of them decides, by the names that the numbers have."""
    return nested_in(lambda level: f"never {leaf(level)}", lambda level: f"must {leaf(level + 1)}", order)


def nested_in(either, both, order):
    """An order inside 95 `or`s and 95 `and`s with the sides that the numbers have."""
    inner = order
    for level in range(95):
        inner = f"({either(level)} or ({both(level)} and {inner}))"
    return inner


@text
def twelve_choices_and_42_orders_inside_190_ands_and_ors():
    rules = "".join(f" constraint {nested(lambda level, rule=rule: f'e{(rule + level) % 9}', f'order e{rule % 8} e{rule % 8 + 1}')};"
                    for rule in range(42))
    return f"event {choice_events(12)}, {names('e', 9, ', ')}; goal {choices(12)} | {names('e', 9, ' * ')};{rules}{named(12)}"


@text
def twelve_choices_and_42_orders_inside_190_ands_and_ors_of_a_side():
    rules = "".join(f" constraint {nested(lambda level, rule=rule: f'a{rule % 12}', f'order e{rule % 8} e{rule % 8 + 1}')};" for rule in range(42))
    return f"event {choice_events(12)}, {names('e', 9, ', ')}; goal {choices(12)} | {names('e', 9, ' * ')};{rules}"


@text
def twelve_choices_and_21_orders_inside_190_ands_and_ors_of_both_sides():
    def rule(number):
        side = f"a{number % 12}"
        return nested_in(lambda level: f"(never {side} and must {side})", lambda level: f"(never {side} or must {side})",
                         f"order e{number % 8} e{number % 8 + 1}")

    rules = "".join(f" constraint {rule(number)};" for number in range(21))
    return f"event {choice_events(12)}, {names('e', 9, ', ')}; goal {choices(12)} | {names('e', 9, ' * ')};{rules}"


@text
def twelve_choices_and_a_side_asked_for_8_191_times():
    rules = " constraint must a0;" * 8166 + " constraint order e0 e1;" + named(12)
    return f"event {choice_events(12)}, {names('e', 52, ', ')}; goal {choices(12)} | {names('e', 52, ' * ')};{rules}"


@text
def twelve_choices_and_constraints_that_cannot_be_met():
    rules = "".join(f" constraint must e{number % 52};" for number in range(8167)) + named(12)
    return f"event z, {choice_events(12)}, {names('e', 52, ', ')}; goal {choices(12)} | {names('e', 52, ' * ')};{rules} constraint must z;"


@text
def choices_of_1_024_sides_and_constraints():
    rules = "".join(f" constraint never e{n % 1024} or must e{n % 1024};" for n in range(4096))
    return row(" + ") + rules


@text
def twelve_either_orders():
    pairs = "".join(f" constraint order a{n} b{n} or order b{n} a{n};" for n in range(12))
    return (f"event {choice_events(12)}, {names('e', 28, ', ')}; goal {names('a', 12, ' | ')} | {names('b', 12, ' | ')} | {names('e', 28, ' | ')};{pairs}")


@text
def options_refused():
    pairs = "".join(f" constraint order a{n} b{n} or order b{n} a{n};" for n in range(13))
    return f"event {choice_events(13)}; goal {names('a', 13, ' | ')} | {names('b', 13, ' | ')};{pairs}"


@text
def options_refused_after_4_096_resolutions():
    rules = "".join(f" constraint never e{n % 52} or order e{n % 51} e{n % 51 + 1} or order e{n % 51 + 1} e{n % 51};" for n in range(1600))
    return f"event {choice_events(12)}, {names('e', 52, ', ')}; goal {choices(12)} | {names('e', 52, ' | ')};{rules}{named(12)}"


@text
def bulk_refused_after_4_096_resolutions():
    return f"event {choice_events(12)}, {names('e', 1000, ', ')}; goal {choices(12)} | {names('e', 1000, ' | ')};{named(12)}"


@text
def choices_refused():
    return f"event {choice_events(512)}; goal {choices(512)};{named(512)}"


# --- what has no execution

@text
def an_order_against_a_sequence():
    order = " ".join(f"e{number}" for number in reversed(range(1024)))
    return row(" * ") + f" constraint order {order};"


@text
def one_order_against_a_sequence():
    return row(" * ") + " constraint order e1023 e0;"


@text
def a_ring_of_all_leaves():
    order = " ".join(f"e{number}" for number in range(1024))
    return row(" | ") + f" constraint order {order}; constraint order e1023 e0;"


@text
def a_ring_through_isolated_pairs():
    pairs = " | ".join(f"iso(e{2 * pair} | e{2 * pair + 1})" for pair in range(512))
    rules = "".join(f" constraint order e{2 * pair} e{(2 * pair + 2) % 1024};" for pair in range(512))
    return f"event {names('e', 1024, ', ')}; goal {pairs};{rules}"


@text
def a_ring_in_the_innermost_isolation():
    flows, name = onion(1022)
    return (f"event a, b, {names('e', 1022, ', ')}; {flows.replace('e0 ', 'iso(a * b) * e0 ', 1)} goal {name};"
            f" constraint order b a;")


@text
def dropped_options_of_64_leaves():
    return (f"event {choice_events(12)}, {names('e', 52, ', ')}; goal {choices(12)} | {names('e', 52, ' * ')};"
            f" constraint order e51 e0;")


@text
def dropped_options_through_isolations():
    flows, name = onion(50)
    return (f"event {choice_events(12)}, {names('e', 50, ', ')}, a, b; {flows} goal {choices(12)} | iso(a * b) | {name};"
            f" constraint order a e0; constraint order e49 b;")


@text
def dropped_in_the_innermost_isolation():
    flows, name = onion(50)
    return (f"event {choice_events(12)}, {names('e', 50, ', ')}, a, b; {flows.replace('e0 ', 'iso(a * b) * e0 ', 1)}"
            f" goal {choices(12)} | {name}; constraint order b a;")


def main():
    program, wanted = arguments()
    greatest = generated(3, 128).encode()
    base, base_peak, _ = measured(program, ["check"], greatest)
    print(f"the greatest generated text: {base * 1000:.0f} ms, {base_peak:.0f} MB")
    print(f"{'text':<58}{'bytes':>9}{'ms':>8}{'times':>7}{'MB':>6}  ends with")
    worst, most, rows = 0, 0, [("the greatest generated text", base * 1000, 1, base_peak)]
    for name, make in TEXTS.items():
        if wanted and not any(word in name for word in wanted):
            continue
        source = make().encode()
        assert len(source) <= GREATEST_INPUT, name
        (base, _, _), (seconds, peak, last) = by_turns(program, ["check"], greatest, source)
        worst, most = max(worst, seconds / base), max(most, peak)
        rows.append((name, seconds * 1000, seconds / base, peak))
        print(f"{name:<58}{len(source):>9}{seconds * 1000:>8.0f}{seconds / base:>7.1f}{peak:>6.0f}  {last[:40]}", flush=True)
    print(f"at most {worst:.1f} times the generated text, and {most:.0f} MB")
    if not wanted:
        keep_results("worst", ["text", "ms", "times", "MB"], rows)


if __name__ == "__main__":
    main()
