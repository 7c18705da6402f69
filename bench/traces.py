#!/usr/bin/env python3
"""Long journals: time and memory of `flow trace` on whole executions, at the corners of what the limits allow.

Usage: bench/traces.py [PROGRAM] [WORD ..]   the traces whose names have one of the words, or all of them
"""
from measuring import arguments, keep_results, measured
from worst import choice_events, choices, named, names

TRACES = {}


def trace(function):
    TRACES[function.__name__.replace("_", " ")] = function
    return function


def journal(labels):
    """The lines of a journal, of leaves with their labels."""
    return "".join(f"{leaf} {label}\n" for leaf, label in labels)


def of_choices(count, rest, between, last=False):
    """So many choices of two events each, beside so many other events; the first of each choice is taken, or the last."""
    taken = [(2 * place + last, f"{'ab'[last]}{place}") for place in range(count)]
    others = [(2 * count + place, f"e{place}") for place in range(rest)]
    text = f"event {choice_events(count)}, {names('e', rest, ', ')}; goal {choices(count)} | {names('e', rest, between)};{named(count)}"
    return f"{text}\n%%\n{journal(others + taken)}"


@trace
def a_thousand_leaves_in_series():
    return f"event {names('e', 1024, ', ')}; goal {names('e', 1024, ' * ')};\n%%\n" + journal((n, f"e{n}") for n in range(1024))


@trace
def a_thousand_leaves_over_256_options():
    return of_choices(8, 1008, " * ")


@trace
def sixty_four_leaves_over_4_096_options():
    return of_choices(12, 52, " * ")


@trace
def a_thousand_leaves_by_the_last_of_256_options():
    return of_choices(8, 1008, " * ", True)


@trace
def sixty_four_leaves_by_the_last_of_4_096_options():
    return of_choices(12, 52, " * ", True)


@trace
def sixty_four_leaves_beside_over_4_096_options():
    return of_choices(12, 52, " | ")


@trace
def twenty_six_isolated_pairs_over_4_096_options():
    pairs = " | ".join(f"iso(e{2 * pair} * e{2 * pair + 1})" for pair in range(26))
    lines = journal([(24 + place, f"e{place}") for place in range(52)] + [(2 * place, f"a{place}") for place in range(12)])
    return f"event {choice_events(12)}, {names('e', 52, ', ')}; goal {choices(12)} | {pairs};{named(12)}\n%%\n{lines}"


def main():
    program, wanted = arguments()
    rows = []
    print(f"{'trace':<58}{'ms':>8}{'MB':>6}  ends with")
    for name, make in TRACES.items():
        if wanted and not any(word in name for word in wanted):
            continue
        seconds, peak, last = measured(program, ["trace"], make().encode())
        rows.append((name, seconds * 1000, peak))
        print(f"{name:<58}{seconds * 1000:>8.0f}{peak:>6.0f}  {last[:40]}", flush=True)

    if not wanted:
        keep_results("traces", ["trace", "ms", "MB"], rows)


if __name__ == "__main__":
    main()
