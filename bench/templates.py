"""The declarative templates by their meaning over finite lists of events, written by hand: nothing here knows of rules or of the program."""
import itertools


def named_lists(events):
    """All lists of the events that hold each at most once."""
    return [chosen for size in range(len(events) + 1) for chosen in itertools.permutations(events, size)]


def later(events, one, other):
    """Behind each `one` there comes an `other`."""
    return all(other in events[at + 1:] for at, event in enumerate(events) if event == one)


def earlier(events, one, other):
    """Before each `other` there came a `one`."""
    return all(one in events[:at] for at, event in enumerate(events) if event == other)


def next_after(events, one, other):
    """At once behind each `one` comes an `other`."""
    return all(events[at + 1:at + 2] == (other,) for at, event in enumerate(events) if event == one)


def next_before(events, one, other):
    """At once before each `other` came a `one`."""
    return all(at > 0 and events[at - 1] == one for at, event in enumerate(events) if event == other)


def meanwhile(events, one, other):
    """Between each `one` and the next `one` an `other` comes, and behind the last one too."""
    parts, part = [], None
    for event in events:
        if event == one:
            parts.append(part)
            part = []
        elif part is not None:
            part.append(event)
    return all(other in part for part in parts[1:] + ([part] if part is not None else []))


def both_ways(events, *tests):
    return all(test(events, "a", "b") for test in tests)


MEANINGS = {
    "existence(a)": lambda e: "a" in e,
    "absence(a)": lambda e: "a" not in e,
    "exactly1(a)": lambda e: e.count("a") == 1,
    "init(a)": lambda e: e[:1] == ("a",),
    "last(a)": lambda e: e[-1:] == ("a",),
    "responded existence(a, b)": lambda e: "a" not in e or "b" in e,
    "co-existence(a, b)": lambda e: ("a" in e) == ("b" in e),
    "response(a, b)": lambda e: later(e, "a", "b"),
    "precedence(a, b)": lambda e: earlier(e, "a", "b"),
    "succession(a, b)": lambda e: both_ways(e, later, earlier),
    "alternate response(a, b)": lambda e: meanwhile(e, "a", "b"),
    "alternate precedence(a, b)": lambda e: meanwhile(e[::-1], "b", "a"),
    "alternate succession(a, b)": lambda e: meanwhile(e, "a", "b") and meanwhile(e[::-1], "b", "a"),
    "chain response(a, b)": lambda e: next_after(e, "a", "b"),
    "chain precedence(a, b)": lambda e: next_before(e, "a", "b"),
    "chain succession(a, b)": lambda e: both_ways(e, next_after, next_before),
    "not co-existence(a, b)": lambda e: not ("a" in e and "b" in e),
    "not responded existence(a, b)": lambda e: "a" not in e or "b" not in e,
    "not succession(a, b)": lambda e: not any("b" in e[at + 1:] for at, event in enumerate(e) if event == "a"),
    "not chain succession(a, b)": lambda e: not any(pair == ("a", "b") for pair in zip(e, e[1:])),
    "choice(a, b)": lambda e: "a" in e or "b" in e,
    "exclusive choice(a, b)": lambda e: ("a" in e) != ("b" in e),
    "choice 2 of a, b, c": lambda e: sum(x in e for x in "abc") >= 2,
    "response(a, b or c)": lambda e: later(e, "a", "b") or later(e, "a", "c"),
    "precedence(a or b, c)": lambda e: all("a" in e[:at] or "b" in e[:at] for at, event in enumerate(e) if event == "c"),
    "c between a and b": lambda e: all("a" in e[:at] and "b" in e[at + 1:] for at, event in enumerate(e) if event == "c"),
    "precedes a b": lambda e: not ("a" in e and "b" in e) or e.index("a") < e.index("b"),
    "order a b c": lambda e: "".join(x for x in e if x in "abc") == "abc",
}


def holds_by_hand(name, events):
    """Whether a template of that name holds of the list."""
    return MEANINGS[name](tuple(events))
