"""The executions of small workflows by the definitions (docs/DEFINITIONS.md): blocks of the goal, shuffled and joined.

Nothing here knows of options, plans or the program. The grammar is read in full, but a text is taken as one that says something.
"""
import itertools
import re

TOKEN = re.compile(r"(?:\s|#[^\n]*(?:\n|$))*(\w+|[^\s\w])")


class Reader:
    """A text as symbols, read from the left."""

    def __init__(self, text):
        self.symbols, self.at = TOKEN.findall(text), 0

    def has(self, symbol):
        return self.at < len(self.symbols) and self.symbols[self.at] == symbol

    def take(self):
        self.at += 1
        return self.symbols[self.at - 1]

    def members(self, mark, member, kind):
        """`member mark member ..`, joined from the left."""
        whole = member()
        while self.has(mark):
            self.take()
            whole = (kind, whole, member())
        return whole

    def fact(self):
        name, arguments = self.take(), []
        while self.has("(") or self.has(","):
            self.take()
            arguments.append(self.take())
        if arguments:
            self.take()
        return name + (f"({', '.join(arguments)})" if arguments else "")

    def goal(self):
        return self.members("+", self.beside, "choice")

    def beside(self):
        return self.members("|", self.series, "parallel")

    def series(self):
        return self.members("*", self.atom, "sequence")

    def atom(self):
        word = self.take()
        if word in ("(", "iso"):
            if word == "iso":
                self.take()
            inner = self.goal()
            self.take()
            return ("isolated", inner) if word == "iso" else inner
        if word in ("?", "!"):
            return ("label", word + self.fact())
        if word in ("ins", "del"):
            return ("label", f"{word} {self.fact()}")
        return ("nothing",) if word == "nop" else ("name", word)

    def rule(self):
        return self.members("or", self.both, "or")

    def both(self):
        return self.members("and", self.simple, "and")

    def simple(self):
        word = self.take()
        if word == "not":
            return ("not", self.simple())
        if word == "(":
            inner = self.rule()
            self.take()
            return inner
        names = []
        while self.at < len(self.symbols) and re.match(r"(?!and$|or$)\w", self.symbols[self.at]):
            names.append(self.take())
        return (word, *names)


class Workflow:
    """What a text says."""

    def __init__(self, text):
        reader = Reader(text.split("\n%%\n")[0] + "\n")
        self.facts, self.flows, self.constraints, self.labels = [], {}, [], []
        while reader.at < len(reader.symbols):
            self.item(reader)
        self.goal = self.expanded(self.goal)

    def item(self, reader):
        kind = reader.take()
        if kind == "flow":
            name, _ = reader.take(), reader.take()
            self.flows[name] = reader.goal()
        elif kind == "goal":
            self.goal = reader.goal()
        elif kind == "constraint":
            self.constraints.append(reader.rule())
        elif kind == "fact":
            self.facts.append(reader.fact())
            while reader.has(","):
                reader.take()
                self.facts.append(reader.fact())
        while reader.take() != ";":
            pass

    def expanded(self, goal):
        """The goal with its sub-workflows in place, and its leaves by their numbers."""
        kind = goal[0]
        if kind == "name" and goal[1] in self.flows:
            return self.expanded(self.flows[goal[1]])
        if kind in ("name", "label"):
            self.labels.append(goal[1])
            return ("leaf", len(self.labels) - 1)
        return (kind, *(self.expanded(part) for part in goal[1:]))

    def events(self, leaves):
        return tuple(self.labels[leaf] for leaf in leaves if re.fullmatch(r"\w+", self.labels[leaf]))

    def traces(self, left_out=None):
        """The lists of leaves that the goal allows, and that meet the constraints (but one that is left out)."""
        for blocks in blocks_of(self.goal):
            leaves = tuple(itertools.chain(*blocks))
            kept = (rule for number, rule in enumerate(self.constraints) if number != left_out)
            if all(meets(rule, self.events(leaves)) for rule in kept):
                yield leaves

    def runs(self, leaves):
        """Whether each test holds when its turn comes."""
        facts = set(self.facts)
        for label in (self.labels[leaf] for leaf in leaves):
            if label[0] in "?!" and (label[1:] in facts) != (label[0] == "?"):
                return False
            if label.startswith("ins "):
                facts.add(label[4:])
            facts -= {label[4:]} if label.startswith("del ") else set()
        return True

    def executions(self):
        """The executions, as lists of events."""
        return {self.events(leaves) for leaves in self.traces() if self.runs(leaves)}

    def against(self, query):
        """Traces that a question of `verify` is answered by, where it does not hold: as their labels."""
        reader = Reader(query)
        if reader.take() == "holds":
            rule, left_out = reader.rule(), None
        else:
            left_out = int(reader.take())
            rule = self.constraints[left_out]
        bad = (leaves for leaves in self.traces(left_out) if not meets(rule, self.events(leaves)))
        return {", ".join(self.labels[leaf] for leaf in leaves) or "nothing" for leaves in bad}


def shuffled(one, other):
    """All ways to interleave two lists."""
    if not one or not other:
        return [one + other]
    return [one[:1] + rest for rest in shuffled(one[1:], other)] + [other[:1] + rest for rest in shuffled(one, other[1:])]


def blocks_of(goal):
    """The lists of blocks of a goal; a block is a list of leaves with nothing between them."""
    kind, *parts = goal
    if kind == "nothing":
        return {()}
    if kind == "leaf":
        return {((parts[0],),)}
    inner = [blocks_of(part) for part in parts]
    if kind == "choice":
        return inner[0] | inner[1]
    if kind == "isolated":
        return {(tuple(itertools.chain(*blocks)),) if blocks else () for blocks in inner[0]}
    if kind == "sequence":
        return {one + other for one in inner[0] for other in inner[1]}
    return {whole for one in inner[0] for other in inner[1] for whole in shuffled(one, other)}


def meets(rule, events):
    """Whether a list of events meets a rule."""
    kind, *parts = rule
    if kind == "not":
        return not meets(parts[0], events)
    if kind == "and":
        return all(meets(part, events) for part in parts)
    if kind == "or":
        return any(meets(part, events) for part in parts)
    happen = [name in events for name in parts]
    if kind in ("must", "never"):
        return happen[0] == (kind == "must")
    if kind == "needs":
        return happen[1] or not happen[0]
    if kind == "precedes" and not all(happen):
        return True
    return all(happen) and all(events.index(one) < events.index(other) for one, other in zip(parts, parts[1:]))
