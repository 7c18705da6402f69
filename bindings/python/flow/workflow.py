"""A workflow, and what can be asked of it without a run."""
from __future__ import annotations

import re
from dataclasses import dataclass, field
from functools import cached_property

from .library import USUAL_STEPS, Mode, Status, answer
from .refusals import InputRefused


@dataclass(frozen=True)
class Checked:
    """What `check` says: whether any order of events meets the constraints, the labels of the leaves, and flow's own lines."""

    consistent: bool
    leaves: list[str]
    text: str


@dataclass(frozen=True)
class Property:
    """What `verify` says: whether the property holds, or the constraint is redundant. Where it does not, the leaves of an order that breaks it."""

    holds: bool
    journal: list[int]
    text: str


@dataclass(frozen=True)
class Traced:
    """What `trace` says of a list of leaves: `verdict` is `execution`, `prefix` or `bad N`."""

    verdict: str
    text: str

    @property
    def is_execution(self) -> bool:
        return self.verdict == "execution"


@dataclass(frozen=True)
class Report:
    """What a whole session came to: flow's lines, its status, and whether the run is committed."""

    status: Status
    text: str

    @property
    def committed(self) -> bool:
        return self.status is Status.OK


@dataclass(frozen=True)
class Workflow:
    """The text of a workflow, and of a policy where there is one. Nothing is read until something is asked."""

    text: str
    policy: str = ""
    _labels: dict = field(default_factory=dict, repr=False, compare=False)

    def _asked(self, mode: Mode, more: str, steps: int = USUAL_STEPS) -> tuple[Status, str]:
        given = f"{self.text}\n%%\n{more}" if more else self.text
        status, text = answer(mode, given.encode(), steps)
        if status is Status.INPUT:
            raise InputRefused(text.decode().rstrip("\n"))
        return status, text.decode()

    def check(self) -> Checked:
        """Whether any order of events meets the constraints."""
        status, text = self._asked(Mode.CHECK, "")
        leaves = [line.split(" ", 2)[2] for line in text.splitlines() if re.match(r"leaf \d+ ", line)]
        return Checked(status is Status.OK, leaves, text)

    def verify(self, query: str) -> Property:
        """Whether a property holds in every order of events: `holds precedes pack card;`, `redundant 0;`."""
        status, text = self._asked(Mode.VERIFY, query)
        return Property(status is Status.OK, _journal(text), text)

    def trace(self, leaves: list[int]) -> Traced:
        """Whether the leaves, in this order, are an execution."""
        labels = self.labels
        lines = [f"{leaf} {labels[leaf]}" for leaf in leaves]
        _, text = self._asked(Mode.TRACE, "".join(f"{line}\n" for line in lines))
        return Traced(text.splitlines()[0] if text else "", text)

    def drive(self, session: str, steps: int = USUAL_STEPS) -> Report:
        """A whole session, a command a line, with its report; under a policy with `as NAME` lines."""
        if self.policy:
            return Report(*self._asked(Mode.DUTY, f"{self.policy}\n%%\n{session}", steps))
        return Report(*self._asked(Mode.DRIVE, session, steps))

    @property
    def labels(self) -> list[str]:
        """The labels of the leaves, by number."""
        if "leaves" not in self._labels:
            self._labels["leaves"] = self.check().leaves
        return self._labels["leaves"]

    def leaf(self, label: str) -> int:
        """The number of the one leaf of that label."""
        found = [leaf for leaf, other in enumerate(self.labels) if other == label]
        if len(found) != 1:
            raise KeyError(f"{len(found)} leaves are labelled {label!r}")
        return found[0]

    @cached_property
    def users(self) -> list[str]:
        """The users of the policy, in the order in which they first stand there. The first has the number 1."""
        named = re.findall(r"\brole\s+\w+\s*=\s*([^;]*);", re.sub(r"#[^\n]*", "", self.policy))
        return list(dict.fromkeys(re.findall(r"\w+", ",".join(named))))

    def user(self, name: str) -> int:
        """The number of a user."""
        return self.users.index(name) + 1


def _journal(text: str) -> list[int]:
    lines = text.splitlines()
    heads = [place for place, line in enumerate(lines) if re.fullmatch(r"journal \d+", line)]
    if not heads:
        return []
    count = int(lines[heads[0]].split()[1])
    return [int(line.split()[0]) for line in lines[heads[0] + 1 : heads[0] + 1 + count]]
