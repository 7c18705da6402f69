"""A case: one run of a workflow, whose history its caller keeps."""
from __future__ import annotations

import json
from collections.abc import Callable
from dataclasses import dataclass

from .library import Status, step
from .refusals import HistoryRefused, InputRefused, StepRefused
from .workflow import Workflow

RECORD = 16


@dataclass(frozen=True)
class Step:
    """What a step made: flow's reply, the records to be stored, and the leaves that may be begun now."""

    reply: str
    entries: list[bytes]
    next: list[int]

    @property
    def claim(self) -> int:
        """The number of the claim that `take` gave."""
        words = self.reply.split()
        if words[0] != "claim":
            raise ValueError(f"no claim was given: {self.reply}")
        return int(words[1])

    @property
    def switched(self) -> bool:
        """Whether a failed task closed its side of a choice."""
        return self.reply.endswith(" switched")


class Case:
    """A run of a workflow, with its history as bytes.

    `keep` is called with the record of each entry that is made, before the step returns, and should store it. Where it raises, the case
    stays as it was. `by` is who calls: a number, or under a policy the name of a user."""

    def __init__(self, workflow: Workflow, history: bytes = b"", keep: Callable[[bytes], None] | None = None):
        self.workflow = workflow
        self.history = bytes(history)
        self._keep = keep
        self._text, self._policy = workflow.text.encode(), workflow.policy.encode()

    def _number(self, by: int | str) -> int:
        return self.workflow.user(by) if isinstance(by, str) else by

    def give(self, line: str, by: int | str = 0) -> Step:
        """Gives a line: a command of a session, or a look."""
        status, text = step(self._text, self._policy, self.history, self._number(by), line.encode())
        came = json.loads(text)
        if status is Status.INPUT:
            raise InputRefused(came["reply"])
        if status is Status.HISTORY:
            raise HistoryRefused(came["record"], came["reply"])
        entries = [bytes.fromhex(digits) for digits in came["entries"]]
        for entry in entries:
            if self._keep:
                self._keep(entry)
            self.history += entry
        if status is Status.NO:
            raise StepRefused(came["refused"], came["reply"], entries)
        return Step(came["reply"], entries, came["next"])

    def take(self, leaf: int | str, by: int | str = 0) -> Step:
        """A claim on the event at a leaf (a number or a label): its task may be begun."""
        return self.give(f"take {self._leaf(leaf)}", by)

    def do(self, leaf: int | str, by: int | str = 0) -> Step:
        """A test of a fact, or a change of one, is made."""
        return self.give(f"do {self._leaf(leaf)}", by)

    def done(self, claim: int, by: int | str = 0) -> Step:
        """The claim's task succeeded."""
        return self.give(f"done {claim}", by)

    def fail(self, claim: int, by: int | str = 0) -> Step:
        """The claim's task failed."""
        return self.give(f"fail {claim}", by)

    def rewind(self, by: int | str = 0) -> Step:
        """Back to the last place at which another choice is free."""
        return self.give("rewind", by)

    def commit(self, by: int | str = 0) -> Step:
        """The run is over."""
        return self.give("commit", by)

    def next(self) -> str:
        """What is to be done next: `act LEAF`, `wait CLAIM`, `finished`, `stuck ..` or `ended`."""
        return self.give("next").reply

    def enabled(self) -> list[int]:
        """The leaves that may be begun."""
        return self.give("enabled").next

    def journal(self) -> list[int]:
        """The leaves that count, in order."""
        return [int(leaf) for leaf in self.give("journal").reply.split()[1:]]

    def facts(self) -> list[str]:
        """The facts that hold."""
        return self.give("facts").reply.split(" ")[1:]

    @property
    def entries(self) -> int:
        """How many entries the history has."""
        return len(self.history) // RECORD

    def _leaf(self, leaf: int | str) -> int:
        return self.workflow.leaf(leaf) if isinstance(leaf, str) else leaf
