"""Why a call came to nothing. Each has flow's own words in `reply`."""


class FlowError(Exception):
    """What all of them are."""

    def __init__(self, reply: str):
        super().__init__(reply)
        self.reply = reply


class CallRefused(FlowError):
    """The call itself: a mode or a number of steps that flow does not take."""


class InputRefused(FlowError):
    """The text of the workflow, of the policy, of a query or the line says nothing: `refused: expected name 6` is at byte 6."""


class StepRefused(FlowError):
    """The run or a duty refuses the step. `reason` is a word: `not-enabled`, `claims-out`, `role` and so on. A result that comes too late
    (`late`) is recorded, and does not count: `entries` has its record then, which the case has added to its history."""

    def __init__(self, reason: str, reply: str, entries: list[bytes]):
        super().__init__(reply)
        self.reason = reason
        self.entries = entries


class HistoryRefused(FlowError):
    """The history is no legal one of the workflow. `record` is the number of the first record that is not, from 0."""

    def __init__(self, record: int, reply: str):
        super().__init__(reply)
        self.record = record
