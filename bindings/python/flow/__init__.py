"""flow: a workflow engine whose answers are proved, over the library libflow.so.

    >>> from flow import Workflow, Case
    >>> shop = Workflow("event pack, card, bill; goal pack | (card + bill); constraint precedes pack bill;")
    >>> shop.check().consistent
    True
    >>> case = Case(shop)
    >>> case.take(1).claim
    1
    >>> case.fail(1).reply
    'failed 1 switched'

Nothing is kept in the library. A `Case` has its history as bytes: store `case.history`, or what each step adds to it, wherever you like,
and make the case again by `Case(shop, history=stored)`.
"""
from .case import Case, Step
from .library import LibraryMissing, Status
from .refusals import CallRefused, FlowError, HistoryRefused, InputRefused, StepRefused
from .workflow import Checked, Property, Report, Traced, Workflow

__all__ = [
    "CallRefused",
    "Case",
    "Checked",
    "FlowError",
    "HistoryRefused",
    "InputRefused",
    "LibraryMissing",
    "Property",
    "Report",
    "Status",
    "Step",
    "StepRefused",
    "Traced",
    "Workflow",
]
