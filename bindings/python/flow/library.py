"""The two calls of libflow.so, through ctypes: bytes in, bytes out."""
import ctypes
import ctypes.util
import os
from enum import IntEnum

from .refusals import CallRefused


class LibraryMissing(ImportError):
    """There is no libflow.so where it was looked for."""


class Mode(IntEnum):
    """The modes of `answer`."""

    CHECK = 0
    VERIFY = 1
    TRACE = 2
    DRIVE = 3
    DUTY = 4


class Status(IntEnum):
    """How a call ended."""

    OK = 0
    NO = 1
    CALL = 2
    INPUT = 3
    MEMORY = 6
    SPENT = 7
    NO_ROOM = 9
    HISTORY = 10


USUAL_STEPS = 65_536
# what the answer is written into at first; where it is too small, the call is made again with as much as it asks for
FIRST_ROOM = 16_384


def _found() -> str:
    """The path of the library: FLOW_LIBRARY, what is installed or made in the folder that the package is in, or as the system finds it."""
    named = os.environ.get("FLOW_LIBRARY")
    if named:
        return named
    folder = os.path.dirname(os.path.abspath(__file__))
    while folder != os.path.dirname(folder):
        folder = os.path.dirname(folder)
        for place in ("lib", "crates/flow_c/out"):
            beside = os.path.join(folder, place, "libflow.so")
            if os.path.exists(beside):
                return beside
    return ctypes.util.find_library("flow") or "libflow.so"


def _loaded() -> ctypes.CDLL:
    path = _found()
    try:
        library = ctypes.CDLL(path)
    except OSError as error:
        raise LibraryMissing(f"{path}: {error}; set FLOW_LIBRARY to the path of libflow.so") from error
    number, text, size = ctypes.c_uint32, ctypes.c_char_p, ctypes.c_size_t
    room = [ctypes.c_char_p, size, ctypes.POINTER(size)]
    library.flow_answer.restype = number
    library.flow_answer.argtypes = [number, number, text, size, *room]
    library.flow_step.restype = number
    library.flow_step.argtypes = [text, size, text, size, text, size, number, text, size, *room]
    return library


_LIBRARY = _loaded()


def _whole(call, words: list) -> tuple[Status, bytes]:
    """Calls with a room that is large enough for the answer."""
    length, size = ctypes.c_size_t(), FIRST_ROOM
    while True:
        room = ctypes.create_string_buffer(size)
        status = Status(call(*words, room, size, ctypes.byref(length)))
        if status is not Status.NO_ROOM:
            break
        size = length.value
    if status is Status.MEMORY:
        raise MemoryError("flow: not enough memory")
    return status, ctypes.string_at(room, length.value)


def answer(mode: Mode, given: bytes, steps: int = USUAL_STEPS) -> tuple[Status, bytes]:
    """What `flow` writes to an input in that mode, and its status."""
    status, text = _whole(_LIBRARY.flow_answer, [mode, steps, given, len(given)])
    if status is Status.CALL:
        raise CallRefused(f"refused: mode {int(mode)}, steps {steps}")
    return status, text


def step(text: bytes, policy: bytes, history: bytes, by: int, line: bytes) -> tuple[Status, bytes]:
    """One step of a case: an object of JSON, and its status."""
    words = [text, len(text), policy, len(policy), history, len(history), by, line, len(line)]
    return _whole(_LIBRARY.flow_step, words)
