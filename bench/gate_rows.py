"""The rows of the gate (crates/test_cases/data), read as crates/test_cases/src reads them."""
import re

from measuring import TOP

# the status of wrong words
WRONG_WORDS = 2


def bytes_of(lines):
    """The bytes of a part of a row; None where it has names that fall together, which are not made here."""
    text = bytearray()
    for line in lines:
        first, *pieces = line.split("\\")
        text += first.encode()
        for piece in pieces:
            if not put_escape(text, piece):
                return None
        if not line.endswith("\\"):
            text += b"\n"
    return bytes(text)


def put_escape(text, piece):
    """What crates/test_cases/src/pieces.rt says of a piece behind a backslash."""
    if not piece:
        return True
    kind, rest = piece[0], piece[1:]
    if kind == "r":
        text += b"\r" + rest.encode()
    elif kind == "x":
        digits, after = rest.split(" ", 1)
        text += bytes([int(digits, 16)]) + after.encode()
    elif kind == "*":
        count, digits, after = rest.split(" ", 2)
        text += bytes([int(digits, 16)]) * int(count) + after.encode()
    elif kind == "{":
        series, after = rest.split("}", 1)
        numbers, between, member = series.split("`", 2)
        low, high = map(int, numbers.split(".."))
        one = [member.replace("#", "\0").replace("@", str(n + 1)).replace("~", "\n").replace("\0", str(n)) for n in range(low, high)]
        text += between.replace("~", "\n").join(one).encode() + after.encode()
    else:
        return False
    return True


def rows(modes):
    """Rows of `flow` in these modes, by their words: name, mode, steps, input, status, output."""
    for path in sorted((TOP / "crates/test_cases/data").glob("*.rows")):
        for row in re.split(r"^=== ", path.read_text(), flags=re.M)[1:]:
            name, words, ending, *lines = row.rstrip("\n").split("\n")
            call = re.fullmatch(r"flow (\w+)(?: --steps (\d+))?", words)
            if not call or call[1] not in modes:
                continue
            parts = [[]]
            for line in lines:
                parts.append([]) if line == "---" else parts[-1].append(line)
            given, wanted = bytes_of(parts[0]), bytes_of(parts[1])
            if given is None or wanted is None or len(ending.split()) == 2:
                continue
            status = int(ending.split()[0])
            # wrong words are told by the status alone: how the program is called is nothing to a library
            yield f"{path.name}: {name}", modes[call[1]], int(call[2] or 65536), given, status, wanted if status != WRONG_WORDS else b""
