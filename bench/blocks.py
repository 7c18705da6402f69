"""Documents as blocks: what stands between two fences, under which heading, and with which word behind the fence."""
import re
from dataclasses import dataclass, field

# Words of blocks that say nothing to the programs.
PLAIN = {"text", "toml", "rust", "vim", "json", "make", "diff"}
# Words of blocks that are a second part behind `%%`.
PARTS = {"session", "query", "journal", "policy"}
# Words of blocks that ask the nearest workflow above them.
ASKING = {"output", "asked", "driven", "executions", "rules"}
WORDS = PLAIN | PARTS | ASKING | {"flow", "console", "piece", "form", "sh"}
# How a line begins that the programs read or write.
LOOKS = re.compile(
    r"^\s*(\$ |refused[: ]|history \d|journal \d|verdict |leaf \d|leaves \d|claim \d|take \d|done \d|fail \d|do \d|did \d"
    r"|executions? |holds |redundant \d|dropped \d|(event|fact|flow|goal|constraint|role|allow|separate|bind) .*;)")


@dataclass
class Block:
    document: str
    line: int
    section: str
    word: str
    rest: str
    lines: list = field(default_factory=list)

    @property
    def text(self):
        return "".join(line + "\n" for line in self.lines)

    @property
    def place(self):
        return f"{self.document}:{self.line}"


class Faulty(Exception):
    """What a document shows and should not."""


def is_indented(lines, index):
    """Whether the line is one of a block that is indented by four blanks."""
    while index >= 0 and lines[index].startswith("    "):
        index -= 1
    return not lines[max(index, 0)].strip()


def read_blocks(document, text):
    """The blocks of a document, and the places of what should be a block and is none."""
    blocks, faults, section, open_block = [], [], "", None
    lines = text.split("\n")
    for index, line in enumerate(lines):
        fence = re.match(r"^ *```(.*)$", line)
        if fence and open_block:
            open_block = None
        elif fence:
            word, _, rest = fence[1].strip().partition(" ")
            open_block = Block(document, index + 1, section, word, rest.strip())
            blocks.append(open_block)
        elif open_block:
            open_block.lines.append(line)
        elif line.startswith("#"):
            section = line.lstrip("#").strip()
        elif is_indented(lines, index) and LOOKS.match(line):
            faults.append(f"{document}:{index + 1}: `{line.strip()}` looks like an input or an output, and no word says how it is tried")
    if open_block:
        faults.append(f"{open_block.place}: a fence that is not shut")
    return blocks, faults


def columns(block):
    """The two columns of each line, or three."""
    for line in block.lines:
        parts = re.split(r" {2,}", line.strip())
        if len(parts) < 2:
            raise Faulty(f"{block.place}: no second column in `{line}`")
        yield parts


def pieces(shown):
    """What stands between the lines `..`."""
    parts = [[]]
    for line in shown:
        if line == "..":
            parts.append([])
        else:
            parts[-1].append(line)
    return parts


def is_alike(shown, written):
    """Whether the lines that are shown are those that were written, where `..` stands for one line or more."""
    first, *others = pieces(shown)
    if not others:
        return first == written
    *inner, last = others
    end = len(written) - len(last)
    if written[:len(first)] != first or written[end:] != last:
        return False
    at = len(first)
    for part in inner:
        at = next((start for start in range(at + 1, end + 1) if written[start:start + len(part)] == part), end) + len(part)
    return at < end


def first_difference(shown, written):
    """Told of two lists of lines of which none is elided: the first that differ."""
    for number, (one, other) in enumerate(zip(shown, written)):
        if one != other and one != "..":
            return f"line {number} is `{other}`, shown is `{one}`"
        if one == "..":
            return "what stands behind `..` does not come"
    return f"{len(written)} lines, shown are {len(shown)}"


def looks_like_one(block):
    """The first line of a block that looks like an input or an output of the programs."""
    return next((line for line in block.lines if LOOKS.match(line)), None)


def anchors(text):
    """The anchors of a document's headings, as viewers of Markdown make them."""
    titles = re.findall(r"^#+ (.*)$", re.sub(r"^```.*?^```$", "", text, flags=re.S | re.M), re.M)
    return {re.sub(r"[^\w\- ]", "", title.lower()).strip().replace(" ", "-") for title in titles}


def wrong_links(path, name):
    """The links of a document that lead to no file of the repository, or to no heading of it."""
    text = path.read_text()
    for target in re.findall(r"\]\(((?!https?:)[^)\s]+)\)", text):
        file, _, anchor = target.partition("#")
        other = path.parent / file if file else path
        if not other.exists():
            yield f"{name}: the link `{target}` leads to no file"
        elif anchor and anchor not in anchors(other.read_text()):
            yield f"{name}: the link `{target}` leads to no heading"
