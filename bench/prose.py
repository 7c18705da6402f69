"""The prose of the pages: how long lines and sentences are, and words that a page should not have.

A page is a Markdown file of the tree. Blocks, code in a line and the targets of links are no prose.
"""
import pathlib
import re

TOP = pathlib.Path(__file__).resolve().parent.parent
WIDTH = 100
# The most words of a page's sentences, on average.
MOST_WORDS = 20
# What only a history may say.
HISTORIES = {"CHANGELOG.md"}
# Figures of speech, each with what may stand in its place.
FIGURES = {
    r"houses?": "repository",
    r"dear(er|est|ly)?": "expensive",
    r"(lends?|lent)": "pass a reference",
    r"serve[sd]?": "is for, does",
    r"climb(s|ed)?": "rise",
    r"pays": "costs, is worth",
}
# How it came to be so, in place of what is so. `before` and `then` have their plain meaning in front of a word.
TIMES = {
    r"since": "because, from .. on",
    r"once(?=\s(it|its|they|the|this|that|these|no|all|each|what|who|one|nothing|every|code)\b)": "when, after",
    r"on (another|an earlier) day": "name the machine",
    r"(earlier|older) trees?": "say what is",
    r"before(?=\s*[.,;:)])": "say what is",
    r"then(?=\s*[.,;:)])": "say what is",
}


def pages():
    """The Markdown files of the tree, by their paths; no folder `out` is one of the tree."""
    paths = (path.relative_to(TOP) for path in TOP.rglob("*.md") if "out" not in path.parts)
    return sorted(str(path) for path in paths)


def prose(text):
    """The text without blocks, with a word in the place of code in a line, line by line."""
    kept, fenced = [], False
    for line in text.split("\n"):
        fence = line.lstrip().startswith("```")
        fenced ^= fence
        kept.append("" if fence or fenced or line.startswith("    ") else line)
    text = re.sub(r"`[^`]*`", lambda code: "code" + "\n" * code[0].count("\n"), "\n".join(kept))
    return re.sub(r"\]\([^)]*\)", "]", text)


def sentences(text):
    """The sentences of paragraphs and lists; headings and tables have none."""
    lines = ["" if line.startswith(("#", "|", "<")) else line for line in prose(text).split("\n")]
    paragraphs = re.split(r"\n\s*\n|\n(?=\s*(?:[-*]|\d+\.) )", "\n".join(lines))
    found = (part.split() for paragraph in paragraphs for part in re.split(r"(?<=[.?!])\s", paragraph))
    return [words for words in found if len(words) > 1]


def average(text):
    """The words of a sentence, on average."""
    found = sentences(text)
    return sum(map(len, found)) / len(found) if found else 0.0


def wrong_words(page, text):
    """The words that the page should not have, with their lines."""
    words = FIGURES if page in HISTORIES else FIGURES | TIMES
    text = prose(text)
    for pattern, better in words.items():
        for word in re.finditer(rf"\b{pattern}(?!\w)", text, re.I):
            line = text.count("\n", 0, word.start()) + 1
            yield f"{page}:{line}: `{word[0]}`: {better}"


def faults(page, text):
    """What is wrong of a page: long lines, words, long sentences."""
    for number, line in enumerate(text.split("\n")):
        if len(line) > WIDTH:
            yield f"{page}:{number + 1}: {len(line)} columns"
    yield from wrong_words(page, text)
    if average(text) > MOST_WORDS:
        yield f"{page}: {average(text):.1f} words a sentence"


def look():
    """Prints how long the sentences of each page are, and tells what is wrong of all pages."""
    wrong = []
    for page in pages():
        text = (TOP / page).read_text(encoding="utf-8")
        print(f"{average(text):5.1f} words a sentence: {page}")
        wrong += faults(page, text)
    return wrong
