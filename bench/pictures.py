#!/usr/bin/env python3
"""Pictures of the examples and of a generated workflow, as flowdesk draws them.

Usage: bench/pictures.py [FLOWDESK [FLOW]] [--write] [--look FOLDER]

crates/flowdesk/out/flowdesk and crates/flow/out/flow where they are not given. Of each workflow all three forms are drawn, with the marks of
a run in the middle of it too, and looked at as text:

svg      it is XML; each leaf that `flow check` lists has one box with that label; boxes lie within the picture, and two of them overlap only
         where one is a frame round the other; no leaf of a series stands left of the one before it; no two arrows of constraints lie over one
         another along a lane, nor do two of their numbers, and in the examples no two go up or down at one place
dot      `dot -Tsvg` takes it, and draws a node with each label
mermaid  each leaf has one node with that label; `mmdc` takes it, where the machine has that

A file without an end (/dev/zero) is refused as too long, in less than a gigabyte of memory.

It prints how long the greatest pictures take (4,096 leaves, and 1,024 events over 64 options). docs/pictures has what pages show: the script
ends with 1 where the program draws something else, and --write writes it. --look makes a PNG of each SVG in FOLDER, in light and in dark, by
a Chromium without a screen. Ends with 1 where something is not as it is said here.
"""
import argparse
import itertools
import pathlib
import re
import resource
import shutil
import subprocess
import sys
import tempfile
import time
import xml.etree.ElementTree

from generated import text as generated
from measuring import TOP

SVG = "{http://www.w3.org/2000/svg}"
EXAMPLES = ["order_desk", "laboratory", "lab_order", "loan", "incident", "kitchen", "back_office", "knot"]
SHOWN = {"laboratory.svg": ("laboratory", False)}
FORMS = ["svg", "mermaid", "dot"]
MARKS = {"done", "next", "claimed", "failed", "banned"}
# what a box shows of a longer text
MOST_SHOWN, KEPT = 48, 46
WRONG = []


def wrong(what):
    WRONG.append(what)
    print(f"wrong: {what}")


class Box:
    """A rectangle of a picture."""

    def __init__(self, kind, label, rectangle):
        self.kind, self.label = kind, label
        x, y, width, height = (int(rectangle.get(name)) for name in ["x", "y", "width", "height"])
        self.left, self.top, self.right, self.bottom = x, y, x + width, y + height

    def is_apart(self, other):
        return self.right <= other.left or other.right <= self.left or self.bottom <= other.top or other.bottom <= self.top

    def encloses(self, other):
        return self.kind == "frame" and self.left < other.left and other.right < self.right and self.top < other.top and other.bottom < self.bottom


class Course:
    """Where an arrow goes: its ends, from left to right, and the height of its lane."""

    SHAPE = re.compile(r"M(\d+) \d+V(\d+)(?:q0 8 (-?)8 8)?H(\d+)(?:q-?8 0 -?8 -8)?V\d+")

    def __init__(self, path):
        start, turn, sign, back = self.SHAPE.fullmatch(path.get("d")).group(1, 2, 3, 4)
        self.name = path.find(f"{SVG}title").text
        # where its turns are round it is 8 pixels on from each
        turned = {None: 0, "": 8, "-": -8}[sign]
        self.start, self.end, self.lane = int(start), int(back) + turned, int(turn) + abs(turned)
        self.left, self.right = sorted([self.start, self.end])

    def lies_over(self, other):
        return self.lane == other.lane and self.left <= other.right and other.left <= self.right

    def goes_beside(self, other):
        return any(abs(one - two) < 4 for one in [self.start, self.end] for two in [other.start, other.end])


def try_orders(name, tree, tells_ends):
    """Looks at the arrows of constraints, and at their numbers."""
    courses = [Course(path) for path in tree.iter(f"{SVG}path") if path.get("class") == "order"]
    for one, other in itertools.combinations(courses, 2):
        if one.lies_over(other):
            wrong(f"{name}: the arrows of {one.name} and of {other.name} lie over one another")
        if tells_ends and one.goes_beside(other):
            wrong(f"{name}: the arrows of {one.name} and of {other.name} go up or down at one place")
    numbers = [text for text in tree.iter(f"{SVG}text") if text.get("class") == "number" and text.get("dy") == "4"]
    if [text.text for text in numbers] != [course.name.split()[1].rstrip(":") for course in courses]:
        wrong(f"{name}: {len(courses)} arrows have {len(numbers)} numbers, or others")
    for one, other in itertools.combinations(numbers, 2):
        if one.get("y") == other.get("y") and abs(int(one.get("x")) - int(other.get("x"))) < 36:
            wrong(f"{name}: numbers {one.text} and {other.text} lie over one another")


def boxes_of(tree):
    """The boxes of leaves and the frames of an SVG, in order."""
    found = []
    for group in tree.iter(f"{SVG}g"):
        kinds = (group.get("class") or "").split()
        # the legend has boxes of leaves too, without a number
        kind = "frame" if "frame" in kinds else "leaf" if "leaf" in kinds and group.get("id") else None
        if kind:
            text = group.find(f"{SVG}text")
            found.append(Box(kind, "" if text is None else text.text, group.find(f"{SVG}rect")))
    return found


def shown(label):
    return label if len(label) <= MOST_SHOWN else label[:KEPT] + ".."


def labels_of(flow, workflow):
    """The texts of the boxes of a workflow, by the list of `flow check`."""
    listed = subprocess.run([flow, "check"], input=workflow, capture_output=True, check=False).stdout.decode()
    return [shown(line) for line in re.findall(r"^leaf (\d+ .*)$", listed, re.M)]


def drawn(flowdesk, file, form, run=None):
    """What is drawn of a workflow's file, and the seconds."""
    words = [flowdesk, "draw", str(file), "--form", form, *(["--journal", str(run)] if run else [])]
    begun = time.perf_counter()
    call = subprocess.run(words, capture_output=True, check=False)
    spent = time.perf_counter() - begun
    if call.returncode:
        wrong(f"{' '.join(words[1:])} ends with {call.returncode}: {call.stderr.decode()}")
    return call.stdout.decode(), spent


def try_svg(name, text, labels):
    """Looks at the boxes of an SVG."""
    try:
        tree = xml.etree.ElementTree.fromstring(text)
    except xml.etree.ElementTree.ParseError as error:
        return wrong(f"{name}: no XML: {error}")
    boxes = boxes_of(tree)
    width, height = (int(tree.get(word)) for word in ["width", "height"])
    leaves = [box for box in boxes if box.kind == "leaf"]
    if [box.label for box in leaves] != labels:
        wrong(f"{name}: {len(leaves)} boxes of leaves have not the labels of the {len(labels)} leaves")
    for box in boxes:
        if not (0 <= box.left < box.right <= width and 0 <= box.top < box.bottom <= height):
            wrong(f"{name}: the box {box.label} lies outside")
    if len(boxes) > 600:
        return None
    try_orders(name, tree, name.split(".")[0].split()[0] in EXAMPLES)
    for one, other in itertools.combinations(boxes, 2):
        if not one.is_apart(other) and not one.encloses(other):
            wrong(f"{name}: the boxes {one.label} and {other.label} lie over one another")
    return None


def try_dot(name, text, labels):
    """Has Graphviz draw it."""
    if not shutil.which("dot"):
        return
    call = subprocess.run(["dot", "-Tsvg"], input=text.encode(), capture_output=True, check=False)
    if call.returncode:
        wrong(f"{name}: dot ends with {call.returncode}: {call.stderr.decode()[:300]}")
        return
    texts = [text.text for text in xml.etree.ElementTree.fromstring(call.stdout).iter(f"{SVG}text")]
    for label in labels:
        if texts.count(label) != 1:
            wrong(f"{name}: dot shows {label} {texts.count(label)} times")


def try_mermaid(name, text, labels):
    """Looks for the nodes, and has Mermaid's own program draw it where there is one."""
    for label in labels:
        if len(re.findall(r'\["' + re.escape(label) + r'(?:"|<br)', text)) != 1:
            wrong(f"{name}: not one node has the label {label}")
    if shutil.which("mmdc"):
        with tempfile.TemporaryDirectory() as folder:
            call = subprocess.run(["mmdc", "-i", "-", "-o", f"{folder}/out.svg"], input=text.encode(), capture_output=True, check=False)
            if call.returncode:
                wrong(f"{name}: mmdc ends with {call.returncode}")


def look(folder, name, svg):
    """A PNG of a picture in light, and one in dark."""
    tree = xml.etree.ElementTree.fromstring(svg)
    size = f"{min(int(tree.get('width')) + 20, 8000)},{min(int(tree.get('height')) + 20, 6000)}"
    file = folder / f"{name}.svg"
    file.write_text(svg)
    for kind, words in {"light": [], "dark": ["--force-dark-mode", "--blink-settings=preferredColorScheme=0"]}.items():
        png = folder / f"{name}_{kind}.png"
        subprocess.run(["chromium", "--headless", "--no-sandbox", "--disable-gpu", f"--screenshot={png}", f"--window-size={size}", *words, file.as_uri()],
                       capture_output=True, check=False)


def run_of(flow, workflow, folder):
    """A file with the report of a run in the middle, one claim of which is out, if the workflow can be run."""
    lines, claims = [], 0
    for _ in range(5):
        report = subprocess.run([flow, "drive"], input=workflow + b"\n%%\n" + "".join(f"{line}\n" for line in [*lines, "next"]).encode(), capture_output=True, check=False).stdout.decode()
        following = re.search(r"^act (\d+)$", report, re.M)
        if not following:
            break
        leaf = following[1]
        trial = subprocess.run([flow, "drive"], input=workflow + b"\n%%\n" + "".join(f"{line}\n" for line in [*lines, f"do {leaf}"]).encode(), capture_output=True, check=False).stdout.decode()
        if f"did {leaf}\n" in trial:
            lines.append(f"do {leaf}")
        else:
            claims += 1
            lines += [f"take {leaf}", f"done {claims}"]
    if lines and lines[-1].startswith("done"):
        lines.pop()
    file = folder / "run.report"
    report = subprocess.run([flow, "drive"], input=workflow + b"\n%%\n" + "".join(f"{line}\n" for line in lines).encode(), capture_output=True, check=False).stdout
    file.write_bytes(report)
    return file


def try_all(flowdesk, flow, name, workflow, folder, options):
    """Draws a workflow in each form, without marks and with those of a run."""
    file = folder / f"{name}.flow"
    file.write_bytes(workflow)
    labels = labels_of(flow, workflow)
    tries = {"svg": try_svg, "dot": try_dot, "mermaid": try_mermaid}
    for form in FORMS:
        text, _ = drawn(flowdesk, file, form)
        tries[form](f"{name}.{form}", text, labels)
        if form == "svg" and options.look:
            look(pathlib.Path(options.look), name, text)
    run = run_of(flow, workflow, folder)
    text, _ = drawn(flowdesk, file, "svg", run)
    try_svg(f"{name} in a run", text, labels)
    if "done" not in text:
        wrong(f"{name} in a run: nothing is done")
    if options.look:
        look(pathlib.Path(options.look), f"{name}_run", text)


def shown_pictures(flowdesk, options):
    """Compares what the reference shows with what is drawn; README compares its picture itself."""
    for picture, (name, _) in SHOWN.items():
        text, _ = drawn(flowdesk, TOP / f"examples/{name}.flow", "svg")
        file = TOP / "docs/pictures" / picture
        if options.write:
            file.parent.mkdir(exist_ok=True)
            file.write_text(text)
        elif not file.exists() or file.read_text() != text:
            wrong(f"docs/pictures/{picture} is not what is drawn")


def endless(flowdesk, folder):
    """A file without an end is refused as one that is too long, in less than a gigabyte of memory."""
    def little():
        resource.setrlimit(resource.RLIMIT_AS, (1 << 30, 1 << 30))
    file = folder / "small.flow"
    file.write_text("goal nop;\n")
    for words, limit in [(["/dev/zero"], 1_048_576), ([str(file), "--journal", "/dev/zero"], 134_217_728)]:
        done = subprocess.run([flowdesk, "draw", *words], capture_output=True, check=False, preexec_fn=little, text=True)
        if done.returncode != 3 or done.stderr != f"/dev/zero: refused: too long {limit}\n" or done.stdout:
            wrong(f"draw {' '.join(words)}: status {done.returncode}, {done.stderr[:80]}")


def times(flowdesk, folder):
    """How long the greatest pictures take."""
    names = [f"e{number}" for number in range(4096)]
    greatest = {
        "4,096 leaves in series": " * ".join(names),
        "4,096 leaves beside one another": " | ".join(names),
        "4,096 sides of a choice": " + ".join(names),
        "2,048 pairs of sides in series": " * ".join(f"({one} + {other})" for one, other in zip(names[::2], names[1::2])),
    }
    texts = {name: f"event {', '.join(names)}; goal {goal};\n" for name, goal in greatest.items()}
    texts["the greatest generated text"] = generated(3, 128)
    sides = " + ".join(["a * b"] * 64 + names[:4096 - 128])
    texts["4,096 arrows, 4,096 leaves"] = f"event a, b, {', '.join(names[:4096 - 128])}; goal {sides}; constraint order a b;\n"
    for name, text in texts.items():
        file = folder / "greatest.flow"
        file.write_text(text)
        for form in FORMS:
            picture, spent = min((drawn(flowdesk, file, form) for _ in range(3)), key=lambda it: it[1])
            print(f"{name:<40}{form:<10}{1000 * spent:>8.0f} ms{len(picture) / 1024:>9.0f} KB")
            if spent > 1:
                wrong(f"{name}: {form} takes {spent:.2f} s")


def main():
    parser = argparse.ArgumentParser(usage="bench/pictures.py [FLOWDESK [FLOW]] [--write] [--look FOLDER]")
    parser.add_argument("programs", nargs="*")
    parser.add_argument("--write", action="store_true")
    parser.add_argument("--look")
    options = parser.parse_args()
    programs = options.programs + [str(TOP / f"crates/{name}/out/{name}") for name in ["flowdesk", "flow"]][len(options.programs):]
    if options.look:
        pathlib.Path(options.look).mkdir(parents=True, exist_ok=True)
    with tempfile.TemporaryDirectory() as kept:
        folder = pathlib.Path(kept)
        for name in EXAMPLES:
            try_all(*programs, name, (TOP / f"examples/{name}.flow").read_bytes().partition(b"%%\n")[0], folder, options)
        try_all(*programs, "generated", generated(3, 128).encode(), folder, options)
        endless(programs[0], folder)
        times(programs[0], folder)
    shown_pictures(programs[0], options)
    print(f"{len(WRONG)} wrong")
    return 1 if WRONG else 0


if __name__ == "__main__":
    sys.exit(main())
