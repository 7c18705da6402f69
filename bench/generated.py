#!/usr/bin/env python3
"""Writes a generated workflow of 8 * SIZE events, as its canonical text.

Usage: bench/generated.py [SEED [SIZE]]        (without them: 3 and 128, the greatest)

A draw replaces x by (75 * x + 74) mod 65537 and gives the new x; at first x is the seed. Block k has the eight
events from e(8k) on and makes one draw d. By d mod 4 it is: 0, the eight in series; 1, four in series beside four
in series; 2, the same, the first four isolated; 3, four in series or four in series, where fewer than six blocks
before it are such choices, else as 1. Blocks 2j and 2j + 1 stand beside each other, and these pairs follow each
other; a last block without a partner stands alone. After all blocks, for each k from 1 on, two draws f and g give
the constraint precedes e(8(k - 1) + f mod 8) e(8k + g mod 8).
"""
import sys

SERIES, BESIDE, EITHER = " * ", " | ", " + "


class Drawer:
    def __init__(self, seed):
        self.state = seed

    def draw(self):
        self.state = (75 * self.state + 74) % 65537
        return self.state


def series(first, count):
    return SERIES.join(f"e{event}" for event in range(first, first + count))


def block(drawer, number, choices):
    """The text of a block, what joins it at the top, and how many choices there are now."""
    kind = drawer.draw() % 4
    first = 8 * number
    if kind == 0:
        return series(first, 8), SERIES, choices
    left, right = series(first, 4), series(first + 4, 4)
    if kind == 3 and choices < 6:
        return left + EITHER + right, EITHER, choices + 1
    if kind == 2:
        left = f"iso({left})"
    return left + BESIDE + right, BESIDE, choices


def grouped(text, join, outer):
    """The text as a member of a list: only what binds tighter than the list stands without parentheses."""
    return text if (join, outer) == (SERIES, BESIDE) else f"({text})"


def goal(drawer, size):
    blocks, choices = [], 0
    for number in range(size):
        text, join, choices = block(drawer, number, choices)
        blocks.append((text, join))
    pairs = []
    for left in range(0, size, 2):
        pair = blocks[left : left + 2]
        if len(pair) == 1:
            pairs.append(pair[0])
        else:
            pairs.append((BESIDE.join(grouped(*member, BESIDE) for member in pair), BESIDE))
    if len(pairs) == 1:
        return pairs[0][0]
    return SERIES.join(grouped(*pair, SERIES) for pair in pairs)


def text(seed, size):
    drawer = Drawer(seed)
    lines = [f"event e{event};" for event in range(8 * size)]
    lines.append(f"goal {goal(drawer, size)};")
    for number in range(1, size):
        before = 8 * (number - 1) + drawer.draw() % 8
        after = 8 * number + drawer.draw() % 8
        lines.append(f"constraint precedes e{before} e{after};")
    return "\n".join(lines) + "\n"


if __name__ == "__main__":
    seed = int(sys.argv[1]) if len(sys.argv) > 1 else 3
    size = int(sys.argv[2]) if len(sys.argv) > 2 else 128
    sys.stdout.write(text(seed, size))
