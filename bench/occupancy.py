#!/usr/bin/env python3
"""Draws how full the tables of a generated program are, from what the benchmark prints of them.

    dispatch_bench occupancy N CLASSES SELECTORS | occupancy.py >docs/occupancy.svg

One square is 2,048 cells, 96 squares a row; the darker it is, the more of its cells have an answer. The squares of a table
stand in the order of its cells, so that its area is its size.
"""

import math
import sys

SQUARE = 7
COLUMNS = 96
CELLS = 2048
TITLE = 28


def read_tables(lines):
    """The counts of the blocks of each table, by its name."""
    tables = {}
    for line in lines:
        name, block, used = (part.strip() for part in line.split("|"))
        blocks = tables.setdefault(name, [])
        if int(block) != len(blocks):
            sys.exit(f"block {block} of {name} is out of its order")
        blocks.append(int(used))
    return tables


def shade_of(count):
    """How dark a block is, in tenths: none where no cell has an answer, else by the root of its share, so that few show too."""
    return 0 if count == 0 else max(1, round(10 * math.sqrt(count / CELLS)))


def draw_table(name, blocks, top):
    """The marks of a table, and where the next one begins."""
    used = sum(blocks)
    share = 100 * used / (CELLS * len(blocks))
    words = f"{name}: {CELLS * len(blocks):,} cells, of which {used:,} have an answer, {share:.1f} in 100"
    squares = {}
    for number, count in enumerate(blocks):
        x, y = number % COLUMNS * SQUARE, top + TITLE + number // COLUMNS * SQUARE
        squares.setdefault(shade_of(count), []).append(f"M{x} {y}h{SQUARE - 1}v{SQUARE - 1}h-{SQUARE - 1}z")
    marks = [f'<text y="{top + 18}">{words}</text>']
    for shade, paths in sorted(squares.items()):
        colour = f'opacity="{shade / 10}"' if shade else 'class="none"'
        marks.append(f'<path {colour} d="{"".join(paths)}"/>')
    rows = -(-len(blocks) // COLUMNS)
    return marks, top + TITLE + rows * SQUARE + 8


def main():
    top, marks = 0, []
    for name, blocks in read_tables(sys.stdin).items():
        more, top = draw_table(name, blocks, top)
        marks += more
    print(f'<svg xmlns="http://www.w3.org/2000/svg" width="{COLUMNS * SQUARE}" height="{top}">')
    print("<style>text { font: 14px sans-serif } path { fill: #1f4e79 } .none { fill: #e8edf2 }</style>")
    print(f'<rect width="{COLUMNS * SQUARE}" height="{top}" style="fill: white"/>')
    print("\n".join(marks))
    print("</svg>")


main()
