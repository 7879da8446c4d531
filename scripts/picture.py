#!/usr/bin/env python3
"""Draws one vector instruction at work, from a session of the debugger: a line for each operation of its program, and beside it
what the operation left in one element: the bits of each row that the program names, and the tags, over the subarrays of the element.

    python3 -B scripts/picture.py IMAGE ADDRESS FILE.svg [option..]

ADDRESS is where the instruction stands, as the position line of a session shows it, in hexadecimal digits. The options are

    --vlen N          the length of a vector register, 64 by default
    --element N       the element of the first register, 0 by default
    --visit N         which time the instruction is reached, 1 by default
    --most N          the most operations that are drawn, 200 by default
    --input FILE      the guest's input
    --cape PROGRAM    the program, crates/cape/out/cape by default
"""
import argparse
import html
import itertools
import pathlib
import re
import subprocess
import sys

TOP = pathlib.Path(__file__).resolve().parent.parent
# Rows below this one are the vector registers.
REGISTERS = 32
# The widths of elements by the bits 5 to 3 of vtype.
WIDTHS = {0: 8, 1: 16, 2: 32}
# Sizes in pixels: a cell, a line, what stands around the picture and between its parts, and a character of a text.
CELL, LINE, MARGIN, GAP, CHARACTER = 9, 13, 16, 14, 6.05
# A 1 that stayed, one that the operation wrote, a 0 that it wrote, a tag, what stands behind a part, and texts.
ONE, WRITTEN, CLEARED, TAG, BEHIND, TEXT, QUIET = "#3b4a5a", "#d9480f", "#f3c3ad", "#2b8a3e", "#f1f3f5", "#212529", "#868e96"


class Session:
    """What a session of the debugger needs to come to the instruction, and its answers to more commands there."""

    def __init__(self, options):
        self.words = [options.cape, "debug", options.image, "--vlen", str(options.vlen)]
        if options.input is not None:
            self.words += ["--input", options.input]
        at_once = self.answers([], ["regs"])[0] == f"pc {options.address}"
        times = options.visit - 1 if at_once else options.visit
        self.way = [f"break 0x{options.address}"] + ["cont"] * times
        *places, pc = self.answers([], [*self.way, "regs"])[:len(self.way) + 1]
        if pc != f"pc {options.address}":
            sys.exit(f"the guest does not come to {options.address}: {places[-1]}")
        self.place = places[-1] if times else f"at {options.address}"

    def answers(self, way, commands):
        """The lines of the answers to commands, after those to the way to them."""
        done = subprocess.run(self.words, input="\n".join([*way, *commands]) + "\n", capture_output=True, text=True, check=False)
        if done.returncode != 0:
            sys.exit(f"cape ended with {done.returncode}: {done.stderr.strip()}")
        return done.stdout.splitlines()[len(way):]

    def at_work(self, commands):
        return self.answers(self.way, commands)


def rows_of(operations):
    """The rows that operations name, in the order of their first mention: registers first."""
    named = []
    for operation in operations:
        name, *numbers = operation.split()
        if name == "search":
            named += [int(key.split("=")[0]) for key in numbers[1:-1]]
        elif name == "update":
            named.append(int(numbers[1]))
        elif name in ("window", "free", "index", "updateby", "below"):
            named.append(int(numbers[0]))
        elif name in ("packmask", "spread", "narrow", "slide", "pick"):
            named += [int(numbers[0]), int(numbers[1])]
    rows = list(dict.fromkeys(named))
    return [row for row in rows if row < REGISTERS] + [row for row in rows if row >= REGISTERS]


def name_of(row):
    return f"v{row}" if row < REGISTERS else f"row {row}"


class Work:
    """The program of the instruction, and what each of its operations leaves in an element."""

    def __init__(self, session, element, most):
        lines = session.at_work(["vcsr", "step", "micro"])
        vtype = next(int(line.split()[1], 16) for line in lines if line.startswith("vtype "))
        self.width = WIDTHS[vtype >> 3 & 7]
        self.length = int(lines[-1].split()[1])
        if self.length == 0:
            sys.exit("the instruction has no program")
        self.drawn = min(self.length, most)
        listed = session.at_work(["step", *(f"micro {k}" for k in range(self.drawn))])[1:]
        self.operations = [line.split(" ", 2)[2] for line in listed]
        self.rows = rows_of(self.operations)
        self.element = element
        self.moments = self.replayed(session)

    def places(self):
        """The subarray and the column of each bit of the element, the highest first."""
        bits = range(self.element * self.width, (self.element + 1) * self.width)
        return [(8 * (bit // 8 % 4) + bit % 8, bit // 32) for bit in reversed(bits)]

    def replayed(self, session):
        """For each number of operations the bits of each row, and the tags."""
        commands = [f"ustep {k} {sub} {row}" for k in range(self.drawn + 1) for row in self.rows for sub, _ in self.places()]
        answers = iter(session.at_work(commands))
        moments = []
        for _ in range(self.drawn + 1):
            rows, tags = {}, []
            for row in self.rows:
                both = [self.bits_in(next(answers), column) for _, column in self.places()]
                rows[row], tags = [bit for bit, _ in both], [tag for _, tag in both]
            moments.append((rows, tags))
        return moments

    def bits_in(self, answer, column):
        shown = re.fullmatch(r"ustep \d+ row ([0-9a-f]+) tags ([0-9a-f]+)", answer)
        return [bytes.fromhex(part)[column // 8] >> column % 8 & 1 for part in shown.groups()]


class Drawing:
    """The elements of an SVG file."""

    def __init__(self):
        self.parts = []

    def text(self, x, y, text, colour=TEXT, anchor="start"):
        anchor = "" if anchor == "start" else f' text-anchor="{anchor}"'
        self.parts.append(f'<text x="{x:g}" y="{y:g}" fill="{colour}"{anchor}>{html.escape(text)}</text>')

    def box(self, x, y, width, height, colour):
        self.parts.append(f'<path fill="{colour}" d="M{x:g} {y:g}h{width:g}v{height:g}h-{width:g}z"/>')

    def lines(self, paths, thick):
        self.parts.append(f'<path stroke="{BEHIND}" stroke-width="{thick}" d="{"".join(paths)}"/>')

    def written(self, width, height):
        head = f'<svg xmlns="http://www.w3.org/2000/svg" width="{width:g}" height="{height:g}" font-family="monospace" font-size="10">'
        return "\n".join([head, f'<rect width="{width:g}" height="{height:g}" fill="white"/>', *self.parts, "</svg>", ""])


def colour_of(before, after, is_tag):
    """The colour of a cell, or none where it is and stays 0."""
    if is_tag:
        return TAG if after else None
    if before == after:
        return ONE if after else None
    return WRITTEN if after else CLEARED


def runs_of(colours):
    """Where a colour begins, how often it follows, and which it is."""
    for colour, run in itertools.groupby(enumerate(colours), key=lambda pair: pair[1]):
        places = [place for place, _ in run]
        if colour is not None:
            yield places[0], len(places), colour


def draw_cells(drawing, x, top, columns):
    """The cells of a row of the slices, or of the tags: for each bit its values, one a line. Runs are drawn whole, then parted."""
    count, lines = len(columns), len(columns[0])
    drawing.box(x - 2, top - 3, count * CELL + 3, LINE * lines + 4, BEHIND)
    for j, colours in enumerate(columns):
        for start, length, colour in runs_of(colours):
            drawing.box(x + CELL * j, top + LINE * start, CELL, LINE * length, colour)
    drawing.lines([f"M{x + CELL * (j + 1) - 0.5:g} {top}v{LINE * lines}" for j in range(count)], 1)
    apart = LINE - CELL + 1
    drawing.lines([f"M{x:g} {top + LINE * (k + 1) - apart / 2:g}h{count * CELL}" for k in range(lines)], apart)


def columns_of(work):
    """The name of each part of the picture, and the colours of its cells: of each row, and of the tags."""
    moments = [work.moments[0], *work.moments]

    def colours(bits_of, is_tag):
        return [[colour_of(bits_of(before)[j], bits_of(after)[j], is_tag) for before, after in zip(moments, moments[1:])] for j in range(work.width)]

    parts = [(name_of(row), colours(lambda moment, row=row: moment[0][row], False)) for row in work.rows]
    return [*parts, ("tags", colours(lambda moment: moment[1], True))]


def draw_legend(drawing, x, y):
    for colour, text in [(ONE, "1"), (WRITTEN, "1, just written"), (CLEARED, "0, just written"), (TAG, "a tag that is set")]:
        drawing.box(x, y - CELL + 1, CELL - 1, CELL - 1, colour)
        drawing.text(x + CELL + 4, y, text, QUIET)
        x += CELL + 4 + CHARACTER * len(text) + 2 * GAP


def drawing_of(work, title):
    drawing = Drawing()
    numbers = MARGIN + CHARACTER * len(str(work.drawn))
    left = round(numbers + CHARACTER * (1 + max(map(len, work.operations))) + GAP)
    top, block = MARGIN + 4 * LINE, work.width * CELL + GAP
    more = "" if work.drawn == work.length else f", the first {work.drawn} of {work.length} operations"
    drawing.text(MARGIN, MARGIN + 4, title)
    drawing.text(MARGIN, MARGIN + 4 + LINE, f"element {work.element}, its highest bit to the left{more}", QUIET)
    drawing.text(numbers + CHARACTER, top + CELL - 1, "before", QUIET)
    for k, operation in enumerate(work.operations):
        y = top + LINE * (k + 1) + CELL - 1
        drawing.text(numbers, y, str(k), QUIET, "end")
        drawing.text(numbers + CHARACTER, y, operation)
    parts = columns_of(work)
    for i, (name, columns) in enumerate(parts):
        drawing.text(left + block * i, top - LINE + 4, name)
        draw_cells(drawing, left + block * i, top, columns)
    height = top + LINE * (work.drawn + 2) + MARGIN
    draw_legend(drawing, MARGIN, height - MARGIN)
    return drawing.written(left + block * len(parts) + MARGIN, height)


def options_of(words):
    parser = argparse.ArgumentParser(description="Draws one vector instruction at work.")
    for name in ("image", "address", "file"):
        parser.add_argument(name)
    for name, default in [("vlen", 64), ("element", 0), ("visit", 1), ("most", 200)]:
        parser.add_argument(f"--{name}", type=int, default=default)
    parser.add_argument("--input")
    parser.add_argument("--cape", default=str(TOP / "crates/cape/out/cape"))
    options = parser.parse_args(words)
    options.address = f"{int(options.address, 16):08x}"
    return options


def main():
    options = options_of(sys.argv[1:])
    session = Session(options)
    work = Work(session, options.element, options.most)
    pathlib.Path(options.file).write_text(drawing_of(work, session.place), encoding="utf-8")


if __name__ == "__main__":
    main()
