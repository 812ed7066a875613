#!/usr/bin/env python3
"""Draws what bench/run.sh printed: encode and restore of two data columns beside their rivals, at every shape, hot and cold.

plot.py [OUT [RESULTS ..]]
    OUT      the picture, an SVG, by default docs/speed.svg; - stands for standard output
    RESULTS  what bench/run.sh printed, a file for each machine, by default those kept in bench/results/

Every machine has axes of its own, and its labels are those of its file. The same results give the same bytes. Where a file can't be read, is
no such table or lacks a line of it, that is told on stderr, the status is 1, and no picture is written."""
import html
import math
import pathlib
import re
import sys

TOP = pathlib.Path(__file__).resolve().parent.parent
KEPT = [TOP / "bench/results" / name for name in ("aarch64.txt", "x86_64.txt")]

# The rivals by their names in the table: what they are, and form, colour and filling of their mark. A family has one form and one colour.
BLACK, BLUE, BROWN, RED = "#303030", "#0b4f9e", "#a35200", "#b01050"
CIRCLE, SQUARE = "M-4 0a4 4 0 1 0 8 0a4 4 0 1 0-8 0Z", "M-3.5-3.5h7v7h-7Z"
DIAMOND, TRIANGLE = "M0-5L5 0L0 5L-5 0Z", "M0-4.5L4.5 4L-4.5 4Z"
RIVALS = {
    "registers": ("C tuned by hand", CIRCLE, BLACK, BLACK),
    "plain": ("plain C", CIRCLE, BLACK, "#ffffff"),
    "pq": ("ISA-L RAID-6", SQUARE, BLUE, BLUE),
    "pq-sse": ("ISA-L RAID-6, SSE alone", SQUARE, BLUE, "#ffffff"),
    "rs": ("ISA-L Reed-Solomon", DIAMOND, BROWN, BROWN),
    "rs-sse": ("ISA-L Reed-Solomon, SSE alone", DIAMOND, BROWN, "#ffffff"),
    "je-evenodd": ("jerasure EVENODD", TRIANGLE, RED, RED),
    "je-blaum": ("jerasure Blaum-Roth", TRIANGLE, RED, "#ffffff"),
}
NO_RIVALS = {"memcpy", "own-encode", "own-check", "own-change", "own-judging"}  # a copy of the data, and the library's own encode, check, change and contents
OPERATIONS = {"encode": "Encode", "restore2": "Restore of two data columns"}
WARMTHS = ("hot", "cold")

# Sizes of the picture, in pixels. A shape's band has a line for hot and one for cold.
WIDTH, SIDE, LABELS, BAND, LINE = 1040, 20, 118, 26, 11
MACHINE = (WIDTH - 3 * SIDE) // 2
AXIS = MACHINE - LABELS
LEGEND = (SIDE, SIDE + 195, SIDE + 440, SIDE + 735)  # where its columns begin, one for each family


class Malformed(Exception):
    """a file of results that is none: which one, and why"""


class Results:
    """what one file says: its labels, and ratios[operation, warmth, shape], a dict by rival"""

    def __init__(self, path):
        self.labels, self.ratios, self.columns = {}, {}, None
        try:
            lines = path.read_text(encoding="utf-8").splitlines()
        except OSError as error:
            raise Malformed(f"{path}: {error.strerror}") from None
        except UnicodeDecodeError:
            raise Malformed(f"{path}: is no text") from None
        for number, line in enumerate(lines, 1):
            # Where it can't run the shipped object, run.sh goes on with a table of instructions, which begins with labels of its own.
            if line.startswith("library:") and self.ratios:
                break
            wrong = self.take(line)
            if wrong:
                raise Malformed(f"{path}: line {number}: {wrong}")
        wrong = self.lacks()
        if wrong:
            raise Malformed(f"{path}: {wrong}")

    def shapes(self):
        return sorted({shape for _, _, shape in self.ratios})

    def take(self, line):
        """takes one line in; says what is wrong with it, if something is"""
        fields = line.split()
        if label := re.fullmatch(r"(library|compiler|machine): +(\S.*)", line):
            self.labels[label[1]] = label[2].strip()
        elif not fields or line.startswith("Time of each contestant divided by ours") or re.fullmatch(r"\d+,\d+,\d+: bytes equal", line):
            pass
        elif fields[0] == "m,k,b":
            self.columns = fields[1:]
            unknown = set(self.columns) - set(RIVALS) - NO_RIVALS
            if unknown:
                return f"unknown rival {min(unknown)}"
        elif self.columns is None or len(fields) != 3 + len(self.columns):
            return f"no line of the benchmark's table: {line[:60]}"
        else:
            return self.take_ratios(*fields[:3], fields[3:])
        return None

    def take_ratios(self, operation, shape, warmth, fields):
        if not re.fullmatch(r"\d+,\d+,\d+", shape) or warmth not in WARMTHS:
            return f"{shape} {warmth}: no shape, or neither hot nor cold"
        key = operation, warmth, tuple(map(int, shape.split(",")))
        if key in self.ratios:
            return f"{operation} {shape} {warmth} is there twice"
        self.ratios[key] = {}
        for name, field in zip(self.columns, fields):
            if field == "-" or name in NO_RIVALS:
                continue
            if not re.fullmatch(r"\d+\.\d+!?", field) or float(field.rstrip("!")) == 0:
                return f"{field} of {name} is no ratio"
            self.ratios[key][name] = float(field.rstrip("!"))
        return None

    def lacks(self):
        """says what is missing, if something is: a label, the table, or a line that is to be drawn"""
        for label in ("library", "compiler", "machine"):
            if label not in self.labels:
                return f"has no line `{label}:`"
        for operation in OPERATIONS:
            for warmth in WARMTHS:
                for shape in self.shapes():
                    if not self.ratios.get((operation, warmth, shape)):
                        return f"has no ratios of {operation} {','.join(map(str, shape))} {warmth}"
        return None if self.ratios else "has no line of ratios"


class Picture:
    """the lines of an SVG"""

    def __init__(self):
        self.lines = []

    def text(self, x, y, words, more=""):
        self.lines.append(f'<text x="{x:g}" y="{y:g}"{more}>{html.escape(words, quote=False)}</text>')

    def line(self, x1, y1, x2, y2, colour):
        self.lines.append(f'<path d="M{x1:.1f} {y1:g}L{x2:.1f} {y2:g}" stroke="{colour}"/>')

    def box(self, x, y, width, height, colour):
        self.lines.append(f'<rect x="{x:g}" y="{y:g}" width="{width:.1f}" height="{height:g}" fill="{colour}"/>')

    def mark(self, name, x, y):
        self.lines.append(f'<use href="#{name}" x="{x:.1f}" y="{y:g}"/>')

    def whole(self, height):
        marks = "\n".join(
            f'<path id="{name}" d="{form}" fill="{filling}" stroke="{colour}" stroke-width="1.5"/>'
            for name, (_, form, colour, filling) in RIVALS.items()
        )
        return f"""<svg xmlns="http://www.w3.org/2000/svg" viewBox="0 0 {WIDTH} {height:g}" width="{WIDTH}" height="{height:g}" \
font-family="sans-serif" font-size="12" fill="#1a1a1a">
<title>Speed of Oarwillow beside its rivals</title>
<defs>
{marks}
</defs>
<rect width="{WIDTH}" height="{height:g}" fill="#ffffff"/>
""" + "\n".join([*self.lines, "</svg>", ""])


class Scale:
    """powers of two along an axis"""

    def __init__(self, ratios):
        self.low, self.high = math.log2(min(ratios)) - 0.2, math.log2(max(ratios)) + 0.2

    def at(self, ratio):
        return LABELS + AXIS * (math.log2(ratio) - self.low) / (self.high - self.low)

    def ticks(self):
        """each power of two, and how it is written"""
        for power in range(math.ceil(self.low), math.floor(self.high) + 1):
            yield 2.0**power, str(2**power) if power >= 0 else f"1/{2**-power}"


def draw_group(picture, results, operation, scale, left, top, title, shapes):
    """draws some shapes of an operation, and gives where they end"""
    picture.text(left, top + 14, title, ' font-style="italic"')
    top += 20
    end = top + BAND * len(shapes)
    picture.box(left + LABELS, top, scale.at(1) - LABELS, end - top, "#f3e6e6")
    for ratio, _ in scale.ticks():
        picture.line(left + scale.at(ratio), top, left + scale.at(ratio), end, "#1a1a1a" if ratio == 1 else "#d0d0d0")
    for y, shape in zip(range(top, end, BAND), shapes):
        picture.line(left, y, left + MACHINE, y, "#d0d0d0")
        picture.text(left, y + 17, ",".join(map(str, shape)))
        for turn, warmth in enumerate(WARMTHS):
            middle = y + 7.5 + LINE * turn
            picture.text(left + LABELS - 8, middle + 3.5, warmth, ' text-anchor="end" font-size="10"')
            for name, ratio in results.ratios[operation, warmth, shape].items():
                picture.mark(name, left + scale.at(ratio), middle)
    return end


def draw_operation(picture, results, operation, scale, left, top):
    """draws one operation on one machine, and gives where it ends"""
    drawn = [ratio for (name, _, _), ratios in results.ratios.items() if name == operation for ratio in ratios.values()]
    picture.text(left, top + 14, OPERATIONS[operation], ' font-weight="bold" font-size="15"')
    faster = sum(ratio < 1 for ratio in drawn)
    picture.text(left + MACHINE, top + 14, f"a rival is faster: {faster} of {len(drawn)} marks", ' text-anchor="end"')
    wide = [shape for shape in results.shapes() if shape[2] in (512, 4096)]
    others = sorted(set(results.shapes()) - set(wide), key=lambda shape: (shape[2], shape))
    end = top + 20
    for title, shapes in ("cells of 512 and 4,096 bytes", wide), ("other cells", others):
        if shapes:
            end = draw_group(picture, results, operation, scale, left, end, title, shapes)
    for ratio, words in scale.ticks():
        picture.text(round(left + scale.at(ratio), 1), end + 14, words, ' text-anchor="middle"')
    return end + 38


def draw(machines):
    """the picture of the machines' results, two machines side by side"""
    scale = Scale([ratio for results in machines for key, ratios in results.ratios.items() if key[0] in OPERATIONS for ratio in ratios.values()])
    picture = Picture()
    picture.text(SIDE, 30, "Each mark is a rival's time divided by Oarwillow's: right of 1 Oarwillow is faster, left of it the rival.", ' font-size="15"')
    picture.text(SIDE, 50, "A line is a shape: m, data columns, bytes in a cell. Hot: one stripe, in the caches. Cold: stripes that are not.")
    for turn, (name, (words, *_)) in enumerate(RIVALS.items()):
        x, y = LEGEND[turn // 2], 76 + 20 * (turn % 2)
        picture.mark(name, x + 5, y - 4)
        picture.text(x + 16, y, f"{words} ({name})")
    ends = [116, 116]
    for turn, results in enumerate(machines):
        left, top = SIDE + turn % 2 * (MACHINE + SIDE), ends[turn % 2]
        picture.text(left, top + 18, results.labels["machine"], ' font-weight="bold" font-size="17"')
        picture.text(left, top + 36, results.labels["library"])
        picture.text(left, top + 52, results.labels["compiler"])
        top += 66
        for operation in OPERATIONS:
            top = draw_operation(picture, results, operation, scale, left, top)
        ends[turn % 2] = top
    return picture.whole(max(ends))


def main(arguments):
    if arguments[:1] in (["-h"], ["--help"]):
        print(__doc__)
        return
    out = arguments[0] if arguments else str(TOP / "docs/speed.svg")
    try:
        text = draw([Results(path) for path in map(pathlib.Path, arguments[1:] or KEPT)])
    except Malformed as error:
        sys.exit(f"plot.py: {error}")
    if out == "-":
        sys.stdout.write(text)
        return
    try:
        pathlib.Path(out).write_text(text, encoding="utf-8")
    except OSError as error:
        sys.exit(f"plot.py: {out}: {error.strerror}")


main(sys.argv[1:])
