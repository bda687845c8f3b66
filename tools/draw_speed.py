#!/usr/bin/env python3
"""Makes the plots and the table of docs/SPEED.md: draw_speed.py FOLDER

Reads FOLDER/measured.txt, writes FOLDER/NAME.svg for each plot in it, and in SPEED.md beside FOLDER the table between its two
marks. A plot is a block of lines:

    plot NAME
    title WORDS
    x WORDS [log]
    y WORDS [log]
    line PROGRAM, WORDS: X=Y X=Y ..

Blocks end with an empty line, and `#` begins a comment. Lines of one program have one colour. What the table sums up are
lines `row WHAT | VALUE UNIT | RATIO`, where RATIO is ours over the plain program. `./docs_check text` compares the table.
"""
import math
import pathlib
import re
import sys
from xml.sax.saxutils import escape

from marked import with_part

WIDTH, HEIGHT, LEFT, RIGHT, TOP, BOTTOM = 640, 360, 64, 168, 40, 52
COLOURS = {"ours": "#0b6e99", "plain Rust": "#c4622d"}
DASHES = ["", "6 3", "2 3"]


class Axis:
    """Where values stand between two ends of the picture, from 0 or on a logarithmic scale."""

    def __init__(self, label, is_log, values, start, end):
        self.label, self.is_log, self.start, self.end = label, is_log, start, end
        self.low, self.high = (min(values), max(values)) if is_log else (0, max(values) * 1.1)

    def scaled(self, value):
        return math.log10(value) if self.is_log else value

    def at(self, value):
        low, high = self.scaled(self.low), self.scaled(self.high)
        return self.start + (self.scaled(value) - low) / (high - low) * (self.end - self.start)

    def ticks(self):
        if self.is_log:
            first, last = math.floor(math.log10(self.low)), math.ceil(math.log10(self.high))
            tens = [10.0**n for n in range(first, last + 1)]
            return [t for t in tens if self.low <= t <= self.high]
        step = 10 ** math.floor(math.log10(self.high))
        step = next(s for s in (step / 5, step / 2, step, step * 2) if self.high / s <= 6)
        return [step * k for k in range(int(self.high / step) + 1)]


def shown(value):
    if value >= 1000:
        return f"{value:,.0f}"
    return f"{value:.3g}"


def text(x, y, words, anchor="start", extra=""):
    return f'<text x="{x:.1f}" y="{y:.1f}" text-anchor="{anchor}" {extra}>{escape(words)}</text>'


def frame(x, y):
    """The axes with their ticks and words."""
    parts = []
    for tick in y.ticks():
        at = y.at(tick)
        parts.append(f'<path d="M{x.start} {at:.1f}H{x.end}" stroke="#dddddd"/>')
        parts.append(text(x.start - 6, at + 4, shown(tick), "end"))
    for tick in x.ticks():
        at = x.at(tick)
        parts.append(f'<path d="M{at:.1f} {y.start}v5" stroke="#444444"/>')
        parts.append(text(at, y.start + 18, shown(tick), "middle"))
    parts.append(f'<path d="M{x.start} {y.end}V{y.start}H{x.end}" fill="none" stroke="#444444"/>')
    parts.append(text((x.start + x.end) / 2, y.start + 40, x.label, "middle"))
    parts.append(text(x.start, y.end - 8, y.label))
    return parts


def apart(lines, y):
    """A height for the name of each line: beside its end, and none over another."""
    last = -1e9
    for line in sorted(lines, key=lambda line: y.at(line["points"][-1][1])):
        last = line["label_at"] = max(y.at(line["points"][-1][1]) + 4, last + 14)


def curve(line, x, y):
    colour = COLOURS[line["program"]]
    points = [(x.at(a), y.at(b)) for a, b in line["points"]]
    path = "M" + "L".join(f"{a:.1f} {b:.1f}" for a, b in points)
    parts = [f'<path d="{path}" fill="none" stroke="{colour}" stroke-width="2" stroke-dasharray="{line["dash"]}"/>']
    parts += [f'<circle cx="{a:.1f}" cy="{b:.1f}" r="3" fill="{colour}"/>' for a, b in points]
    parts.append(text(x.end + 10, line["label_at"], line["name"], extra=f'fill="{colour}"'))
    return parts


def drawn(plot):
    lines = plot["lines"]
    x = Axis(*plot["x"], [a for line in lines for a, _ in line["points"]], LEFT, WIDTH - RIGHT)
    y = Axis(*plot["y"], [b for line in lines for _, b in line["points"]], HEIGHT - BOTTOM, TOP + 14)
    apart(lines, y)
    parts = [text(LEFT, 18, plot["title"], extra='font-weight="bold" font-size="14"')] + frame(x, y)
    for line in lines:
        parts += curve(line, x, y)
    head = (f'<svg xmlns="http://www.w3.org/2000/svg" viewBox="0 0 {WIDTH} {HEIGHT}" width="{WIDTH}" '
            f'height="{HEIGHT}" font-family="sans-serif" font-size="12">\n<rect width="100%" height="100%" fill="white"/>')
    return "\n".join([head, *parts, "</svg>", ""])


def axis_of(words):
    is_log = words.endswith(" log")
    return words[:-4] if is_log else words, is_log


def line_of(words, earlier):
    name, points = words.split(": ")
    program = name.split(",")[0]
    kind = sum(line["program"] == program for line in earlier)
    pairs = [tuple(float(n) for n in pair.split("=")) for pair in points.split()]
    return {"name": name, "program": program, "dash": DASHES[kind], "points": pairs}


def plots_of(source):
    for block in source.strip().split("\n\n"):
        plot = {"lines": []}
        for row in block.split("\n"):
            key, _, rest = row.partition(" ")
            if key == "line":
                plot["lines"].append(line_of(rest, plot["lines"]))
            elif key in ("x", "y"):
                plot[key] = axis_of(rest)
            elif key != "#":
                plot[key] = rest
        if plot["lines"]:
            yield plot


# What stands in a row of the table, and which rows it sums up.
SUMS = [
    ("append of 192 bytes to a file of 1 KiB to 1 MiB", r"append of 192 bytes to a file"),
    ("append of 192 bytes, 3,800 from an empty file on", r"append of 192 bytes, 3800"),
    ("append of 4,032 bytes, 178 from an empty file on", r"append of 4032 bytes, 178"),
    ("write of 16 bytes beside 8 to 8,000 files", r"write of 16 bytes"),
    ("create in a directory of 500 to 4,095 names", r"create in a directory"),
    ("create at depth 1 to 8", r"create at depth"),
    ("rename among 2,000 files", r"rename"),
    ("remove among 2,000 files", r"remove"),
    ("overwrite of 192 bytes, nothing live, on three sizes", r"overwrite .* nothing live"),
    ("the same at 50 to 95 % live", r"overwrite .* % live"),
    ("copy that is refused as not needed", r"copy that is refused"),
    ("any other refusal", r"refused as"),
    ("mount of an erased volume, 6 × 1,024 to 64 × 16,384", r"mount of .* erased"),
    ("mount of one full of creates", r"mount of .* creates"),
    ("of writes of 192 bytes", r"mount of .* writes of 192"),
    ("of largest writes", r"mount of .* largest writes"),
    ("parse of 64 MiB of hexadecimal bytes", r"parse of 64"),
    ("parse of 8,000 short lines", r"parse of 8,000"),
    ("dump of 8,000 empty files, of 730 KB in one file, of 32 files of holes", r"dump of"),
    ("append in a run, over rings: 1 to 4,032 bytes", r"append of .* over rings"),
    ("run of 1 to 8 writers over rings, 4,095 writes of 192 bytes", r"run of . writers over rings: time"),
    ("the same over the shared line", r"run of . writers over shared: time"),
    ("the same with a cleaner, over both", r"run of .* cleaner: time"),
    ("the same with 16 readers, over both", r"run of .* readers: time"),
    ("processor time of these runs alone, over both", r"run of . writers over \w+: processor"),
    ("with a cleaner", r"run of .* cleaner: processor"),
    ("with 16 readers", r"run of .* readers: processor"),
    ("processor time where the log thread is held for a second at each of ten moments", r"run whose log thread is held"),
    ("memory of a run for a MiB of file data, in largest writes", r"memory for a MiB .* largest"),
    ("the same in writes of 192 bytes", r"memory for a MiB .* 192"),
    ("memory for a node without data", r"memory for a node"),
    ("memory for an inode", r"memory for an inode"),
    ("memory of the smallest script", r"memory of the smallest"),
]
MARKS = ("<!-- made by tools/draw_speed.py -->\n", "<!-- until here -->\n")


def span(values):
    """The least and the greatest of some figures, as they were measured."""
    least, most = (pick(values, key=float) for pick in (min, max))
    least, most = (f"{float(value):,.0f}" if float(value) >= 1000 else value for value in (least, most))
    return least if least == most else f"{least} to {most}"


def table(source):
    rows = [[part.strip() for part in row.split("|")] for row in re.findall(r"^row (.*)$", source, re.M)]
    lines = ["| What | Ours | Over the plain program |", "|---|---|---|"]
    for words, pattern in SUMS:
        found = [(value.split(), ratio) for what, value, ratio in rows if re.match(pattern, what)]
        (unit,) = {unit for (_, unit), _ in found}
        ratios = [ratio for _, ratio in found if ratio]
        lines.append(f"| {words} | {span([value for (value, _), _ in found])} {unit} | {span(ratios) if ratios else ''} |")
    return "\n".join([*lines, ""])


def page_of(page, source):
    """The page with the table of this source between its marks."""
    return with_part(page, MARKS, table(source))


def main():
    folder = pathlib.Path(sys.argv[1])
    source, page = (folder / "measured.txt").read_text(), folder.parent / "SPEED.md"
    for plot in plots_of(source):
        (folder / f"{plot['plot']}.svg").write_text(drawn(plot))
    page.write_text(page_of(page.read_text(), source))


if __name__ == "__main__":
    main()
