#!/usr/bin/env python3
"""Draws docs/layers.svg from crates.txt: tools/draw_layers.py > docs/layers.svg

A box for each crate but the tests', above all that it stands on; a grey line to each crate that it stands on and that no
other one between them stands on. Over them go the way of a write and the way of a look. `./docs_check text` compares.
"""
import pathlib
import re
from xml.sax.saxutils import escape

TOP = pathlib.Path(__file__).resolve().parent.parent
WIDE, HIGH, GAP, RISE, LEFT, BELOW = 104, 26, 18, 74, 20, 24
WRITE, LOOK = "#c62828", "#0b6e99"
# From left to right; a crate that isn't named here comes after these.
ORDER = """jffs_jobs jffs jffs_bench jffs_program jffs_volume jffs_image jffs_replay jffs_run jffs_c jffs_example
jffs_manage jffs_tools jffs_serve jffs_session jffs_core jffs_log jffs_text jffs_index jffs_line jffs_tree jffs_file jffs_queue jffs_inodes
jffs_flash jffs_node jffs_marks jffs_protocol""".split()
# The crates that a write and a look go through, each with what it does there.
WAYS = [
    ("w", "A write", [
        ("jffs_run", "a writer makes a wish of its script's command"),
        ("jffs_line", "the request waits for the log thread"),
        ("jffs_serve", "the log thread takes it"),
        ("jffs_core", "it is answered, and room made where it lacks"),
        ("jffs_tree", "a cause against it, or a node that is taken in"),
        ("jffs_log", "the place after the last record"),
        ("jffs_node", "the bytes of the record"),
        ("jffs_flash", "these are programmed, and then the gate"),
    ]),
    ("l", "A look", [
        ("jffs_serve", "the answer and its node are put, and published"),
        ("jffs_index", "two copies take them in by turns"),
        ("jffs_tree", "a reader looks at the copy that is shown"),
    ]),
]


def crates():
    """Each crate but those of tests, with the crates that it stands on."""
    found = {}
    for name, words in re.findall(r"^(\w+)(?: staticlib)?:(.*)$", (TOP / "crates.txt").read_text(), re.M):
        if not name.endswith("_tests"):
            found[name] = words.split()
    return {name: [word for word in words if word in found] for name, words in found.items()}


def below(name, stands):
    """All that a crate stands on."""
    return {lower for one in stands[name] for lower in {one} | below(one, stands)}


def height(name, stands):
    return max((height(one, stands) + 1 for one in stands[name]), default=0)


def places(stands):
    """The middle of each box."""
    rows = {}
    for name in sorted(stands, key=lambda name: ORDER.index(name) if name in ORDER else len(ORDER)):
        rows.setdefault(height(name, stands), []).append(name)
    most, top = max(len(row) for row in rows.values()), max(rows)
    found = {}
    for level, row in rows.items():
        step = (WIDE + GAP) * most / len(row)
        for number, name in enumerate(row):
            found[name] = (LEFT + step * (number + 0.5), BELOW + (top - level) * RISE + HIGH / 2)
    return found, LEFT + (WIDE + GAP) * most, BELOW + (top + 1) * RISE


STYLE = f"""<style>
path {{ fill: none; stroke: #bbb }}
rect {{ fill: #f4f4f4; stroke: #666 }}
.w {{ fill: {WRITE} }}
.l {{ fill: {LOOK} }}
path.w, path.l {{ fill: none; stroke: {WRITE}; stroke-width: 2; opacity: 0.55 }}
path.l {{ stroke: {LOOK} }}
.n {{ fill: #fff; font-size: 11px }}
.b, .n {{ text-anchor: middle }}
.b, .c {{ font-family: monospace }}
</style>"""


def text(kind, x, y, words):
    said = f' class="{kind}"' if kind else ""
    return f'<text{said} x="{x:.0f}" y="{y:.0f}">{escape(words)}</text>'


def number(kind, x, y, words):
    return f'<circle class="{kind}" cx="{x:.0f}" cy="{y:.0f}" r="8"/>' + text("n", x, y + 4, words)


def lines(stands, at):
    for name, lower in stands.items():
        for one in lower:
            if not any(one in below(other, stands) for other in lower):
                (x, y), (u, v) = at[name], at[one]
                yield (f'<path d="M{x:.0f} {y + HIGH / 2:.0f}C{x:.0f} {(y + v) / 2:.0f} {u:.0f} {(y + v) / 2:.0f} '
                       f'{u:.0f} {v - HIGH / 2:.0f}"/>')


def way(kind, steps, at, side):
    """A line through the boxes of a way."""
    points = [f"{at[name][0] + side:.0f} {at[name][1]:.0f}" for name, _ in steps]
    return f'<path class="{kind}" d="M{"L".join(points)}"/>'


def legend(x):
    y = BELOW + 10
    for kind, title, steps in WAYS:
        yield text(kind, x, y, title)
        for place, (name, words) in enumerate(steps, 1):
            y += 34
            yield number(kind, x + 8, y - 12, str(place))
            yield text("c", x + 24, y - 8, name) + text("", x + 24, y + 6, words)
        y += 40


def drawn():
    stands = crates()
    at, wide, high = places(stands)
    sides = [-(WIDE / 2 - 14), WIDE / 2 - 14]
    parts = [STYLE, *lines(stands, at), *(way(kind, steps, at, side) for (kind, _, steps), side in zip(WAYS, sides))]
    for name, (x, y) in at.items():
        parts.append(f'<rect x="{x - WIDE / 2:.0f}" y="{y - HIGH / 2:.0f}" width="{WIDE}" height="{HIGH}" rx="4"/>')
        parts.append(text("b", x, y + 4, name))
    for (kind, _, steps), side in zip(WAYS, sides):
        parts += [number(kind, at[name][0] + side, at[name][1] - HIGH / 2, str(place)) for place, (name, _) in enumerate(steps, 1)]
    parts += legend(wide + 30)
    size = f'viewBox="0 0 {wide + 350:.0f} {high:.0f}" width="{wide + 350:.0f}" height="{high:.0f}"'
    return "\n".join([f'<svg xmlns="http://www.w3.org/2000/svg" {size} font-family="sans-serif" font-size="12">',
                      f'<path d="M0 0H{wide + 350:.0f}V{high:.0f}H0" style="fill: #fff; stroke: none"/>', *parts, "</svg>", ""])


if __name__ == "__main__":
    print(drawn(), end="")
