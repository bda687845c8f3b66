#!/usr/bin/env python3
"""Makes docs/WRONG_BODIES.md from the must-fail edits, the sources and the tests: tools/wrong_bodies.py > docs/WRONG_BODIES.md

What an edit breaks and what refuses it is what its first two lines say. Which public calls it reaches, and which tests make a
call, is found by names: from the function that the edit changes up through its callers to the first that are public, and
from each test down through the helpers of its crate. `./docs_check text` compares the page with what this program makes.
"""
import collections
import pathlib
import re

TOP = pathlib.Path(__file__).resolve().parent.parent
# The crate with the tests of a library, where it isn't the one with the name of both; C has its programs.
TESTS_OF = {"jffs_marks": "jffs_tree_tests", "jffs_inodes": "jffs_tree_tests", "jffs_program": "jffs_run_tests"}
SHOWN, ALIKE = 2, 3
HEAD = """# Wrong bodies, and what holds each call

Made by `tools/wrong_bodies.py`; nobody writes here. A must-fail edit plants a fault, and `./test` fails unless it loses
its proof. It is the file `NAME.edit` in the folder `must-fail` of its crate, which says what a user would be told wrongly and
what of the contracts stays unproved.

Beside an edit stand the public calls nearest above the function that it changes. A crate's second table has tests that make
these calls, and those that [PROMISES.md](PROMISES.md) names: the {shown} that come to the call soonest, by the fewest helpers
between. Both go by names, so what stands beside a name that several functions have may be of another one.
"""


def crates():
    for line in (TOP / "crates.txt").read_text().splitlines():
        name = re.match(r"(\w+)( staticlib)?:", line)
        if name and not name[1].endswith("_tests"):
            yield name[1]


class Function:
    """A function of a source file: its name with its type, what it is called from outside, and its body."""

    def __init__(self, path, owner, name, public, text):
        self.path, self.owner, self.name, self.public, self.text = path, owner, name, public, text
        self.key = f"{owner}::{name}" if owner else name
        self.is_test = False
        begun = re.search(r"^ *\{$", text, re.M)
        self.body = re.sub(r"//.*", "", text[begun.start():] if begun else text.partition("\n")[2])


def functions(folder):
    found = []
    for path in sorted(folder.rglob("*.rt")):
        owner, in_trait, lines = "", False, path.read_text().splitlines()
        for at, line in enumerate(lines):
            block = re.match(r"(?:pub )?(?:unsafe )?(impl|trait)\b(.*)", line)
            if block:
                head = block[2].replace("->", "")
                while "<" in head and head != (less := re.sub(r"<[^<>]*>", "", head)):
                    head = less
                words = re.findall(r"\w+", head.split(" where ")[0])
                in_trait = block[1] == "trait" or " for " in head
                owner = words[words.index("for") + 1] if "for" in words else words[0] if words else ""
            elif line == "}":
                owner, in_trait = "", False
            begun = re.match(r"( *)(pub(?:\([^)]*\))? )?(?:const )?(?:unsafe )?(?:extern \"C\" )?fn (\w+)", line)
            if begun:
                end = next((n for n in range(at + 1, len(lines)) if lines[n] == begun[1] + "}"
                            or re.match(begun[1] + r"(pub(\([^)]*\))? )?fn ", lines[n])), len(lines) - 1)
                public = in_trait or (begun[2] or "").strip() == "pub"
                one = Function(path, owner if begun[1] else "", begun[3], public, "\n".join(lines[at:end + 1]))
                one.is_test = at > 0 and lines[at - 1].strip() == "#[test]"
                found.append(one)
    return found


def called(function):
    """The names that a body calls, each with its type where one stands before it."""
    for mark, name in re.findall(r"(\w+::|self\.|\.)?(?:<[^<>()]*>::)?\b(\w+)(?:::<[^()]*?>)?\(", function.body):
        if mark in ("Self::", "self."):
            mark = f"{function.owner}::"
        yield ("?::" if mark == "." else mark if mark[:1].isupper() else "") + name


def graph(found):
    """For each function those of the crate that it calls: after a dot alone any of at most three that have the name."""
    by_key, by_name = collections.defaultdict(list), collections.defaultdict(list)
    for function in found:
        by_key[function.key].append(function)
        by_name[function.name].append(function)
    calls = {}
    for function in found:
        calls[function] = set()
        for name in called(function):
            bare = name.split("::")[-1]
            calls[function].update(by_key.get(name) or (by_name[bare] if len(by_name[bare]) <= ALIKE else []))
    return calls


def reached(edit, found, calls):
    """The public calls nearest above the functions that an edit changes."""
    text = edit.read_text()
    changed = set()
    for file, old in re.findall(r"^file: (.*)\nold: (.*)$", text, re.M):
        path = edit.parent.parent / file
        holding = [function for function in found if function.path == path and old in function.text]
        changed.update(holding[-1:])
    seen, wave, public = set(changed), set(changed), set()
    while wave:
        public.update(function for function in wave if function.public)
        wave = {f for f in found for g in wave if not g.public and g in calls[f]} - seen
        seen |= wave
    return {function.key for function in public or changed}


def breaks_public(edit):
    """Whether a public call reaches what an edit changes."""
    found = functions(edit.parent.parent / "src")
    return reached(edit, found, graph(found)) <= {function.key for function in found if function.public}


def named_calls(crate, found):
    """The public functions of a crate that the sections of PROMISES.md on it name."""
    public = {function.key for function in found if function.public}
    names = set()
    for section in re.split(r"^(?=## )", (TOP / "docs/PROMISES.md").read_text(), flags=re.M):
        if f"`{crate}`" in section.partition("\n")[0]:
            names.update(re.findall(r"`([A-Za-z_]\w*(?:::\w+)?)`", section))
    return {key for key in public if key in names or key.split("::")[-1] in names and "::" in key and not any(
        name.endswith("::" + key.split("::")[-1]) for name in names)}


def tests_of(crate):
    """Each test of a crate with the names that it and its helpers call, each with the number of helpers between."""
    folder = TOP / "crates" / TESTS_OF.get(crate, f"{crate}_tests") / "src"
    found = functions(folder) if folder.is_dir() else []
    calls = graph(found)
    for test in found:
        if test.is_test:
            seen, wave, far, between = {test}, {test}, {}, 0
            while wave:
                for name in {name for function in wave for name in called(function)}:
                    far.setdefault(name, between)
                wave = {g for f in wave for g in calls[f]} - seen
                seen, between = seen | wave, between + 1
            yield test.name, far


def distance(far, key):
    owner, _, name = key.rpartition("::")
    found = [far[known] for known in (key, f"?::{name}" if owner else key) if known in far]
    return min(found, default=None)


def in_c(key):
    return "`./c_check`" if any(re.search(rf"\b{key}\(", path.read_text()) for path in (TOP / "tools/sweep").glob("*.c")) else ""


def tests_row(key, tests):
    """The tests that make a call: those that come to it soonest, and of these those that make the fewest others, first."""
    making = sorted((distance(far, key), len(far), name) for name, far in tests if distance(far, key) is not None)
    return shown([name for *_, name in making][:SHOWN]) or (in_c(key) if key.startswith("pg_") else "")


def table(head, rows):
    return "\n".join([f"| {' | '.join(head)} |", "|" + "---|" * len(head), *(f"| {' | '.join(row)} |" for row in rows), ""])


def said(edit):
    """What the first two lines of an edit say."""
    lines = edit.read_text().splitlines()
    return [line.partition(": ")[2] for line in lines[:2]]


def shown(names):
    """The first names of a list, and how many more there are."""
    more = len(names) - SHOWN
    return ", ".join([f"`{name}`" for name in names[:SHOWN]] + ([f"{more} more"] if more > 0 else []))


def section(crate):
    edits = sorted((TOP / "crates" / crate / "must-fail").glob("*.edit"))
    found = functions(TOP / "crates" / crate / "src")
    calls, tests = graph(found), list(tests_of(crate))
    broken = {edit: sorted(reached(edit, found, calls)) for edit in edits}
    held = collections.defaultdict(list)
    for key in sorted({key for keys in broken.values() for key in keys} | named_calls(crate, found)):
        held[tests_row(key, tests)].append(f"`{key}`")
    parts = [f"## `{crate}`\n"] if broken or held else []
    if edits:
        rows = [[f"`{edit.stem}`", *said(edit), shown(broken[edit])] for edit in edits]
        parts.append(table(["Edit", "What it breaks", "Refused by", "Calls"], rows))
    if any(held):
        parts.append(table(["Call", "Tests"], [[", ".join(keys), making] for making, keys in held.items() if making]))
    return parts


def made():
    parts = [HEAD.format(shown=SHOWN)]
    for crate in crates():
        parts += section(crate)
    return "\n".join(parts)


if __name__ == "__main__":
    print(made(), end="")
