"""What jobs and calls cost, in numbers that don't hang on what else the machine does: instructions, by valgrind's
callgrind; requests for memory (a growth of a block is one too) and the most bytes held at once, by its dhat. They are
compared with bench/counts.txt."""
import math
import os
import platform
import re
import shutil
import subprocess
import tempfile
from datetime import date
from typing import NamedTuple, Optional

from cases import TOP
from cost_cases import CALLS, IMAGE, image_of, jobs

STORED = TOP / "bench/counts.txt"
MEASURES = ("instructions", "requests for memory", "bytes at most")
RUNS, LIMIT = 5, 600
# The C library picks its copies of bytes by the processor; without these it takes those that each processor has for
# which a program is built (x86-64-v2).
PLAIN = "glibc.cpu.hwcaps=-AVX512F,-AVX512VL,-AVX2,-AVX,-ERMS,-FSRM,-RTM,-BMI2,-MOVBE"
TOOLS = {"callgrind": (r"Collected : (\d+)",),
         "dhat": (r"Total: +[\d,]+ bytes in ([\d,]+) blocks", r"At t-gmax: +([\d,]+) bytes")}


class Failed(Exception):
    """Nothing was counted. Its text says why."""


class Count(NamedTuple):
    """What something costs, or how far that may differ; None where it isn't compared."""
    instructions: Optional[int]
    requests: Optional[int]
    most: Optional[int]


class Subject(NamedTuple):
    """What is counted under a name: a run, or what a run takes more than a shorter one."""
    name: str
    run: object
    shorter: object = None
    # Whether its instructions differ from run to run, so that they say nothing.
    varies: bool = False


def subjects():
    # Threads that wait for one another look again and again, as often as the schedule lets them.
    yield from (Subject(name, run, varies=name == "threads") for name, run in jobs())
    for call in CALLS:
        for size in call.sizes:
            yield Subject(f"{call.name}/{size}", call.run(size, 2 * call.calls), call.run(size, call.calls))


def settle_in(folder, program, run):
    """Puts what a run needs into an empty folder, so that no name in the call tells where the checkout is."""
    os.symlink(program, os.path.join(folder, run.program))
    if run.begin:
        with open(os.path.join(folder, IMAGE), "wb") as image:
            image.write(image_of(run.begin, run.sizes))


def check_output(run, ended):
    lines = ended.stdout.decode("latin-1").splitlines() or [""]
    refused = any("refused" in line for line in lines)
    if ended.returncode != run.status or run.last not in lines[-1] or refused != ("refused" in run.last):
        errors = ended.stderr.decode("latin-1").strip()
        raise Failed(f"ended with status {ended.returncode} and the line '{lines[-1][-200:]}' {errors[-300:]}")


def numbers_of(tool, program, run):
    """What a tool of valgrind counts of a run."""
    with tempfile.TemporaryDirectory(prefix="cost.") as folder:
        settle_in(folder, program, run)
        words = [shutil.which("valgrind"), f"--tool={tool}", f"--{tool}-out-file=/dev/null", "--log-file=log"]
        words += [f"./{run.program}", *run.words]
        # The fewest variables, since the start of a program reads all of them.
        env = {"LC_ALL": "C", "GLIBC_TUNABLES": PLAIN}
        try:
            ended = subprocess.run(words, input=run.text, capture_output=True, timeout=LIMIT, cwd=folder, env=env,
                                   check=False)
        except subprocess.TimeoutExpired:
            raise Failed(f"{tool} took longer than {LIMIT} s") from None
        check_output(run, ended)
        with open(os.path.join(folder, "log"), encoding="latin-1") as log:
            text = log.read()
    found = [re.search(pattern, text) for pattern in TOOLS[tool]]
    if None in found:
        raise Failed(f"{tool} told no count: {text[-300:]}")
    return [int(match[1].replace(",", "")) for match in found]


def count_run(program, run, varies=False):
    instructions = [None] if varies else numbers_of("callgrind", program, run)
    return Count(*instructions, *numbers_of("dhat", program, run))


def count(program, subject):
    """The count of a subject; of calls the most bytes of the longer run."""
    whole = count_run(program, subject.run, subject.varies)
    if subject.shorter is not None:
        less = count_run(program, subject.shorter)
        whole = Count(whole.instructions - less.instructions, whole.requests - less.requests, whole.most)
    return whole


def middle_and_margin(values, least):
    """The middle one of five counts, and twice their spread, or the least margin; nothing where they aren't counted."""
    if None in values:
        return None, None
    middle = sorted(values)[len(values) // 2]
    return middle, max(2 * (max(values) - min(values)), int(middle * least))


def to_store(counts):
    """The counts and their margins. Of instructions one in a thousand is borne at least, since those of the C library
    differ a little from one release to the next."""
    pairs = [middle_and_margin(values, least) for values, least in zip(zip(*counts), (.001, 0, 0))]
    return tuple(Count(*part) for part in zip(*pairs))


def stored():
    """The counts and margins that are stored, by name."""
    found = {}
    if STORED.exists():
        for line in STORED.read_text().splitlines():
            if line and line[0] != "#":
                name, *numbers = line.split()
                numbers = [None if number == "-" else int(number) for number in numbers]
                found[name] = Count(*numbers[0::2]), Count(*numbers[1::2])
    return found


def release_of(*words):
    """The first word that a command tells of its version; nothing where it isn't there."""
    if shutil.which(words[0]) is None:
        return ""
    told = subprocess.run(words, stdout=subprocess.PIPE, text=True, check=False).stdout
    return told.split()[0] if told.strip() else ""


def store(found):
    """Writes counts and margins, in the order of the cases; those of other names stay."""
    kept = {**stored(), **found}
    releases = [release_of("rt", "version"), release_of("valgrind", "--version"), " ".join(platform.libc_ver())]
    lines = ["# What bench/count counted: a name, and then instructions, requests for memory and the most bytes held",
             "# at once, each with the margin that a rise may have; - where it isn't compared.",
             f"# Last stored on {date.today()} with {', '.join(filter(None, releases))}."]
    for name in [subject.name for subject in subjects()]:
        if name in kept:
            numbers = [number for both in zip(*kept[name]) for number in both]
            lines.append(" ".join([name, *("-" if number is None else str(number) for number in numbers)]))
    STORED.write_text("\n".join(lines + [""]))


def part_of(now, was):
    """How much more than the stored count, in words."""
    return f"{100 * (now - was) / was:+.2f} %" if was else f"{now - was:+d}"


def compare(tally, subject, now, found):
    """Counts a failure for each rise beyond its margin; a fall beyond it is told of. `found` is what is stored."""
    if found is None:
        tally.add(subject.name, f"nothing is stored: bench/count --store {subject.name}")
        return
    for what, new, was, margin in zip(MEASURES, now, *found):
        if was is None:
            continue
        told = f"{new} {what}, {was} stored, {part_of(new, was)}"
        accept = f"bench/count --store {subject.name}"
        rises = f"{told}, and {margin} are borne; where that is meant: {accept}"
        tally.add(subject.name, rises if new > was + margin else None)
        if new < was - margin:
            print(f"  {subject.name}: {told}; store that: {accept}", flush=True)


def order_of(call, counts):
    """As which power of the size the instructions grow."""
    less, more = (counts[f"{call.name}/{size}"].instructions for size in call.sizes)
    return math.log(more / less, call.sizes[1] / call.sizes[0])


def judge_orders(tally, counts):
    for call in CALLS:
        if all(f"{call.name}/{size}" in counts for size in call.sizes):
            order = order_of(call, counts)
            costs = [round(counts[f"{call.name}/{size}"].instructions / call.calls) for size in call.sizes]
            grows = f"{costs[0]} instructions at {call.sizes[0]}, {costs[1]} at {call.sizes[1]}: n^{order:.2f}"
            print(f"  {call.name}, {call.what}: {grows}", flush=True)
            tally.add(call.name, None if order <= call.order else f"{grows}, and n^{call.order} at most is expected")


def chosen_of(names):
    """The subjects of these names, where a call's name stands for both its sizes; all where none is named."""
    return [subject for subject in subjects() if not names or {subject.name, subject.name.split("/")[0]} & {*names}]


def count_all(runner, chosen, turns=1):
    """So many counts of each subject, by name."""
    found = {subject.name: [] for subject in chosen}

    def count_one(subject):
        program = runner.program(subject.run.program)
        if program is None:
            return
        try:
            found[subject.name].append(count(program, subject))
        except Failed as why:
            runner.tally.add(subject.name, str(why))

    runner.each(chosen * turns, count_one)
    return {name: counts for name, counts in found.items() if len(counts) == turns}


def has_valgrind(runner):
    found = shutil.which("valgrind") is not None
    runner.tally.add("valgrind", None if found else "not found: it counts, and is a package of each distribution")
    return found


def cost(runner, names=()):
    """The part of the sweep."""
    known = stored()
    if not known:
        print("  left out: no counts are stored yet, which `bench/count --store` does", flush=True)
        return
    if not has_valgrind(runner):
        return
    chosen = chosen_of(names)
    counts = {name: found[0] for name, found in count_all(runner, chosen).items()}
    for subject in chosen:
        if subject.name in counts:
            compare(runner.tally, subject, counts[subject.name], known.get(subject.name))
    judge_orders(runner.tally, counts)


def keep(runner, names=()):
    """Counts five times, and stores the middle ones with their margins."""
    if not has_valgrind(runner):
        return
    chosen = chosen_of(names)
    found = count_all(runner, chosen, RUNS)
    store({name: to_store(counts) for name, counts in found.items()})
