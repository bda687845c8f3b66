"""The three parts of the sweep: refused memory, failing devices, threads that have little of a processor."""
import os
import re
import signal
import subprocess

import cases
import replay_judge
import script_judge
from cases import TOP
from runner import tests_of
from script_judge import Script, Wrong

# Where the stored input of jffs_replay finds its image.
DATA = TOP / "crates/jffs_replay/data"
# Seconds within which a run whose allocations all fail from one on has to end.
SOON = 2
# Tests that bear each refusal: they pass, or give up with an error that tells of memory. The one of jffs_line that is
# left out compares errors, of which Memory is one.
STEADFAST = re.compile(r"jffs_(flash|node|tree)_tests |jffs_line_tests (?!tests::a_line_refuses_)|jffs_core_tests tests::refusals::"
                       r"|jffs_serve_tests tests::(growths::each_|leaving::)|jffs_run_tests tests::growths::")
# Tests of threads that wait for one another: where no thread can be made, all run in one, and never end.
NEED_THREADS = re.compile(r"jffs_line_tests tests::(an_unmount_asleep|eight_writers_hand_in)_")
# Where an assertion of a test's own has stopped it.
STOPPED = re.compile(r"test stopped at src/\w*tests[./]")
GAVE_UP = re.compile(r"\Aerror: [^\n]*(memory|AllocError|AllocFailed)[^\n]*\nthe test failed: its result", re.IGNORECASE)
# The name in a line `fault: WHY` that only the scan after a run brings, which fails for want of memory alone.
SCAN = "Scan"
FUSES = [(which, what) for which in ("Writes", "All") for what in ("Nothing", "Half")]
MOST_CALLS = 5000
# How threads run, besides alone.
LOADED, DELAYED = "under load", "with random delays"


def why_wrong(check, *arguments):
    """What a judge says against a run, or None."""
    try:
        check(*arguments)
        return None
    except Wrong as wrong:
        return str(wrong)


# Refused memory.

def memory(runner):
    if not runner.build(runner.refuses):
        return
    named = set()
    subjects = [subject for crate in crates_with_tests() for subject in tests(runner, crate)]
    scripts = jffs_scripts(runner, named)
    subjects += scripts + replays(runner) + images(runner)
    runner.each(subjects, lambda subject: runner.refuse_each(*subject))
    runner.tally.tell("allocations refused", "tests or inputs")
    if scripts:
        why = None if SCAN in named else f"{SCAN} is in no fault line, only {sorted(named)}"
        runner.tally.add("the names in fault lines of jffs", why)
    runner.each(["shared 2", "rings 2"] * bool(runner.program("jffs")), lambda line: refuse_rest(runner, line))
    runner.tally.tell("places from which on all allocations were refused", "scripts with 16 readers")


def refuse_rest(runner, line):
    """All allocations from one on are refused, from each in turn."""
    script, at, ran = Script(cases.crowd(line)), 0, None
    while ran is None or ran.refused:
        at += runner.options.thin
        ran = runner.run([runner.program("jffs")], script.text, at=at, on=True, limit=SOON)
        why = ran.crash() or why_wrong(script_judge.judge, script, ran.status, ran.out, ran.refused)
        runner.tally.add(f"{line}, all refused from allocation {at} on", why)
    runner.tally.count("jffs", at // runner.options.thin - 1)


def crates_with_tests():
    """The crates that have tests, which `rt test` leaves as a program."""
    for folder in sorted((TOP / "crates").iterdir()):
        if any("#[test]" in path.read_text() for path in folder.glob("src/**/*.rt")):
            yield folder.name


def tests(runner, crate):
    program = runner.program(crate, crate + "_tests")
    for name in tests_of(program) if program else []:
        if NEED_THREADS.match(f"{crate} {name}"):
            continue

        def run(at, limit, name=name):
            # Tests of one crate may write files of the same name.
            return runner.run([program, name], at=at, limit=limit, cwd=runner.empty_folder())

        def judge(ran, steadfast=STEADFAST.match(f"{crate} {name}")):
            return judge_test(ran, steadfast)
        yield crate, name, run, judge


def judge_test(ran, steadfast):
    """Other tests compare with what comes where memory is there: they may end by an assertion or an error of their
    own, but by nothing else."""
    text = ran.out + ran.errors
    if ran.status == 0 or ran.refused and ran.status == 101 and GAVE_UP.search(text):
        return None
    ran.asserted = ran.status == 101 or ran.status == -signal.SIGABRT and bool(STOPPED.search(ran.out))
    if ran.refused and ran.asserted and not steadfast:
        return None
    return ran.crash() or f"status {ran.status}: {text[-300:]!r}"


def jffs_scripts(runner, named):
    """Each script; the names in fault lines are added to `named`."""
    program = runner.program("jffs")
    subjects = []
    for name, text in cases.examples() + cases.scripts(range(1, 21), 24) if program else []:
        script = Script(text)

        def run(at, limit, text=text):
            return runner.run([program], text, at=at, limit=limit)

        def judge(ran, script=script):
            named.update(found[1] for found in [script_judge.ENDED.search(ran.out)] if found)
            return ran.crash() or why_wrong(script_judge.judge, script, ran.status, ran.out, ran.refused, True)
        subjects.append(("jffs", name, run, judge))
    return subjects


def replays(runner):
    program = runner.program("jffs_replay")
    subjects = []
    for name, lines in cases.operation_lists(6, Script) if program else []:
        lines = [line for line in lines if line != "fuse ?"]

        def run(at, limit, lines=lines):
            return runner.run([program], "\n".join(lines) + "\n", at=at, limit=limit, cwd=DATA)

        def judge(ran, lines=lines):
            sound = why_wrong(replay_judge.judge, lines, ran.status, ran.out, ran.errors, ran.refused)
            return ran.crash() or sound
        subjects.append(("jffs_replay", name, run, judge))
    return subjects


def images(runner):
    program, subjects = runner.program("jffs_image"), []
    stored = TOP / "crates/jffs_image"
    words = (stored / "args").read_text().split()
    inputs = [("stored input", words, stored / "stdin"), ("old.image", ["6", "1024"], DATA / "old.image")]
    for name, sizes, path in inputs:
        wanted = []

        def run(at, limit, sizes=sizes, path=path):
            return runner.run([program] + sizes, path.read_bytes(), at=at, limit=limit)

        def judge(ran, wanted=wanted):
            return judge_image(ran, wanted)
        if program:
            subjects.append(("jffs_image", name, run, judge))
    return subjects


def judge_image(ran, wanted):
    """What the first run printed, whole; or status 1 after a part of it, where memory was refused."""
    if not wanted:
        wanted.append(ran.out)
    if ran.status == 0 and ran.out == wanted[0] and ran.out.startswith("mounted "):
        return None
    if ran.refused and ran.status == 1 and wanted[0].startswith(ran.out):
        return None
    return ran.crash() or f"status {ran.status}, {ran.out[-200:]!r}, {ran.errors!r}"


# Failing devices.

def device(runner):
    program = runner.program("jffs_replay")
    lists = cases.operation_lists(24, Script) if program else []
    subjects = [(name, lines, fuse) for name, lines in lists for fuse in FUSES]
    runner.each(subjects, lambda subject: fail_each_call(runner, program, *subject))
    runner.tally.tell("calls failed", "lists of operations")


def fail_each_call(runner, program, name, lines, fuse):
    what, failed = f"{name}, {' '.join(fuse)}", 0
    for calls in range(0, MOST_CALLS, runner.options.thin):
        fused = [f"fuse {calls} {' '.join(fuse)}" if line == "fuse ?" else line for line in lines]
        blown = play(runner, program, f"{what} after {calls} calls", fused)
        if blown is None or not blown:
            break
        failed += 1
    runner.tally.count(" ".join(fuse), failed)


def play(runner, program, what, lines):
    """Whether a call of the device failed; None where the run was wrong."""
    ran, blown = runner.run([program], "\n".join(lines) + "\n", cwd=DATA), None
    why = ran.crash()
    if why is None:
        try:
            blown = replay_judge.judge(lines, ran.status, ran.out, ran.errors, False)
        except Wrong as wrong:
            why = str(wrong)
    runner.tally.add(what, why)
    fuse_at = next(at for at, line in enumerate(lines) if line.startswith("fuse"))
    if ran.status == 2 and why is None and lines[fuse_at + 2] != "mount":
        # The mount itself met the fault: the next one has to find all that was there.
        play(runner, program, what + ", mounted twice", lines[:fuse_at + 2] + lines[fuse_at + 1:])
    return blown


# Threads.

def threads(runner):
    program = runner.program("jffs")
    if program is None or not runner.build(runner.delays):
        return
    processor = min(os.sched_getaffinity(0))
    texts = cases.examples() + cases.scripts(range(1, 16), 240) + cases.scripts(range(16, 22), 1500)
    scripts, rounds = [(name, Script(text)) for name, text in texts], 24 // runner.options.thin
    runs = [(name, script, where) for name, script in scripts for where in (processor, None)] * rounds
    for how in ("alone", LOADED, DELAYED):
        busy = start_load(processor) if how == LOADED else []
        try:
            runner.each(enumerate(runs), lambda run: run_threads(runner, program, how, run[0], *run[1]))
        finally:
            for process in busy:
                process.kill()
                process.wait()
        for _ in scripts:
            runner.tally.count(how, 2 * rounds)
    runner.tally.tell("runs", f"scripts, half of them on processor {processor}")


def start_load(processor):
    """Processes that do nothing but take time: two on the one processor, and one anywhere."""
    loop = ["sh", "-c", "while :; do :; done"]
    pinned = ["taskset", "-c", str(processor)] + loop
    return [subprocess.Popen(words, stdin=subprocess.DEVNULL) for words in (pinned, pinned, loop)]


def run_threads(runner, program, how, number, name, script, processor):
    delays = number if how == DELAYED else None
    ran = runner.run([program], script.text, limit=60, processor=processor, delays=delays)
    why = ran.crash() or why_wrong(script_judge.judge, script, ran.status, ran.out, False)
    where = "on one processor, " if processor is not None else ""
    runner.tally.add(f"{name}, {where}{how}, run {number}", why)
