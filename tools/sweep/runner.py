"""Runs programs, with an allocation refused where that is wanted, and counts what passed."""
import os
import pathlib
import re
import resource
import shutil
import subprocess
import tempfile
import threading
import time
from concurrent.futures import ThreadPoolExecutor

from cases import TOP

HERE = pathlib.Path(__file__).resolve().parent
FAILURES_SHOWN = 40


class Tally:
    """What passed and failed, by part; failures are printed as they come, the first of them."""

    def __init__(self):
        self.lock, self.passed, self.failed, self.groups = threading.Lock(), 0, 0, {}

    def add(self, what, why=None):
        with self.lock:
            if why is None:
                self.passed += 1
                return
            self.failed += 1
            if self.failed <= FAILURES_SHOWN:
                print(f"FAILED {what}: {why}"[:2000], flush=True)

    def count(self, group, done, of=None, asserted=0):
        """In a group that is told of at the part's end: so many were refused or failed, of so many; and how many tests
        ended by an assertion of theirs."""
        with self.lock:
            was = self.groups.setdefault(group, [0, 0, 0, 0])
            more = [1, done, done if of is None else of, asserted]
            self.groups[group] = [now + new for now, new in zip(was, more)]

    def tell(self, what, where):
        """The groups' lines: with `of` where not all were taken in turn. `where` names a group's subjects."""
        for group, (subjects, done, of, asserted) in self.groups.items():
            ends = f", {asserted} of these ended by an assertion of the test" if asserted else ""
            print(f"  {group}: {done}{f' of {of}' if of > done else ''} {what} in {subjects} {where}{ends}", flush=True)
        self.groups = {}


class Ran:
    """How a program ended; `status` is None where it had to be stopped, and negative after a signal."""

    def __init__(self, status, out, errors, refused, calls, seconds):
        self.status, self.out, self.errors = status, out, errors
        self.refused, self.calls, self.seconds = refused, calls, seconds
        self.asserted = False

    def crash(self):
        """Why no answer of this run counts, or None."""
        if self.status is None:
            return "did not end"
        return f"ended by signal {-self.status}" if self.status < 0 else None


class Runner:
    def __init__(self, options):
        self.options, self.tally = options, Tally()
        self.folder = pathlib.Path(tempfile.mkdtemp(prefix="sweep."))
        self.refuses, self.delays, self.counts_syncs, self.clears, self.notes_writes, self.fails = (
            self.folder / f"{name}.so" for name in ("refuse", "delay", "syncs", "clears", "writes", "fails"))
        self.missing = set()

    def close(self):
        shutil.rmtree(self.folder, ignore_errors=True)

    def build(self, library):
        """A library that is put before the C library; False where it can't be built."""
        source = HERE / f"{library.stem}.c"
        command = ["cc", "-O2", "-shared", "-fPIC", "-o", str(library), str(source)]
        try:
            built = subprocess.run(command, capture_output=True, text=True, check=False)
            why = None if built.returncode == 0 else built.stderr
        except OSError as fault:
            why = str(fault)
        self.tally.add(f"cc {source.name}", why)
        return why is None

    def program(self, crate, name=None):
        """The built program of a crate, or None; the first time one is missing it is counted."""
        name = name or crate
        path = self.options.built / "crates" / crate / "out" / name
        if os.access(path, os.X_OK):
            return path
        if name not in self.missing:
            self.missing.add(name)
            how = "rt test" if name.endswith("_tests") else "rt run"
            self.tally.add(name, f"not built: run `{how}` in crates/{crate}, or ./test")
        return None

    def empty_folder(self):
        """A folder in which nothing is, of the thread that asks."""
        folder = self.folder / f"{threading.get_ident()}.own"
        shutil.rmtree(folder, ignore_errors=True)
        folder.mkdir()
        return folder

    def run(self, words, text="", at=None, on=False, limit=20, cwd=TOP, processor=None, delays=None):
        """Runs a program; allocation number `at` is refused, all later ones too where it goes on, and with 0 the
        allocations are only counted. In its stead threads may be delayed, at random from the seed `delays` on."""
        own = self.folder / f"{threading.get_ident()}"
        seen, count = own.with_suffix(".seen"), own.with_suffix(".count")
        env = dict(os.environ)
        if at is not None:
            env.update(LD_PRELOAD=str(self.refuses), REFUSE_AT=str(at))
            env.update(REFUSE_SEEN=str(seen), REFUSE_COUNT=str(count))
            env.update({"REFUSE_ON": "1"} if on else {})
        if delays is not None:
            env.update(LD_PRELOAD=str(self.delays), DELAY_SEED=str(delays))
        if processor is not None:
            words = ["taskset", "-c", str(processor)] + words
        started = time.monotonic()
        try:
            given = text.encode() if isinstance(text, str) else text
            ended = subprocess.run([str(word) for word in words], input=given, capture_output=True, timeout=limit,
                                   cwd=cwd, env=env, close_fds=False, check=False)
            status, out, errors = ended.returncode, ended.stdout, ended.stderr
        except subprocess.TimeoutExpired:
            status, out, errors = None, b"", b""
        seconds = time.monotonic() - started
        refused, calls = take(seen) is not None, take(count)
        return Ran(status, out.decode("latin-1"), errors.decode("latin-1"), refused, int(calls or 0), seconds)

    def each(self, subjects, work):
        """Does the work for each subject, a few at a time."""
        with ThreadPoolExecutor(self.options.jobs) as pool:
            for done in [pool.submit(work, subject) for subject in subjects]:
                done.result()

    def refuse_each(self, group, name, run, judge):
        """Refuses each allocation in turn. `run(at, limit)` runs the program, `judge(ran)` gives why it is wrong."""
        what, plain = f"{group}, {name}", run(0, 120)
        why = judge(plain)
        self.tally.add(f"{what}, nothing refused", why)
        if why:
            return
        # The quickest of three, since the machine may have other work.
        seconds = min([plain.seconds] + [run(0, 120).seconds for _ in range(2) if plain.seconds < 2])
        step = max(self.options.thin, int(plain.calls * seconds / self.options.budget) + 1)
        # Where threads race the number of allocations differs: go on until a run meets no refusal.
        at, done, asserted, last = 1, 0, 0, time.monotonic() + 3 * self.options.budget
        while time.monotonic() < last:
            ran = run(at, 20 + 20 * plain.seconds)
            self.tally.add(f"{what}, allocation {at} refused", judge(ran))
            done, asserted = done + ran.refused, asserted + ran.asserted
            if not ran.refused and at > plain.calls:
                break
            at += step if at < plain.calls else 1
        self.tally.count(group, done, plain.calls, asserted)


def options(parser, parts):
    """What the call of a sweep says: the parser may have options of its own."""
    parser.add_argument("parts", nargs="*", metavar="PART", help=f"{', '.join(parts)}; all where none is named")
    parser.add_argument("--quick", action="store_true", help="only one of eight allocations, calls and runs")
    parser.add_argument("--jobs", type=int, default=2, help="how many programs run at once (2)")
    parser.add_argument("--built", type=pathlib.Path, default=TOP, help="where crates/NAME/out/NAME is looked for")
    parser.set_defaults(serve=None)
    chosen = parser.parse_args()
    for part in chosen.parts:
        if part not in parts:
            parser.error(f"there is no part {part}")
    chosen.built = chosen.built.resolve()
    chosen.thin = 8 if chosen.quick else 1
    # Seconds of one processor for one test or script, after which its allocations are thinned out.
    chosen.budget = 1 if chosen.quick else 8
    return chosen


def run_parts(chosen, parts):
    """Runs the chosen parts, and prints what passed; the status to end with."""
    # A program that crashes is told of; its memory needn't be kept.
    resource.setrlimit(resource.RLIMIT_CORE, (0, resource.getrlimit(resource.RLIMIT_CORE)[1]))
    runner = Runner(chosen)
    try:
        for part in chosen.parts or parts:
            began = time.monotonic()
            print(f"{part}:", flush=True)
            parts[part](runner)
            print(f"  {time.monotonic() - began:.0f} s", flush=True)
    finally:
        runner.close()
    print(f"{runner.tally.passed} passed, {runner.tally.failed} failed")
    return 1 if runner.tally.failed else 0


def take(path):
    """The text of a file, which is removed; None where there is none."""
    try:
        text = path.read_text()
        path.unlink()
        return text
    except OSError:
        return None


def tests_of(program):
    """The names of a test program's tests."""
    listed = subprocess.run([str(program), "--list"], capture_output=True, text=True, check=False, timeout=60).stdout
    return re.findall(r"^(\S+): test$", listed, re.MULTILINE)
