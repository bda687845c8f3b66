"""What the programs do to the machine that they run on: to files beside their own, to standard streams that are closed, with
words and names that are no text; and whether what a put says of what it has left is so, with each write, sync and
allocation failing in turn."""
import os
import resource
import shlex
import signal
import subprocess

from second_reader import contents, left

SIZES = (8, 2048)
# So many bytes may be a volume of smaller sectors too.
SIZED = ["--sector-size", str(SIZES[1])]
OLD, NEW = b"old content of the file", bytes(range(256)) * 5
TWO_AT_ONCE = 100
ERASED = b"\xff" * 6144
# What each program may be called with, and its standard input; `v` is a volume.
CALLS = {"jffs": (["script"], b""), "jffs_image": (["6", "1024"], ERASED), "jffs_replay": ([], b"flash 6 1024\n"),
         "jffs_volume": (["serve", "v"], b"create 2\n/f")}
# What the line on standard error has of a put, and which of the files under `.put.new` and at the path are there then.
PART, WHOLE, ALONE, DONE = "a part of the new file is left", "where the old one still stands", "mv it", "at the path, whole"


def hosts(runner):
    """The part of the sweep."""
    program = runner.program("jffs_volume")
    if not program or not runner.build(runner.fails) or not runner.build(runner.refuses):
        return
    new_files(runner, program)
    for name, (words, given) in CALLS.items():
        closed_streams(runner, name, words, given)
        odd_words(runner, name)
    odd_names(runner, program)
    endless_input(runner)
    failing_serve(runner, program)
    for replaces in (True, False):
        Puts(runner, program, replaces).run()
    runner.tally.tell("calls or allocations failed", "puts")


def call(words, cwd, given=b"", **options):
    return subprocess.run(words, cwd=cwd, input=given, capture_output=True, timeout=60, check=False, **options)


def told(ended):
    return ended.stderr.decode("utf-8", "backslashreplace")


# New files.

def new_files(runner, program):
    folder, add = runner.empty_folder(), runner.tally.add
    harmless(add, program, folder)
    for number in range(TWO_AT_ONCE // runner.options.thin):
        some = [subprocess.Popen([program, "format", f"two{number}", "6", "1024"], cwd=folder, stderr=subprocess.DEVNULL)
                for _ in range(2)]
        ends = sorted(one.wait() for one in some)
        names = sorted(path.name for path in folder.glob(f"two{number}*"))
        add(f"two formats at once, {number}", None if ends == [0, 2] and names == [f"two{number}"] else f"{ends}, {names}")


def harmless(add, program, folder):
    """A file, or a link, under the name beside the new one stays as it is; without room nothing is left."""
    (folder / "target").write_bytes(b"target")
    (folder / "a.new").write_bytes(b"precious")
    (folder / "b.new").symlink_to("target")
    (folder / "l").symlink_to("target")
    for name in ("a", "b", "l"):
        ended = call([program, "format", name, "6", "1024"], folder)
        wanted = 2 if name == "l" else 0
        add(f"format {name}", None if ended.returncode == wanted else f"status {ended.returncode}: {told(ended)}")
    kept = (folder / "target").read_bytes(), (folder / "a.new").read_bytes(), (folder / "b.new").is_symlink()
    add("files beside a new one", None if kept == (b"target", b"precious", True) else f"{kept}")
    made = all((folder / name).read_bytes() == ERASED and not (folder / name).is_symlink() for name in "ab")
    add("the new files", None if made else "they are no erased volumes")

    def small():
        signal.signal(signal.SIGXFSZ, signal.SIG_IGN)
        resource.setrlimit(resource.RLIMIT_FSIZE, (3000, 3000))

    ended = call([program, "format", "full", "6", "1024"], folder, preexec_fn=small)
    there = [path.name for path in folder.glob("full*")]
    add("format without room", None if ended.returncode == 1 and not there else f"status {ended.returncode}, {there}")


# Streams, words and names.

def closed_streams(runner, name, words, given):
    """Each choice of standard streams that are closed is refused before anything is opened."""
    program, folder = runner.program(name), runner.empty_folder()
    (folder / "v").write_bytes(ERASED)
    (folder / "script").write_text("volume 6 1024\n")
    for closed in ([0], [1], [2], [0, 1], [0, 2], [1, 2], [0, 1, 2]):
        marks = " ".join(f"{number}>&-" for number in closed)
        line = f"exec {shlex.join([str(program), *words])} {marks}"
        ended = call(["sh", "-c", line], folder, given)
        first = "input" if 0 in closed else "output"
        line = "" if 2 in closed else f"{name}: standard {first} is closed, or no more files can be opened\n"
        right = ended.returncode == 1 and (2 in closed or told(ended) == line) and (folder / "v").read_bytes() == ERASED
        runner.tally.add(f"{name} {marks}", None if right else f"status {ended.returncode}, {told(ended)!r}")


def odd_words(runner, name):
    """A word that is no text is shown in one line."""
    ended = call([runner.program(name), b"a\xff\nb"], runner.empty_folder())
    wanted = f"{name}: the word 'a\\xff\\nb' is no text in UTF-8\n"
    right = ended.returncode == 2 and told(ended) == wanted
    runner.tally.add(f"{name}, a word that is no text", None if right else f"status {ended.returncode}, {told(ended)!r}")


def odd_names(runner, program):
    """A load shows the path of a name that is no text, also where it is the only one."""
    folder = runner.empty_folder()
    for names in ([b"a\xff"], [b"good", b"b\xfe\nc"]):
        top = folder / f"top{len(names)}"
        (top / "d").mkdir(parents=True)
        for odd in names:
            with open(os.path.join(os.fsencode(top), b"d", odd), "wb"):
                pass
        (folder / "v").write_bytes(ERASED)
        ended = call([program, "load", "v", top.name], folder)
        shown = names[-1].decode("utf-8", "backslashreplace").replace("\n", "\\n")
        right = ended.returncode == 2 and told(ended).startswith(f"jffs_volume: v: {top.name}: /d/{shown}: ")
        right = right and told(ended).count("\n") == 1 and (folder / "v").read_bytes() == ERASED
        runner.tally.add(f"load of {names}", None if right else f"status {ended.returncode}, {told(ended)!r}")


def endless_input(runner):
    """Input without an end is refused at its first line, in little memory."""
    program = runner.program("jffs")
    if not program:
        return

    def small():
        resource.setrlimit(resource.RLIMIT_AS, (1 << 28, 1 << 28))

    with open("/dev/zero", "rb") as zeros:
        ended = subprocess.run([program], stdin=zeros, capture_output=True, timeout=60, check=False, preexec_fn=small)
    right = ended.returncode == 2 and ended.stdout == b"bad script, line 1: Text\n"
    runner.tally.add("jffs < /dev/zero", None if right else f"status {ended.returncode}, {ended.stdout!r}, {told(ended)!r}")


# Writes, syncs and allocations that fail.

def failing(library, variable, at, on, counted):
    """Surroundings in which a call fails, and all later ones where `on` says so; how many there were is counted."""
    env = dict(os.environ, LD_PRELOAD=str(library), **{f"{variable}_AT": str(at), f"{variable}_COUNT": str(counted)})
    return {**env, **({f"{variable}_ON": "1"} if on else {})}


def failing_serve(runner, program):
    """`serve` tells of each write and each sync that fails, that of the unmount too, and ends with status 1."""
    folder, at, count = runner.empty_folder(), 0, 0
    while at <= count:
        (folder / "v").write_bytes(ERASED)
        env = failing(runner.fails, "FAIL", at, False, folder / "count")
        ended = call([program, "serve", "v"], folder, b"create 2\n/funmount\n", env=env)
        count, answers = int((folder / "count").read_text()), ended.stdout.decode().splitlines()[1:]
        there = "/f" in contents(left(folder / "v", 6, 1024, healed=True)[1])
        fails = [[*["ok"] * done, f"failed {why}"] for done in (0, 1) for why in ("Device", "Medium")]
        right = answers in ([["ok", "ok"]] if at == 0 else fails) and (there or answers[0] != "ok")
        why = None if right and ended.returncode == (at > 0) else f"status {ended.returncode}, {answers}, {told(ended)!r}"
        runner.tally.add(f"serve, call {at} fails", why)
        at += 1


class Puts:
    """A put of several pieces, at each of whose calls of the operating system something fails."""

    def __init__(self, runner, program, replaces):
        self.runner, self.program, self.folder = runner, program, runner.empty_folder()
        self.image = self.folder / "v"
        call([program, "format", "v", *map(str, SIZES)], self.folder)
        for path in ["/other", "/f"] if replaces else ["/other"]:
            call([program, "put", *SIZED, "v", path], self.folder, OLD)
        self.given, self.what = self.image.read_bytes(), "a put over a file" if replaces else "a put"
        self.before = contents(left(self.image, *SIZES)[1])
        self.done = {**self.before, "/f": NEW}

    def run(self):
        for library, variable in ((self.runner.fails, "FAIL"), (self.runner.refuses, "REFUSE")):
            count = self.put(library, variable, 0, False)
            for at in range(1, count + 1, self.runner.options.thin):
                for on in (False, True):
                    self.put(library, variable, at, on)
            self.runner.tally.count(f"{self.what}, {variable}", count, 2 * count)

    def put(self, library, variable, at, on):
        """A put of which something fails; how many calls there were."""
        self.image.write_bytes(self.given)
        counted = self.folder / "count"
        env = failing(library, variable, at, on, counted)
        ended = call([self.program, "put", *SIZED, "v", "/f"], self.folder, NEW, env=env)
        which = f"{self.what}, {variable} {at}{' and all later' if on else ''}"
        self.runner.tally.add(which, self.wrong(ended, at))
        return int(counted.read_text())

    def wrong(self, ended, at):
        """Why the line on standard error, or the status, isn't so of what is left; or None."""
        line, found = told(ended), left(self.image, *SIZES, healed=True)
        if found is None:
            return f"no volume is left, and {line!r}"
        found = contents(found[1])
        if ended.returncode == 0:
            return None if found == self.done and not line else f"{sorted(found)} after status 0, {line!r}"
        if at == 0 or line.count("\n") != 1:
            return f"status {ended.returncode}, {line!r}"
        unfinished, rest = found.pop("/.put.new", None), found
        gone = {path: held for path, held in self.before.items() if path != "/f"}
        holds = {PART: rest == self.before and unfinished is not None and unfinished != NEW,
                 WHOLE: rest == self.before and unfinished == NEW,
                 ALONE: rest == gone and unfinished == NEW,
                 DONE: rest == self.done and unfinished is None}
        said = next((words for words in holds if words in line), None)
        nothing = unfinished is None and rest in (self.before, self.done)
        right = holds[said] if said else nothing
        return None if right else f"{sorted(rest)}, {len(unfinished or b'')} bytes unfinished, and {line!r}"
