"""The library for C: each function of its header under sanitizers and valgrind, each allocation refused in turn, what a
call costs, and lists of requests whose carrying out stops at each call of the device."""
import copy
import hashlib
import os
import random
import shutil
import subprocess
import sys

from c_costs import compare
from cases import TOP, commands_of
from model import Tree
from runner import HERE
from second_reader import left

BINDINGS = TOP / "bindings/c"
WRITER = TOP / "tools/write_volume.py"
CONTROL = 10
LISTS = 200
HOWS = ("none", "half")
OF_ERASES = ("zeros", "noise")
STRICT = ["-std=c11", "-O1", "-g", "-Wall", "-Wextra", "-Werror", "-I", str(BINDINGS)]
SANITIZED = ["-fsanitize=address,undefined", "-fno-sanitize-recover=all", "-fno-omit-frame-pointer"]
WRAPPED = ["-Wl,--wrap=malloc,--wrap=realloc"]
MEMORY = {"memcpy", "memmove", "memset", "memcmp"}
VALGRIND = ["valgrind", "-q", "--error-exitcode=9", "--leak-check=full", "--show-leak-kinds=all"]


class Built:
    """The programs, linked with the library; `missing` says why they can't be made."""

    def __init__(self, runner):
        self.library = runner.options.built / "crates/jffs_c/out/libjffs_c.a"
        self.folder, self.missing = runner.folder, None
        if shutil.which("cc") is None:
            self.missing = "cc is missing"
        elif not self.library.exists():
            self.missing = "the library isn't built: run `rt lib` in crates/jffs_c, or ./test"

    def link(self, name, options=()):
        """Links a program of this folder; the path, and why it isn't there."""
        path = self.folder / (name + ("_safe" if options else ""))
        words = ["cc", *STRICT, *options, str(HERE / f"{name}.c"), str(BINDINGS / "heap.c"), str(self.library),
                 *(WRAPPED if name == "called" else []), "-o", str(path)]
        made = subprocess.run(words, capture_output=True, text=True, check=False)
        return path, made.stderr.strip() or None


def for_c(runner):
    """The part of a sweep."""
    built = Built(runner)
    if built.missing:
        print(f"  left out: {built.missing}")
        return
    called, driver, cost = (program(runner, built, name) for name in ("called", "c_driver", "c_cost"))
    symbols(runner, built)
    layer(runner, built)
    if None in (called, driver, cost):
        return
    call_each(runner, built, called)
    if shutil.which("valgrind"):
        compare(runner, cost)
    step = runner.options.thin
    runner.each(range(0, LISTS, step), lambda seed: Listed(runner, driver, seed).play())
    runner.tally.tell("calls were stopped at", "lists")


def program(runner, built, name):
    path, why = built.link(name)
    runner.tally.add(f"cc {name}.c", why)
    return None if why else path


def symbols(runner, built):
    """Nothing but memory is asked of the C library; nor by the layer and the pool beside it."""
    if shutil.which("nm") is None:
        print("  left out: nm is missing")
        return
    asks_for_memory(runner, "what the library asks for", built.library)
    for name in ("pumpgrape_fs", "pool"):
        made = built.folder / f"{name}.o"
        ran = subprocess.run(["cc", *STRICT, "-O2", "-ffreestanding", "-c", str(BINDINGS / f"{name}.c"), "-o", str(made)],
                             capture_output=True, text=True, check=False)
        more = {word for word in asked(made) - MEMORY if not word.startswith("pg_")} if ran.returncode == 0 else ran.stderr
        runner.tally.add(f"what {name}.c asks for", f"also {more}" if more else None)


def asks_for_memory(runner, what, library, names="nm"):
    """The library asks for nothing but memory."""
    more = asked(library, names) - MEMORY - {"rattle_alloc", "rattle_realloc", "rattle_dealloc"}
    runner.tally.add(what, f"also {sorted(more)}" if more else None)


def asked(path, names="nm"):
    """The symbols that others have to bring, as this `nm` tells them."""
    seen = subprocess.run([names, "-u", str(path)], capture_output=True, text=True, check=False).stdout
    return {words[1] for words in map(str.split, seen.splitlines()) if len(words) == 2 and words[0] == "U"}


def layer(runner, built):
    """The layer by paths, over malloc and over the pool, with each call of its driver failing in turn; and the pool."""
    over, heap = [BINDINGS / "pumpgrape_fs.c", built.library], BINDINGS / "heap.c"
    pool, small = BINDINGS / "pool.c", ["-DPOOL_BYTES=65536"]
    plain = linked(runner, "fs_try", [HERE / "fs_try.c", heap, *over])
    safe = linked(runner, "fs_try_safe", [HERE / "fs_try.c", heap, *over], SANITIZED)
    pooled = linked(runner, "fs_try_pool", [HERE / "fs_try.c", pool, *over], small)
    alone = linked(runner, "pool_try", [HERE / "pool_try.c", pool], [*small, *SANITIZED])
    on_file = linked(runner, "on_file", [BINDINGS / "on_file.c", heap, *over], ["-std=gnu11", *SANITIZED])
    if None in (plain, safe, pooled, alone, on_file):
        return
    runner.tally.add("the pool", why_wrong(runner.run([alone], limit=120)))
    first = runner.run([plain], limit=60)
    runner.tally.add("the layer", why_wrong(first))
    calls = int(first.out.split()[-1]) if first.status == 0 else 0
    runs = [(path, at) for path in (plain, safe, pooled) for at in range(1, calls + 1, runner.options.thin)]
    runner.each(runs, lambda run: fail(runner, *run))
    runner.tally.tell("calls of the driver failed, one", "runs")
    if shutil.which("valgrind"):
        runner.tally.add("the layer under valgrind", why_wrong(runner.run([*VALGRIND, plain], limit=300)))
    use_file(runner, on_file)


def linked(runner, name, sources, options=(), compiler="cc"):
    """A program of these sources, or None."""
    path = runner.folder / name
    words = [compiler, *STRICT, *options, *map(str, sources), "-o", str(path)]
    made = subprocess.run(words, capture_output=True, text=True, check=False)
    runner.tally.add(f"{compiler} {name}", made.stderr if made.returncode else None)
    return None if made.returncode else path


def use_file(runner, on_file):
    """The driver for a file, by its command line."""
    image = runner.empty_folder() / "image"
    image.write_bytes(b"\xff" * 6144)
    for words, out in ((["mkdir", "/d"], ""), (["create", "/d/f"], ""), (["write", "/d/f", "hello"], ""),
                       (["read", "/d/f"], "hello"), (["ls", "/d"], "f 5 f\n"), (["create", "/x"], ""), (["remove", "/x"], "")):
        ran = runner.run([on_file, image, 1024, *words])
        runner.tally.add(f"on_file {words}", None if (ran.status, ran.out) == (0, out) else ran.out + ran.errors)
    ran = runner.run([on_file, image, 1024, "remove", "/x"])
    runner.tally.add("on_file refuses", None if ran.status == 1 and "nothing stands" in ran.errors else ran.errors)
    found = left(image, 6, 1024)
    runner.tally.add("on_file leaves", None if found and found[1] == ["d /", "d /d", "f /d/f 5 68656c6c6f"] else str(found))


def fail(runner, program, at):
    runner.tally.count(program.name, 1)
    runner.tally.add(f"{program.name}: call {at} of the driver fails", why_wrong(runner.run([program, at], limit=60)))


def call_each(runner, built, called):
    """Each function, with wrong arguments of each kind, and each allocation refused in turn."""
    safe, why = built.link("called", SANITIZED)
    runner.tally.add("cc called.c with sanitizers", why)
    plain = runner.run([called], limit=60)
    runner.tally.add("each function", why_wrong(plain))
    ways = [("plain", [called])] + ([("sanitized", [safe])] if why is None else [])
    if shutil.which("valgrind"):
        ways.append(("under valgrind", VALGRIND + [called]))
        runner.tally.add("each function under valgrind", why_wrong(runner.run(ways[-1][1], limit=300)))
    else:
        print("  left out: valgrind is missing")
    if why is None:
        runner.tally.add("each function, sanitized", why_wrong(runner.run([safe], limit=120)))
    if plain.status != 0:
        return
    count = int(plain.out.split()[-1])
    runs = [(way, words, at, on) for way, words in ways for on in (False, True)
            for at in range(1, count + 1, runner.options.thin * (16 if words[0] == "valgrind" else 1))]
    runner.each(runs, lambda run: refuse(runner, *run))
    runner.tally.tell("allocations were refused, one", "runs")


def refuse(runner, way, words, at, on):
    ran = runner.run([*words, at, *(["on"] if on else [])], limit=120)
    runner.tally.count(way, 1)
    what = f"allocation {at}{' and all later ones' if on else ''} refused, {way}"
    runner.tally.add(what, why_wrong(ran))


def why_wrong(ran):
    if ran.status == 0 and ran.out.splitlines()[-1:][:1] and ran.out.splitlines()[-1].startswith("right "):
        return None
    return ran.crash() or ran.out + ran.errors


def trees_of(lines, answers, size):
    """The tree after each line, as the answers and the model have it; or None, and why an answer is wrong."""
    trees = [Tree(size)]
    for line, answer in zip(lines, answers):
        tree, words = copy.deepcopy(trees[-1]), line.split(" ")
        if words[0] not in ("clean_oldest", "erase_dead", "unmount"):
            cause = tree.cause(words)
            if answer != (cause or "Done") and not (cause is None and answer == "NoSpace"):
                return None, f"{line}: {answer}, wanted {cause or 'Done'}"
            if answer == "Done":
                tree.grant(words)
        trees.append(tree)
    return trees, None


class Listed:
    """A list of requests, and what the library makes of it."""

    def __init__(self, runner, driver, seed):
        rand = random.Random(f"for c {seed}")
        self.runner, self.driver, self.name = runner, driver, f"list {seed}"
        self.sectors, self.size = rand.choice([(6, 1024), (6, 1024), (7, 1024), (6, 2048)])
        commands = commands_of(rand, "/w1", self.size, rand.choice([6, 12, 18]), seed % 3)
        for _ in range(3):
            commands.insert(rand.randrange(len(commands)), rand.choice(["clean_oldest", "erase_dead"]))
        self.lines = commands + rand.choice([[], ["unmount"]])
        self.rand = rand

    def drive(self, stop=()):
        """The answers, the last line's words, and the image that stands then."""
        image = self.runner.empty_folder() / "image"
        words = [self.driver, self.sectors, self.size, image, *stop]
        ran = self.runner.run(words, "\n".join(self.lines) + "\n", limit=60)
        if ran.status != 0:
            return None, ran.errors or ran.out, image
        *answers, last = ran.out.splitlines()
        return answers, last.split(" "), image

    def play(self):
        answers, last, image = self.drive()
        self.runner.tally.add(self.name, last if answers is None else self.judge(answers, image, 1))
        if answers is None:
            return
        self.same_image(answers, image.read_bytes())
        calls, erases = int(last[1]), {int(number) for number in last[5:] if number}
        for at in range(1, calls + 1):
            for how in HOWS + OF_ERASES * (at in erases):
                self.stop(at, how)
        self.runner.tally.count("carrying out", calls)
        self.runner.tally.count("erasing", len(erases))

    def judge(self, answers, image, last, healed=False):
        """Why an answer is wrong, or the tree that is left, which has to be one of so many last ones; or None."""
        trees, why = trees_of(self.lines, answers, self.size)
        found = left(image, self.sectors, self.size, healed)
        if why or found is None:
            return why or "no volume is left"
        wanted = [tree.dump() for tree in trees[-last:]]
        return None if found[1] in wanted else f"left {found[1]}, wanted {' or '.join(map(str, wanted))}"

    def stop(self, at, how):
        """Carrying out stops at this call; one of two trees is left, for a reader that ends an erase that was cut off,
        and for one that doesn't once the library has opened the image."""
        answers, last, image = self.drive([at, how])
        what = f"{self.name}, {how} of call {at}"
        self.runner.tally.add(what, last if answers is None else self.judge(answers, image, 2, healed=True))
        if answers is not None and how in OF_ERASES:
            self.heal(what, answers, image)

    def heal(self, what, answers, image):
        """The library opens it, is cut off again at each call that it left, and opens it at last."""
        for stop in ([1, "half"], [2, self.rand.choice(HOWS + OF_ERASES)], []):
            ran = self.runner.run([self.driver, self.sectors, self.size, image, *stop], "", limit=60)
            self.runner.tally.add(f"{what}, opened {stop}", None if ran.status == 0 else ran.errors or ran.out)
        self.runner.tally.add(f"{what}, opened", self.judge(answers, image, 2))

    def same_image(self, answers, image):
        """The same requests leave the same bytes by another program."""
        lines, numbers = [f"flash {self.sectors} {self.size}", "mount"], {1: 0, CONTROL: 0}
        for line in self.lines:
            if line in ("clean_oldest", "erase_dead"):
                lines.append(line)
                continue
            sender = CONTROL if line == "unmount" else 1
            numbers[sender] += 1
            lines.append(f"request {sender} {numbers[sender]} {line}")
        replay = self.runner.options.built / "crates/jffs_replay/out/jffs_replay"
        if os.access(replay, os.X_OK):
            ran = self.runner.run([replay], "\n".join(lines + ["image"]) + "\n", limit=60)
            same = ran.out.splitlines()[-1:] == [hashlib.sha256(image).hexdigest()]
            self.runner.tally.add(f"{self.name}, by jffs_replay", None if same else "the images differ")
        if "NoSpace" not in answers:
            ran = subprocess.run([sys.executable, str(WRITER)], input="\n".join(lines).encode() + b"\n",
                                 capture_output=True, check=False)
            why = None if ran.stdout == image else f"the images differ: {ran.stderr.decode()}"
            self.runner.tally.add(f"{self.name}, by write_volume.py", why)
