"""The scripts and the lists of operations that the sweep runs: the examples, and some from a generator with fixed
seeds. Each writer works in a directory of its own, so the order of two writers' requests doesn't change the tree."""
import pathlib
import random

TOP = pathlib.Path(__file__).resolve().parent.parent.parent
FOLLOW_UP = ["mkdir /after", "create /after/f", "write /after/f 3 616263", "truncate /after/f 5", "remove /after/f",
             "remove /after"]


def hex_of(rand, length):
    return bytes(rand.randrange(256) for _ in range(length)).hex() or "-"


class Writer:
    """Commands at random in one directory, most of which are granted."""

    def __init__(self, rand, home, sector_size):
        self.rand, self.home = rand, home
        self.most = sector_size // 4 - 64
        self.paths = [f"{home}/{name}" for name in ("a", "b", "c", "d/x", "d/y", "d/e/z")]
        self.spots = self.paths + [home + "/d", home + "/d/e", home + "/none/n"]

    def begin(self):
        made = [f"create {path}" for path in self.paths[::2]]
        return [f"mkdir {self.home}", f"mkdir {self.home}/d", f"mkdir {self.home}/d/e"] + made

    def command(self):
        rand, path = self.rand, self.rand.choice(self.paths)
        kind = rand.random()
        if kind < .2:
            return f"create {path}"
        if kind < .6:
            return self.write(path)
        if kind < .7:
            sizes = [0, rand.randrange(300), rand.randrange(3000), (1 << 20) + 1]
            # A file of 1 MiB takes a line of 2 MiB in each dump, so it is seldom.
            return f"truncate {path} {rand.choice(sizes * 10 + [1 << 20])}"
        if kind < .82:
            return f"rename {rand.choice(self.spots)} {rand.choice(self.spots)}"
        if kind < .95:
            return f"remove {rand.choice(self.spots)}"
        return f"mkdir {rand.choice(self.spots)}"

    def write(self, path):
        rand = self.rand
        offset = rand.choice([0, 0, rand.randrange(64), rand.randrange(1000)])
        if rand.random() < .5:
            return f"write {path} {offset} {hex_of(rand, rand.choice([0, 1, 5, 40]))}"
        length = rand.choice([1, 60, 192, self.most, self.most, self.most + 1])
        return f"fill {path} {offset} {min(length, 4096)} {rand.randrange(256):02x}"

    def turning(self, count):
        """Few bytes that are written over and over, so that the ring turns and nothing is refused for room."""
        yield f"create {self.home}/a"
        for turn in range(count):
            yield f"fill {self.home}/a {turn % 2 * 96} 96 {turn % 256:02x}"

    def filling(self, count):
        """A file that grows until the volume is full, is cut, and grows again."""
        yield f"create {self.home}/a"
        for turn in range(count):
            grow = f"fill {self.home}/a {turn * self.most} {self.most} {turn % 256:02x}"
            yield f"truncate {self.home}/a 0" if turn % 14 == 13 else grow


def commands_of(rand, home, sector_size, count, kind):
    """Kind 0 turns the ring, kind 1 fills the volume, and kind 2 is of all commands."""
    writer = Writer(rand, home, sector_size)
    if kind == 2:
        return writer.begin() + [writer.command() for _ in range(count)]
    return [f"mkdir {home}"] + list(writer.turning(count) if kind == 0 else writer.filling(count))


def script(seed, count):
    """A script of about so many commands in all."""
    rand = random.Random(seed)
    sectors, size = rand.choice([(6, 1024), (8, 1024), (8, 1024), (16, 2048), (64, 4096)])
    writers = rand.choice([1, 2, 3, 8])
    lines = [f"volume {sectors} {size}", f"line {rand.choice(['shared', 'rings'])} {rand.choice([1, 2, 16])}"]
    if seed % 2 == 0:
        lines.append(f"cleaner {rand.choice([10, 1000])}")
    for _ in range(rand.choice([0, 1, 3])):
        writer, number = rand.randrange(1, writers + 1), rand.randrange(1, count // writers + 3)
        home, name = rand.choice([writer, writer, 1]), rand.choice(["a", "b", "d/x"])
        lines.append(f"reader {writer} {number} /w{home}/{name}")
    for writer in range(1, writers + 1):
        lines += ["writer"] + commands_of(rand, f"/w{writer}", size, max(count // writers, 3), seed % 3)
    return "\n".join(lines) + "\n"


def crowd(line):
    """A script with all threads that there may be: 8 writers, 16 readers that wait for last answers, and a cleaner."""
    rand, homes = random.Random(1), [f"/w{writer}" for writer in range(1, 9)]
    writers = [commands_of(rand, home, 1024, 6, 0) for home in homes]
    lines = ["volume 6 1024", f"line {line}", "cleaner 1000000"]
    lines += [f"reader {at + 1} {len(writers[at])} {homes[at]}/a" for at in [*range(8), *range(8)]]
    for commands in writers:
        lines += ["writer"] + commands
    return "\n".join(lines) + "\n"


def examples():
    """The examples, each with its name."""
    return [(path.name, path.read_text()) for path in sorted((TOP / "examples").glob("*.script"))]


def scripts(seeds, length):
    """Scripts from the generator, each with a name."""
    return [(f"script {seed} of {length}", script(seed, length)) for seed in seeds]


def operations_of(script):
    """A script's commands as requests, the writers by turns."""
    lines = []
    for number in range(max((len(commands) for commands in script.writers), default=0)):
        for writer, commands in enumerate(script.writers, 1):
            if number < len(commands):
                lines.append(f"request {writer} {number + 1} {' '.join(commands[number])}")
    return lines


def requests(commands, writer, first=1):
    return [f"request {writer} {number} {command}" for number, command in enumerate(commands, first)]


def with_fuse(begin, body):
    """What stands before the fuse, `fuse ?`, a mount and requests that may fail, and a mount after which all works."""
    after = requests(FOLLOW_UP, 3) + ["request 10 1 unmount", "mount"]
    return begin + ["fuse ?", "mount"] + body + ["mount"] + after


def generated(seed):
    """A list of operations: a session that works, and one whose calls of the flash fail."""
    rand = random.Random(seed)
    sectors, size = rand.choice([(6, 1024), (6, 1024), (7, 1024), (6, 2048)])
    commands = commands_of(rand, "/w1", size, rand.choice([12, 24, 36]), seed % 3)
    cut = rand.randrange(len(commands))
    before, body = requests(commands[:cut], 1), requests(commands[cut:], 2)
    before += rand.choice([[], ["request 10 1 unmount"], ["clean_oldest"]])
    for _ in range(3):
        body.insert(rand.randrange(len(body) + 1), rand.choice(["clean_oldest", "erase_dead", "clean_oldest"]))
    body += rand.choice([[], ["request 10 2 unmount"]])
    return with_fuse([f"flash {sectors} {size}", "mount"] + before, body)


def stored():
    """The lists of operations that the repository has, cut where new flash begins, without fuses of their own."""
    texts = [(path.name, path.read_text()) for path in sorted((TOP / "examples").glob("*.operations"))]
    texts.append(("jffs_replay's stored input", (TOP / "crates/jffs_replay/stdin").read_text()))
    for name, text in texts:
        lists = []
        for line in text.splitlines():
            if line.startswith(("flash ", "image ")):
                lists.append([line])
            elif line and line[0] != "#" and line not in ("mount", "image") and not line.startswith("fuse"):
                lists[-1].append(line)
        for part, lines in enumerate(lists, 1):
            yield f"{name}, part {part}", with_fuse(lines[:1], lines[1:])


def operation_lists(count, script_of):
    """The operations of the examples, by name, and so many lists from the generator."""
    found = list(stored())
    for name, text in examples():
        example = script_of(text)
        begin = [f"flash {example.sectors} {example.sector_size}"]
        found.append((name, with_fuse(begin, operations_of(example))))
    return found + [(f"operations {seed}", generated(seed)) for seed in range(1, count + 1)]
