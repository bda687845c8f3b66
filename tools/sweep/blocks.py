"""Runs the programs on volumes in files, and judges what a loss of power of the host may leave of each: nothing that was
answered is missing, and of the request in hand all is there or nothing."""
import copy
import random

from block_states import Notes, States, left_by, lines_in, printed_in
from kills import Loading, Session, beside, done_in, is_part, script, stopped_at
from second_reader import contents
from model import sure_room
from served import Judge, in_words, stream_of

SERVED = [(16, 1024), (6, 1024), (8, 1024), (8, 2048), (16, 4096), (64, 4096), (6, 16384)]
LISTS, REQUESTS, TURNS, AGAIN = 42, 110, 5, 30
# Volumes that commands change: their sizes, the lengths of what is put, and how many commands.
PUTS = [((8, 2048), [0, 10, 300, 900, 1500], 60), ((64, 4096), [20000, 20000, 7000, 100, 0], 12),
        ((12, 1024), [0, 64, 200, 1500, 2500], 60)]
SESSIONS, LOADS, SCRIPTS = 4, 6, 8


# Requests to `serve`.

def changes(draw, judge, count):
    """Changes at random, of which most are granted, some of them with a look or a `sync` after; the volume is never full."""
    judge, most, some = copy.deepcopy(judge), judge.tree.data_max, ["/" + name for name in "abcdefgh"] + ["/d/x", "/d/y"]
    while count > 0:
        have = [path for path in some if judge.tree.find(path) is not None]
        free = [path for path in some if path not in have]
        full = judge.tree.weight_bound() > 0.8 * sure_room(judge.sectors, judge.size)
        verb = draw.choice((["write"] * 12 + ["truncate", "rename", "remove"]) * bool(have) + ["create"] * 2 + ["mkdir"])
        path = draw.choice(have if have and verb not in ("create", "mkdir") else free or some)
        request = {"write": (path, draw.choice([0, 0, 70, 500]), draw.randbytes(draw.choice([1, 60, most // 2, most, most]))),
                   "truncate": (path, draw.choice([0, 100, 1000])), "rename": (path, draw.choice(free or some)),
                   "mkdir": ("/d",)}.get(verb, (path,))
        request = ("remove", draw.choice(have)) if full and have else (verb, *request)
        if judge.tree.cause(in_words(*request)) is None:
            judge.tree.grant(in_words(*request))
        yield request
        if draw.random() < 0.05:
            yield draw.choice([("sync",), ("list", "/"), ("read", path, 0, 100)])
        count -= 1


class Asked:
    """Requests, what answers them, and the trees before the first and after each."""

    def __init__(self, requests, judge, out):
        self.changes, self.trees, self.ends, self.why = [], [copy.deepcopy(judge.tree)], [], None
        at = len(b"pumpgrape 1\n")
        for request in requests:
            end = out.find(b"\n", at) + 1
            if not end:
                break
            answer = out[at:end - 1].decode()
            self.why = self.why or judge.take(answer, *request)
            counted = request[0] in ("list", "read") and answer[:3] == "ok "
            at = end + (int(answer.split(" ")[-1]) if counted else 0)
            self.changes.append(answer == "ok")
            self.trees.append(copy.deepcopy(judge.tree))
            self.ends.append(at)
        self.dumps = [tree.dump() for tree in self.trees]

    def answered(self, printed):
        """How many requests were answered once so much was printed, up to the last of them that had to be synced."""
        count = sum(end <= len(printed) for end in self.ends)
        return max([0] + [at + 1 for at in range(count) if self.changes[at]]), count

    def wrong(self, lines, printed):
        least, count = self.answered(printed)
        return wrong_among(self.dumps, lines, least, count + 1)


def wrong_among(dumps, lines, least, most):
    """Why a tree is none of those that may be left, or None."""
    if lines in dumps[least:most + 1]:
        return None
    older = [count for count in range(least) if dumps[count] == lines]
    some = f"what {older[-1]} requests make" if older else "what no requests make"
    return f"{some} is left, in place of what {least} to {most} do"


class Serving:
    """Requests to `serve`, and more of them on what a loss of power or a kill has left."""

    def __init__(self, runner, program, seed):
        self.runner, self.program, self.seed = runner, program, seed
        self.sizes, self.random = SERVED[seed % len(SERVED)], random.Random(seed)
        self.image = runner.folder / f"blocks.{seed}.image"

    def ask(self, given, count, tree=None):
        """Asks so many requests of a volume in a file that holds these bytes: the events, and what was answered."""
        judge = Judge(*self.sizes)
        if tree:
            # Where the power was lost fewer sectors may be erased than NoSpace is stated for.
            judge.tree, judge.may_be_full = copy.deepcopy(tree), lambda: True
        requests = list(changes(self.random, judge, count))
        self.image.write_bytes(given)
        words = [self.program, "serve", self.image, "--sector-size", self.sizes[1]]
        notes = Notes(self.runner, words, stream_of(requests))
        asked = Asked(requests, judge, notes.out)
        why = asked.why or (f"status {notes.status}: {notes.errors}" if notes.status else None)
        self.runner.tally.add(f"blocks, list {self.seed}, answers", why)
        return notes.of(self.image.stat().st_ino), asked

    def run(self):
        given, count, tree = b"\xff" * (self.sizes[0] * self.sizes[1]), REQUESTS, None
        for turn in range(TURNS):
            events, asked = self.ask(given, count, tree)
            found = States(self.runner, self.program, self.sizes, self.random)
            found.judge(given, events, asked.wrong)
            found.tell("serve, after a loss of power" if turn else "serve", f"blocks, list {self.seed}, turn {turn}")
            self.kill(given, events, asked, turn)
            if found.one is None or found.why:
                break
            given, lines = found.one
            count, tree = AGAIN, asked.trees[asked.dumps.index(lines)]

    def kill(self, given, events, asked, turn):
        """What was written before a kill may be in flight still when the file is opened again."""
        events = events[:self.random.randrange(len(events))]
        left, before = left_by(given, events), printed_in(events)
        least, count = asked.answered(before)
        lines, _ = lines_in(left, *self.sizes)
        at = next((at for at in (count + 1, count) if asked.dumps[at:at + 1] == [lines]), None)
        if at is None:
            self.runner.tally.add(f"blocks, list {self.seed}, killed in turn {turn}", "what is left is of no requests")
            return
        more, then = self.ask(left, AGAIN, asked.trees[at])
        dumps = asked.dumps[:at] + then.dumps

        def wrong(lines, printed):
            if len(printed) < len(before):
                return asked.wrong(lines, printed)
            synced, answered = then.answered(printed[len(before):])
            return wrong_among(dumps, lines, at + synced if synced else least, at + answered + 1)

        found = States(self.runner, self.program, self.sizes, self.random)
        found.judge(given, events + more, wrong)
        found.tell("serve, after a kill", f"blocks, list {self.seed}, killed in turn {turn}")


# Commands.

class Recorded:
    """Calls whose writes are noted; the states that may be left of the last one."""

    def call(self, command, *words, data=b"", after=None):
        if command == "format":
            return super().call(command, *words, data=data)
        self.given = self.image.read_bytes()
        call = [self.program, command, self.image, *words, "--sector-size", self.sizes[1]]
        self.notes = Notes(self.runner, call, data)
        return self.notes.status

    def judge(self, group, what, wrong):
        found = States(self.runner, self.program, self.sizes, self.random)
        found.judge(self.given, self.notes.of(self.image.stat().st_ino), lambda lines, _: wrong(contents(lines)))
        found.tell(group, what)


class Putting(Recorded, Session):
    """Puts, renames and removals on one volume."""

    def __init__(self, runner, program, seed, sizes, lengths):
        super().__init__(runner, program, seed)
        self.runner, self.seed, self.sizes, self.size, self.lengths = runner, seed, sizes, sizes[1], lengths
        self.image = runner.folder / f"blocks.put.{sizes[0]}.{sizes[1]}.{seed}.image"

    def begin(self):
        status = self.call("format", *self.sizes) or self.call("put", "/a", data=b"begun")
        self.files = {"/a": b"begun"}
        return f"status {status}" if status else None

    def step(self, number):
        kind, words, data, done = self.choose()
        status = self.call(kind, *words, data=data)
        what = f"blocks, {kind} {number} on {self.sizes[0]} x {self.sizes[1]} of session {self.seed}"
        if status not in (0, 4):
            return self.runner.tally.add(what, f"status {status}: {self.notes.errors}")
        wanted = [self.files] + [done] * (status == 0)

        def wrong(found):
            unfinished = found.pop(beside(words[0]), None)
            allowed = wanted
            if unfinished is not None and kind == "put":
                without = {path: held for path, held in self.files.items() if path != words[0]}
                allowed = [self.files] * is_part(unfinished, data, self.size) + [without] * (unfinished == data)
            return None if found in allowed else f"{sorted(found)}, in place of {[sorted(files) for files in wanted]}"

        self.judge(kind, what, wrong)
        self.files = done if status == 0 else self.files
        return None


class Trees(Recorded, Loading):
    """Loads of trees, and removals of all that is below a directory."""

    def __init__(self, runner, program, seed):
        super().__init__(runner, program, seed)
        self.runner, self.sizes, self.seed = runner, (8, 2048), seed
        self.image, self.tree = (runner.folder / f"blocks.load.{seed}{end}" for end in (".image", ""))

    def step(self, number):
        entries = self.draw()
        status, what = self.call("load", self.tree), f"blocks, load {number} of session {self.seed}"
        before = self.files
        self.runner.tally.add(f"{what}, its status", f"status {status}" if status else None)
        self.judge("load", what, lambda found: None if stopped_at(before, entries, found) is not None
                   else f"{sorted(found)} of {[path for path, _ in entries]} over {sorted(before)}")
        self.files = {**before, **dict(entries)}
        self.remove(f"blocks, rm -r {number} of session {self.seed}")

    def remove(self, what):
        before, below = self.files, [path for path in self.files if (path + "/").startswith("/d/")]
        left = [{path: held for path, held in before.items() if path not in gone} for gone in first_parts(below)]
        status = self.call("rm", "-r", "/d")
        self.runner.tally.add(f"{what}, its status", f"status {status}" if status else None)
        self.judge("rm -r", what, lambda found: None if found in left else f"{sorted(found)} of {sorted(before)}")
        self.files = left[-1]


def first_parts(paths):
    """What is gone after each removal: the names of a directory stand before what is in them, and the last one goes first."""
    order, at = [path for path in paths if path.count("/") == 1], 0
    while at < len(order):
        order += sorted(path for path in paths if path.rpartition("/")[0] == order[at])
        at += 1
    return [order[at:] for at in range(len(order), -1, -1)]


# Scripts.

def run_script(runner, program, looks, seed):
    """A script of one writer on a new file: some number of first commands are there at any moment, and all once it prints
    what became of them."""
    head, commands, after = script(seed)
    image, what = runner.folder / f"blocks.script.{seed}.image", f"blocks, script {seed}"
    notes = Notes(runner, [program, "--volume", image], "\n".join(head + commands).encode() + b"\n")
    sizes = tuple(map(int, head[0].split(" ")[1:]))
    events = notes.of(image.stat().st_ino)
    granted = [line.endswith(b" appended") for line in notes.out.splitlines()[:len(commands)]]
    runner.tally.add(f"{what}, its end", None if notes.status == 0 and all(granted) else f"status {notes.status}")
    made = next((at for at, event in enumerate(events) if event[0] == "S"), 0)

    def wrong(lines, printed):
        least = len(commands) if printed else 0
        return None if done_in(after, contents(lines), least) is not None else f"{lines} is left of {least} commands or more"

    found = States(runner, looks, sizes, random.Random(seed))
    found.judge(left_by(b"", events[:made]), events[made:], wrong)
    found.tell("jffs --volume", what)
    runner.tally.add(f"{what}, the new file", wrong_new(notes, image))


def wrong_new(notes, image):
    """Why the name of a new file may be gone, or its bytes, or None: they are synced before it gets its name, and its
    directory after that."""
    kinds = [kind if kind in "RLA" else kind + "d" * (inode == image.parent.stat().st_ino)
             for kind, inode, _, _ in notes.all]
    named = [at for at, (kind, _, _, data) in enumerate(notes.all) if kind in "RL" and data.decode() == str(image)]
    if not named:
        return "it isn't renamed"
    before, after = kinds[:named[-1]], kinds[named[-1]:]
    synced = "S" in before and "W" not in before[before.index("S"):]
    told = after.index("A") if "A" in after else len(after)
    return None if synced and "Sd" in after[:told] else f"it is written and synced so: {''.join(kinds)[:60]}"


def format_new(runner, program):
    image = runner.folder / "blocks.format.image"
    notes = Notes(runner, [program, "format", image, 6, 1024])
    runner.tally.add("blocks, format", f"status {notes.status}" if notes.status else wrong_new(notes, image))


def blocks(runner):
    """The part of the sweep."""
    program, scripts = runner.program("jffs_volume"), runner.program("jffs")
    if not program or not runner.build(runner.notes_writes):
        return
    thin, runner.blocks = runner.options.thin, {}
    runner.each(range(LISTS // thin), lambda seed: Serving(runner, program, seed).run())
    runner.each([(seed, *put) for put in PUTS for seed in range(max(1, SESSIONS // thin))],
                lambda session: put_all(runner, program, *session))
    runner.each(range(max(1, SESSIONS // thin)), lambda seed: load_all(runner, program, seed))
    if scripts:
        runner.each(range(max(1, SCRIPTS // thin)), lambda seed: run_script(runner, scripts, program, seed))
    format_new(runner, program)
    for group, (made, refused, other, heals, syncs) in runner.blocks.items():
        print(f"  {group}: {made} states around {syncs} syncs, {heals} of them healed; {refused} refused, {other} with other "
              "files", flush=True)


def put_all(runner, program, seed, sizes, lengths, count):
    session = Putting(runner, program, seed, sizes, lengths)
    runner.tally.add(f"blocks, begin {sizes} {seed}", session.begin())
    for number in range(count // runner.options.thin):
        session.step(number)


def load_all(runner, program, seed):
    session = Trees(runner, program, seed)
    runner.tally.add(f"blocks, begin load {seed}", session.begin())
    for number in range(max(1, LOADS // runner.options.thin)):
        session.step(number)
