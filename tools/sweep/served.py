"""Asks `jffs_volume serve` by its pipe: made lists of requests against the model, malformed requests, input that ends
anywhere, and a refusal of each allocation."""
import os
import random
import subprocess
import threading

import malformed
from model import Tree, sure_room
from second_reader import left
from serve_client import Ended, Refused, Served, encode

SIZES = [(6, 1024), (6, 1024), (8, 1024), (8, 2048), (16, 4096), (64, 16384)]
LISTS, REQUESTS = 300, 80
MADE = 10_000
# Lists whose allocations are refused, and the requests of each.
REFUSED, SHORT = 8, 25
# Seconds after which a program is taken for one that hangs.
LIMIT = 120
PATHS = ["/a", "/b", "/dir", "/dir/f", "/dir/g", "/dir/e", "/dir/e/x", "/..", "/.", "/%20~'\"\\!", "/" + 20 * "n"]
DEEP = ["/1" * depth for depth in range(1, 9)]


def program_of(runner):
    return runner.options.serve or runner.program("jffs_volume")


def served(runner):
    """The part of the sweep."""
    program = program_of(runner)
    if not program:
        return
    thin = runner.options.thin

    def play(seed):
        runner.tally.add(f"list {seed}", Requests(runner, program, seed).run())
        runner.tally.count("lists of requests", REQUESTS)

    runner.each(range(LISTS // thin), play)
    runner.tally.tell("requests asked", "lists")
    refuse_malformed(runner, program)
    end_anywhere(runner, program)
    if not runner.options.serve and runner.build(runner.counts_syncs):
        sync_each(runner, program)
    if runner.build(runner.refuses):
        runner.each(range(REFUSED // min(thin, REFUSED)), lambda seed: refuse_allocations(runner, program, seed))
        runner.tally.tell("allocations refused", "lists")


def make(runner, name, sectors, size):
    image = runner.folder / f"{name}.image"
    image.write_bytes(b"\xff" * (sectors * size))
    return image


class Timed(Served):
    """A client whose program is stopped once it takes too long."""

    def __init__(self, program, image, size, **options):
        self.timer, self.image = None, image
        super().__init__(program, "serve", image, "--sector-size", size, **options)
        self.timer = threading.Timer(LIMIT, self.process.kill)
        self.timer.start()

    def end(self):
        if self.timer:
            self.timer.cancel()
        try:
            return super().end()
        except BrokenPipeError:
            return self.process.wait()


def text_of(client, verb, *words):
    """The line that answers a request."""
    try:
        return " ".join(["ok", *client.ask(verb, *words)])
    except Refused as refused:
        return str(refused)


class Judge:
    """The tree that the granted requests made, and whether an answer is right."""

    def __init__(self, sectors, size):
        self.sectors, self.size, self.tree, self.changed = sectors, size, Tree(size), False

    def wanted(self, verb, *words):
        """The line that has to answer a request, where the tree says it: not `room`, `check` and what weighs how much."""
        tree, found = self.tree, self.tree.find(words[0]) if words else None
        if verb in ("sync", "unmount"):
            return "ok"
        if verb == "limits":
            return f"ok {tree.data_max} 168 20 8 1048576"
        if verb in ("stat", "read", "list") and found is None:
            return "refused NotFound"
        if verb == "stat":
            return "ok d 0" if isinstance(found, dict) else f"ok f {len(found.bytes)}"
        if verb == "list":
            text = lines_of(found, words[0])
            return f"ok {len(text)} {sum(map(len, text)) + len(text)}"
        if verb == "read":
            held = "" if isinstance(found, dict) else found.bytes[words[1]:words[1] + words[2]]
            return "refused IsDirectory" if isinstance(found, dict) else f"ok {len(held)}"
        if verb == "write" and len(words[2]) > tree.data_max:
            return "malformed"
        cause = tree.cause(in_words(verb, *words))
        return f"refused {cause}" if cause else "ok"

    def take(self, answer, verb, *words):
        """Why the line that answers is wrong, or None; does to the tree what was granted."""
        wanted = self.wanted(verb, *words)
        if verb == "stat" and wanted != answer.rpartition(" ")[0] and wanted != answer:
            return f"{verb} {words} is answered {answer}, not {wanted} LIVE"
        full = wanted == "ok" and answer == "refused NoSpace" and self.may_be_full()
        if verb != "stat" and answer != wanted and not full:
            return f"{verb} {words} is answered {answer}, not {wanted}"
        if answer == "ok" and verb not in ("sync", "unmount"):
            self.tree.grant(in_words(verb, *words))
            self.changed = True
        return None

    def wanted_end(self):
        """How the log ends: where nothing was changed, the erased volume stays as it was."""
        return "mounted clean" if self.changed else "mounted unclean"

    def may_be_full(self):
        return self.tree.weight_bound() >= sure_room(self.sectors, self.size)

    def weighed(self, room, lives):
        """Why the answer to `room` is wrong, or None; `lives` is what each file and directory weighs."""
        sectors, size, erased, live, sure = map(int, room.split(" ")[1:])
        holds = ((sectors, size, sure) == (self.sectors, self.size, sure_room(self.sectors, self.size))
                 and live == sum(lives) and erased <= sectors and live <= self.tree.weight_bound())
        return None if holds else f"room is {room}, for {sum(lives)} bytes of at most {self.tree.weight_bound()}"


def in_words(verb, *words):
    """A request as a script has it."""
    return [verb, *(word.hex() or "-" if isinstance(word, bytes) else str(word) for word in words)]


def lines_of(found, path):
    """The lines of `list`."""
    entries = sorted(found.items()) if isinstance(found, dict) else [(path.rpartition("/")[2], found)]
    return [f"d {name}" if isinstance(entry, dict) else f"f {len(entry.bytes)} {name}" for name, entry in entries]


class Requests:
    """A list of requests on a volume of its own."""

    def __init__(self, runner, program, seed):
        self.runner, self.program, self.random = runner, program, random.Random(seed)
        self.sectors, self.size = self.random.choice(SIZES)
        self.seed, self.judge = seed, Judge(self.sectors, self.size)

    def path(self):
        draw = self.random.random()
        return self.random.choice(PATHS if draw < 0.85 else DEEP if draw < 0.95 else ["/", "/none/n"])

    def change(self):
        """A change at random; most are granted."""
        rand, path, longest = self.random, self.path(), self.judge.tree.data_max
        verb = rand.choice(["create"] * 3 + ["mkdir", "truncate", "remove"] * 2 + ["write"] * 8 + ["rename"])
        if verb == "rename":
            return verb, path, self.path()
        if verb == "truncate":
            return verb, path, rand.choice([0, rand.randrange(3000), 1 << 20, (1 << 20) + 1, 2**32 - 1])
        if verb == "write":
            offset = rand.choice([0, 0, rand.randrange(500), rand.randrange(3000), (1 << 20) - 10, 2**32 - 1])
            return verb, path, offset, rand.randbytes(rand.choice([0, 1, 5, 60, 191, longest, longest, longest + 1]))
        return verb, path

    def look(self):
        path, offset, count = self.path(), self.random.randrange(3000), self.random.choice([0, 10, 5000, 2**32 - 1])
        return self.random.choice([("stat", path), ("list", path), ("read", path, offset, count), ("sync",), ("limits",)])

    def ask(self, client, *request):
        """Why a request is answered wrongly, or None."""
        answer = text_of(client, *request)
        if request[0] in ("list", "read") and answer.startswith("ok "):
            counted = client.process.stdout.read(int(answer.split(" ")[-1]))
            if counted != self.counted(*request):
                return f"{request} is answered {counted!r}"
        why = self.judge.take(answer, *request)
        if answer == "refused NoSpace" and not why:
            live, sure = map(int, text_of(client, "room").split(" ")[4:])
            why = None if live >= sure else f"{request[:2]} has no room at {live} of {sure} bytes"
        return why

    def counted(self, verb, path, *numbers):
        """The bytes after the line of an answer."""
        found = self.judge.tree.find(path)
        if verb == "read":
            return bytes(found.bytes[numbers[0]:sum(numbers)])
        return "".join(f"{line}\n" for line in lines_of(found, path)).encode()

    def weigh(self, client):
        paths = [line.split(" ")[1] for line in self.judge.tree.dump()[1:]]
        lives = [int(text_of(client, "stat", path).split(" ")[-1]) for path in paths]
        return self.judge.weighed(text_of(client, "room"), lives)

    def run(self):
        """Asks all of them; why an answer is wrong, or what is left, or None."""
        image = make(self.runner, f"list.{self.seed}", self.sectors, self.size)
        try:
            with Timed(self.program, image, self.size) as client:
                why = self.asked(client)
                if not why and self.seed % 2:
                    why = self.ask(client, "unmount")
                status = client.end()
        except (Ended, BrokenPipeError, ValueError) as fault:
            return f"the answers end, or aren't understood: {type(fault).__name__} {fault}"
        dump = ("mounted clean", self.judge.tree.dump())
        if why or status:
            return why or f"status {status}"
        return None if left(image, self.sectors, self.size) == dump else "another tree is left, or an unclean log"

    def asked(self, client):
        looked = self.random.randrange(REQUESTS)
        for number in range(REQUESTS):
            why = self.ask(client, *(self.look() if self.random.random() < 0.3 else self.change()))
            why = why or (self.weigh(client) if number % 20 == 19 else None)
            if number == looked and not why:
                found = left(client.image, self.sectors, self.size)
                why = None if found and found[1] == self.judge.tree.dump() else "the file hasn't what was answered"
            if why:
                return f"request {number}: {why}"
        return None


# Malformed requests.

def begin(client):
    """Makes the files that malformed requests name."""
    for request in (("mkdir", "/d"), ("create", "/d/f"), ("create", "/a"), ("write", "/a", 0, b"hello")):
        client.ask(*request)


def refuse_malformed(runner, program):
    """Each is answered as one, and a request after it as if it hadn't been there."""
    image = make(runner, "malformed", 6, 1024)
    rand = random.Random(1)
    made = [(f"made {number}", malformed.made(rand)) for number in range(MADE // runner.options.thin)]
    with Timed(program, image, 1024) as client:
        begin(client)
        before = image.read_bytes()
        for name, request in list(malformed.table()) + made:
            runner.tally.add(f"malformed, {name}", answer_to(client, request))
        runner.tally.add("malformed, what is in the file", None if image.read_bytes() == before else "other bytes")
        runner.tally.add("malformed, the end", f"status {client.process.returncode}" if client.end() else None)


def answer_to(client, request):
    """Why a malformed request is answered wrongly, or the one after it, or None."""
    try:
        client.send(request)
        answer = client.process.stdout.readline()
        after = text_of(client, "stat", "/a")
    except (BrokenPipeError, Ended):
        return f"the program has ended after {request[:200]!r}"
    holds = (answer, after) == (b"malformed\n", "ok f 5 72")
    return None if holds else f"{answer!r}, then {after}, after {request[:200]!r}"


# Input that ends anywhere.

ENDED = [("create", "/b"), ("write", "/b", 0, b"12345"), ("stat", "/b"), ("rename", "/b", "/c"), ("truncate", "/c", 3),
         ("read", "/c", 0, 9), ("mkdir", "/d"), ("list", "/"), ("remove", "/d")]


def end_anywhere(runner, program):
    """What was asked for whole is done, and the volume is unmounted, after whichever byte the input ends."""
    stream = stream_of(ENDED)

    def play(end):
        runner.tally.add(f"input that ends after {end} bytes", end_after(runner, program, stream[:end]))

    runner.each(range(0, len(stream) + 1, runner.options.thin), play)


def stream_of(requests):
    return b"".join(encode(*request) for request in requests)


def end_after(runner, program, given):
    """Why what is answered or left after this input is wrong, or None."""
    image, judge = make(runner, f"cut.{len(given)}", 6, 1024), Judge(6, 1024)
    ran = runner.run([program, "serve", image, "--sector-size", 1024], given, limit=LIMIT)
    whole = [request for at, request in enumerate(ENDED) if len(stream_of(ENDED[:at + 1])) <= len(given)]
    why = judge_output(judge, whole, ran)
    if why or ran.status:
        return why or f"status {ran.status}"
    wanted = (judge.wanted_end(), judge.tree.dump())
    return None if left(image, 6, 1024) == wanted else "another tree is left, or the log ends in another way"


def judge_output(judge, requests, ran):
    """Why what a program has answered to these requests is wrong, or None. Where an allocation was refused to it, it may
    have said so instead, or have ended."""
    greeting, _, out = ran.out.partition("\n")
    if greeting != "pumpgrape 1":
        return None if ran.refused and ran.status == 1 and ran.out == "" else f"it begins with {greeting!r}"
    for request in requests:
        answer, _, out = out.partition("\n")
        if ran.refused and answer in ("memory", "refused Memory"):
            continue
        if ran.refused and ran.status == 1 and (answer, out) in (("", ""), ("failed Memory", "")):
            break
        why = judge.take(answer, *request)
        if why:
            return why
        out = out[int(answer.split(" ")[-1]):] if request[0] in ("list", "read") and answer[:2] == "ok" else out
    return f"{out!r} comes after the last answer" if out else None


# Refused allocations.

def sync_each(runner, program):
    """Counts how often the operating system is asked to bring a volume's file to the medium: once before each change is
    answered, of which each lies in one block here, and for a `sync`, by commands that change the file, and by none that
    only looks."""
    image, syncs = make(runner, "synced", 8, 1024), runner.folder / "syncs"
    env = dict(os.environ, LD_PRELOAD=str(runner.counts_syncs), SYNCS=str(syncs))

    def counted(what, least, most, act):
        syncs.unlink(missing_ok=True)
        act()
        found = syncs.stat().st_size if syncs.exists() else 0
        runner.tally.add(f"syncs of {what}", None if least <= found <= most else f"{found}, where {least} to {most} are right")

    def command(*words):
        subprocess.run([str(word) for word in (program, *words)], input=b"bytes", env=env, check=True, capture_output=True)

    client = Timed(program, image, 1024, env=env)
    for number, verb in enumerate(("create", "sync", "create", "mkdir", "sync")):
        words = () if verb == "sync" else (f"/{number}",)
        # Before the first change of a session what an earlier program wrote is synced.
        counted(f"{verb}, served", 1, 1 + (number == 0), lambda verb=verb, words=words: client.ask(verb, *words))
    counted("a refused create, served", 0, 0, lambda: text_of(client, "create", "/0"))
    counted("list, served", 0, 0, lambda: client.names("/"))
    counted("unmount, served", 1, 2, lambda: client.ask("unmount"))
    client.end()
    for words in (("put", image, "/a"), ("mkdir", image, "/b"), ("mv", image, "/a", "/c"), ("rm", image, "/c")):
        counted(words[0], 1, 9, lambda words=words: command(*words, "--sector-size", 1024))
    for words in (("ls", image), ("df", image), ("check", image), ("cat", image, "/0")):
        counted(words[0], 0, 0, lambda words=words: command(*words, "--sector-size", 1024))


def refuse_allocations(runner, program, seed):
    """Each in turn, and then all from one on: each answer is right or says that memory was lacking, and what the answers
    say is in the file."""
    draw = Requests(runner, program, seed)
    sectors, size = draw.sectors, draw.size
    requests = [draw.change() if number % 4 else draw.look() for number in range(SHORT)]
    requests += [("unmount",)] * (seed % 2)
    given = stream_of(requests)

    def run(at, limit, on=False):
        image = make(runner, f"refused.{seed}", sectors, size)
        ran = runner.run([program, "serve", image, "--sector-size", size], given, at=at, on=on, limit=limit)
        ran.left = left(image, sectors, size)
        return ran

    def judge(ran):
        return ran.crash() or judge_left(ran, requests, Judge(sectors, size))

    runner.refuse_each("jffs_volume serve", f"list {seed}", run, judge)
    at, step, ran = 1, 1 + 7 * (runner.options.thin > 1), None
    while ran is None or ran.refused:
        ran = run(at, LIMIT, True)
        runner.tally.add(f"list {seed}, all refused from allocation {at} on", judge(ran))
        at += step


def judge_left(ran, requests, judge):
    why = judge_output(judge, requests, ran)
    if why or ran.status not in ((0, 1) if ran.refused else (0,)):
        return why or f"status {ran.status}: {ran.errors}"
    if ran.left is None or ran.left[1] != judge.tree.dump():
        return "another tree is left"
    return None if ran.left[0] == judge.wanted_end() or ran.status == 1 else "the log ends in another way"
