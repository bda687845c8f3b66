"""Kills jffs_volume and jffs with SIGKILL at random moments, and reads with the second reader what the file holds then.
Each erase goes as on many chips: what a kill leaves of its sector may be zeros, noise or half of it."""
import os
import random
import shutil
import signal
import subprocess
import time

from second_reader import contents, left

SECTORS, SIZE = 8, 2048
UNFINISHED = "/.put.new"
NAMES = ["/a", "/b", "/c", "/d"]
SESSIONS, COMMANDS = 8, 60
# A loaded tree has these directories, and some of these files.
FOLDERS = ["/d", "/d/e", "/f"]
LOADED = ["/a", "/d-", "/d/a", "/d/b", "/d/e/a", "/f/a"]
LOADS = 25
# Of so many commands of a script the first ones are run to their end, and the run of the others is killed.
SCRIPTS, LINES, FIRST = 200, 300, 100


class Session:
    """A volume in a file, the files that stand on it, and how often a command was killed."""
    group, steps, size = "jffs_volume", COMMANDS, SIZE
    # How many bytes are put.
    lengths = [0, 10, 300, 900, 1500]

    def __init__(self, runner, program, seed):
        self.program, self.random, self.killed = program, random.Random(seed), 0
        self.clearing = clearing(runner)
        self.image = runner.folder / f"{type(self).__name__}.{seed}.image"
        self.files, self.seconds = {}, 0.01

    def call(self, command, *words, data=b"", after=None):
        """The status of a command, which is killed so many seconds after its start."""
        call = [self.program, command, self.image, *words]
        if command != "format":
            call += ["--sector-size", SIZE]
        process = subprocess.Popen([str(word) for word in call], stdin=subprocess.PIPE, stdout=subprocess.DEVNULL,
                                   stderr=subprocess.DEVNULL, env=self.clearing)
        try:
            process.stdin.write(data)
            process.stdin.close()
        except BrokenPipeError:
            pass
        if after is not None:
            time.sleep(after)
            process.kill()
        return process.wait(20)

    def read(self):
        return read(self.image)

    def begin(self):
        """Makes the volume, and runs a first command to its end to see how long one takes; why it failed, or None."""
        status = self.call("format", SECTORS, SIZE)
        kind, words, data, done = self.first()
        started = time.monotonic()
        status = status or self.call(kind, *words, data=data)
        self.seconds, self.files = time.monotonic() - started, done
        return None if status == 0 and self.read() == done else f"status {status}"

    def first(self):
        return "put", [NAMES[0]], b"begun", {NAMES[0]: b"begun"}

    def choose(self):
        """A command with its words, its data, and the files once it is done."""
        have, before = sorted(self.files), dict(self.files)
        free = [name for name in NAMES if name not in before]
        kind = self.random.choice(["put"] * 4 + (["rm"] + ["mv"] * bool(free)) * bool(have))
        if kind == "put":
            target, size = self.random.choice(NAMES), self.random.choice(self.lengths)
            data = self.random.randbytes(size)
            return kind, [target], data, {**before, target: data}
        source = self.random.choice(have)
        content = before.pop(source)
        if kind == "rm":
            return kind, [source], b"", before
        target = self.random.choice(free)
        return kind, [source, target], b"", {**before, target: content}

    def step(self):
        """Runs one command and kills it; why what is left is wrong, or None."""
        kind, words, data, done = self.choose()
        status = self.call(kind, *words, data=data, after=self.random.uniform(0, 1.2 * self.seconds))
        self.killed += status == -signal.SIGKILL
        if status not in (0, 4, -signal.SIGKILL):
            return f"{kind} ended with status {status}"
        found = self.read()
        if found is None:
            return f"no volume is left by {kind}"
        unfinished = found.pop(UNFINISHED, None)
        wanted = [done] if status == 0 else [self.files] if status == 4 else [self.files, done]
        if unfinished is not None:
            if kind != "put":
                return f"{kind} left an unfinished file"
            without = {path: self.files[path] for path in self.files if path != words[0]}
            wanted = [self.files] * is_part(unfinished, data, self.size) + [without] * (unfinished == data)
        if found not in wanted:
            return f"{kind} {words} left {sorted(found)} in place of {sorted(self.files)} or {sorted(done)}"
        self.files = found
        return None if unfinished is None else self.settle(words[0], unfinished)

    def settle(self, target, unfinished):
        """Finishes a put that was killed, or takes it back, as its help says."""
        if target in self.files:
            status = self.call("rm", beside(target))
        else:
            status = self.call("mv", beside(target), target)
            self.files = {**self.files, target: unfinished}
        return None if status == 0 and self.read() == self.files else f"an unfinished file stays: status {status}"


class Loading(Session):
    """A session that loads trees of the host."""
    group, steps = "jffs_volume load", LOADS

    def __init__(self, runner, program, seed):
        super().__init__(runner, program, seed)
        self.tree = runner.folder / f"load.{seed}"

    def first(self):
        return "load", [self.tree], b"", dict(self.draw())

    def draw(self):
        """Makes a tree on the host; its directories and files in the order in which a load takes them."""
        chosen = [path for path in LOADED if self.random.random() < 0.8]
        tree = {path: self.random.randbytes(self.random.choice([0, 10, 300, 500])) for path in chosen}
        entries = sorted({**tree, **dict.fromkeys(FOLDERS)}.items())
        shutil.rmtree(self.tree, ignore_errors=True)
        self.tree.mkdir()
        for path, content in entries:
            target = self.tree / path[1:]
            if content is None:
                target.mkdir()
            else:
                target.write_bytes(content)
        return entries

    def load(self, entries):
        """Loads the tree to its end; why what is left is wrong, or None."""
        started = time.monotonic()
        status, self.files = self.call("load", self.tree), {**self.files, **dict(entries)}
        self.seconds = time.monotonic() - started
        return None if status == 0 and self.read() == self.files else f"a whole load: status {status}"

    def step(self):
        """Loads a tree and kills the load, and then loads it to its end; why what is left is wrong, or None."""
        entries = self.draw()
        status = self.call("load", self.tree, after=self.random.uniform(0, 1.2 * self.seconds))
        self.killed += status == -signal.SIGKILL
        if status not in (0, -signal.SIGKILL):
            return f"load ended with status {status}"
        found = self.read()
        if found is None:
            return "no volume is left by load"
        target = stopped_at(self.files, entries, found)
        if target is None or status == 0 and found != {**self.files, **dict(entries)}:
            return f"load left {sorted(found)} of {[path for path, _ in entries]} over {sorted(self.files)}"
        unfinished = found.pop(beside(target), None)
        self.files = found
        return (None if unfinished is None else self.settle(target, unfinished)) or self.load(entries)


def beside(target):
    """The path that a put to this one writes first."""
    return target.rpartition("/")[0] + UNFINISHED


def stopped_at(files, entries, found):
    """Where a load that was killed had come to: the path whose put has an unfinished file, or an empty one between two
    entries; None unless the first entries are there, over the files of before, and nothing else but that one."""
    files = dict(files)
    for path, content in entries:
        if found == files:
            return ""
        rest = dict(found)
        unfinished = rest.pop(beside(path), None)
        if content is not None and unfinished is not None:
            without = {other: files[other] for other in files if other != path}
            if rest == files and is_part(unfinished, content, SIZE) or rest == without and unfinished == content:
                return path
        files[path] = content
    return "" if found == files else None


def clearing(runner):
    """Surroundings in which each erase clears its sector first."""
    return dict(os.environ, LD_PRELOAD=str(runner.clears))


def read(path):
    """The directories, as None, and files on the volume in a file, as the second reader finds them once an erase that was
    cut off is ended; None where it finds no volume."""
    found = left(path, SECTORS, SIZE, healed=True)
    return contents(found[1]) if found else None


def script(seed):
    """The lines before a script's commands, the commands of its one writer, and the files after each first part of them."""
    draw, commands = random.Random(seed), []
    files, after = {}, [{}]
    for _ in range(LINES):
        have, free = sorted(files), [name for name in NAMES if name not in files]
        kind = draw.choice((["write"] * 6 + ["remove"] + ["rename"] * bool(free)) * bool(have) + ["create"] * bool(free))
        target = draw.choice(free if kind == "create" else have)
        content = b"" if kind == "create" else files.pop(target)
        words = [kind, target]
        if kind == "write":
            data = draw.randbytes(draw.randint(1, 150))
            words += ["0", data.hex()]
            files[target] = data + content[len(data):]
        elif kind == "rename":
            words.append(draw.choice(free))
            files[words[-1]] = content
        elif kind == "create":
            files[target] = content
        commands.append(" ".join(words))
        after.append(dict(files))
    return [f"volume {SECTORS} {SIZE}", *["cleaner 1000"] * (seed % 2), "writer"], commands, after


def done_in(after, files, least):
    """The fewest commands, at least `least`, that leave these files; None where no number of them does."""
    return next((count for count in range(least, len(after)) if after[count] == files), None)


def glance(process, image):
    """The files on the volume in the file of a program that is stopped for as long as they are read."""
    process.send_signal(signal.SIGSTOP)
    # None unless it was seen to have ended before.
    if process.returncode is None:
        os.waitid(os.P_PID, process.pid, os.WSTOPPED | os.WEXITED | os.WNOWAIT)
    found = read(image)
    process.send_signal(signal.SIGCONT)
    return found


def run_first(runner, program, image, lines):
    """Runs first commands on a new volume; why they weren't all answered, or None. Answers are printed at a run's end."""
    ran = runner.run([program, "--volume", image], "\n".join(lines) + "\n", limit=60)
    answers = [line for line in ran.out.splitlines() if line.endswith(" appended")]
    return None if ran.status == 0 and len(answers) == FIRST else f"status {ran.status}, {len(answers)} were appended"


def run_script(runner, program, seed, seconds=None):
    """Runs the first commands of a script to their end, and then the others, stops these once, and kills them; whether
    they were killed, how long they ran, and why what is left is wrong, or None. What was answered in the first run, and
    what the file held when the second one was stopped, has to be there."""
    head, commands, after = script(seed)
    image, written = (runner.folder / f"script.{seed}.{end}" for end in ("image", "script"))
    why = run_first(runner, program, image, head + commands[:FIRST])
    if why:
        return False, 0, why
    written.write_text("\n".join(head + commands[FIRST:]) + "\n")
    sure, draw, started = FIRST, random.Random(-seed), time.monotonic()
    with written.open() as given:
        process = subprocess.Popen([str(program), "--volume", str(image)], stdin=given, stdout=subprocess.DEVNULL,
                                   stderr=subprocess.DEVNULL, env=clearing(runner))
    if seconds is not None:
        time.sleep(draw.uniform(0.05, 0.5) * seconds)
        sure = done_in(after, glance(process, image), FIRST)
        time.sleep(draw.uniform(0, 0.3) * seconds)
        process.kill()
    status, spent = process.wait(60), time.monotonic() - started
    if status not in (0, -signal.SIGKILL):
        return False, spent, f"status {status}"
    if sure is None:
        return status != 0, spent, "a stopped script's file has other files than some first commands leave"
    found, least = read(image), LINES if status == 0 else sure
    held = done_in(after, found, least) is not None
    return status != 0, spent, None if held else f"{found and sorted(found)} is left, not what {least} commands or more leave"


def kill_scripts(runner):
    program = runner.program("jffs")
    if not program:
        return
    _, seconds, why = run_script(runner, program, 0)
    runner.tally.add("script 0, not killed", why)

    def play(seed):
        killed, _, why = run_script(runner, program, seed, seconds)
        runner.tally.add(f"script {seed} killed", why)
        runner.tally.count("jffs --volume", killed)

    runner.each(range(1, SCRIPTS // runner.options.thin + 1), play)


def is_part(some, data, size):
    """Whether so many whole writes of the data were done, or all, in sectors of this size."""
    return data.startswith(some) and (len(some) == len(data) or len(some) % (size // 4 - 64) == 0)


def kills(runner):
    program = runner.program("jffs_volume")
    if not program or not runner.build(runner.clears):
        return

    def play(make, seed):
        session = make(runner, program, seed)
        runner.tally.add(f"{make.group} {seed}, begin", session.begin())
        for number in range(make.steps // runner.options.thin):
            runner.tally.add(f"{make.group} {seed}, command {number}", session.step())
        runner.tally.count(make.group, session.killed)

    for make in (Session, Loading):
        runner.each(range(SESSIONS), lambda seed: play(make, seed))
    kill_scripts(runner)
    runner.tally.tell("commands killed", "sessions")
