"""Kills a mount, or what serves it, at random moments while files are written: what was fsynced before has to be
whole."""
import os
import pathlib
import random
import signal
import threading
import time

from mounting import LIMIT, Mounted, NotMounted
from second_reader import contents

MOMENTS = 200
# Seconds after which the last kill comes; a session writes some tens of files in them.
LAST = 0.25
SIZES = (16, 4096)
NAMES = ["a", "b", "c", "d", "e"]


class Writing:
    """Writes files as careful programs do, until a call fails: under a name beside, then fsync, then rename."""

    def __init__(self, top, seed):
        self.top, self.random = top, random.Random(seed)
        # Of each name the content that it has for sure, and the one that is on its way to it and was fsynced.
        self.sure, self.coming = {}, {}
        self.thread = threading.Thread(target=self.run)

    def run(self):
        try:
            while True:
                self.replace(self.random.choice(NAMES), self.random.randbytes(self.random.choice([1, 100, 700, 3000])))
        except OSError:
            pass

    def replace(self, name, data):
        beside = self.top / f"{name}.new"
        with open(beside, "wb", buffering=0) as file:
            for at in range(0, len(data), 500):
                file.write(data[at:at + 500])
            os.fsync(file.fileno())
            self.coming[name] = data
        beside.rename(self.top / name)
        self.sure[name] = data
        del self.coming[name]

    def wrong(self, files):
        """Why what is left is wrong, or None."""
        for name in NAMES:
            here, beside = files.get(name), files.get(f"{name}.new")
            sure, coming = self.sure.get(name), self.coming.get(name)
            # The rename takes two records, the old file's removal and the new one's name.
            held = [(sure, None)] if coming is None else [(sure, coming), (None, coming), (coming, None)]
            if (here, beside) not in held and not (coming is None and here == sure):
                return f"of {name} {here and len(here)} and {beside and len(beside)} bytes are left"
        return None


def kills(runner):
    runner.each(range(MOMENTS // runner.options.thin), lambda seed: kill(runner, seed))


def kill(runner, seed):
    victim = ("mount", "serve")[seed % 2]
    try:
        why = kill_one(runner, seed, victim)
    except (NotMounted, OSError) as fault:
        why = f"{type(fault).__name__} {fault}"
    runner.tally.add(f"mounted: kill {seed}, of {victim}", why)


def kill_one(runner, seed, victim):
    """Why what is left after a kill is wrong, or None."""
    with Mounted(runner, f"kill.{seed}", SIZES) as mount:
        writing, serving = Writing(mount.top, seed), mount.serving()
        writing.thread.start()
        time.sleep(random.Random(-seed).uniform(0, LAST))
        os.kill(serving if victim == "serve" else mount.process.pid, signal.SIGKILL)
        writing.thread.join(LIMIT)
        if writing.thread.is_alive():
            return "a call hangs"
        status = mount.stop() if victim == "serve" else mount.process.wait(LIMIT)
        mount.detach()
        if status != (1 if victim == "serve" else -signal.SIGKILL):
            return f"status {status}: {mount.said()}"
        if not gone(serving):
            return "what served goes on"
    runner.tally.count(f"the {victim}", 1)
    found = mount.left(healed=True)
    if found is None:
        return "no volume is left"
    return writing.wrong({path[1:]: data for path, data in contents(found[1]).items()})


def gone(process):
    """Whether a process that isn't ours ends soon; nobody may have asked for its status yet."""
    last = time.monotonic() + LIMIT
    while time.monotonic() < last:
        try:
            state = pathlib.Path(f"/proc/{process}/stat").read_text().rpartition(")")[2].split()[0]
        except OSError:
            return True
        if state == "Z":
            return True
        time.sleep(0.002)
    return False
