"""Builds pumpgrape-mount, and mounts volumes by it."""
import os
import pathlib
import shutil
import subprocess
import time

from second_reader import left
from served import make, program_of

TOP = pathlib.Path(__file__).resolve().parent.parent.parent
BUILT = TOP / "mount/out"
# Seconds within which a volume is mounted, and within which what was started ends after it.
LIMIT = 60
VALGRIND = ["valgrind", "-q", "--error-exitcode=99", "--leak-check=full", "--errors-for-leak-kinds=definite",
            f"--suppressions={TOP / 'mount/libfuse.supp'}"]
# How the mount is started in each of these runs: the words before it, and the program in mount/out/.
RUNS = {"plain": ([], "pumpgrape-mount"), "sanitized": ([], "sanitized"), "valgrind": (VALGRIND, "pumpgrape-mount")}


def missing():
    """What of the things that a mount needs isn't there, or None."""
    if not os.access("/dev/fuse", os.R_OK | os.W_OK):
        return "/dev/fuse can't be opened"
    for program in ("cc", "make", "pkg-config", "fusermount3"):
        if not shutil.which(program):
            return f"there is no {program}"
    found = subprocess.run(["pkg-config", "--exists", "fuse3"], check=False).returncode == 0
    return None if found else "there is no libfuse 3"


def build(runner):
    """Whether both programs could be built."""
    for target in ("out/pumpgrape-mount", "sanitized"):
        built = subprocess.run(["make", "-C", str(TOP / "mount"), target], capture_output=True, text=True, check=False)
        runner.tally.add(f"make {target}", built.stderr if built.returncode else None)
        if built.returncode:
            return False
    return True


class NotMounted(Exception):
    """The program ended before it had mounted."""


class Mounted:
    """A volume that is mounted at `top`, until the block of its `with` ends."""

    def __init__(self, runner, name, sizes=(64, 16384), run="plain", options="", program=None):
        self.sizes, self.image = sizes, make(runner, name, *sizes)
        self.top, self.errors = runner.folder / f"{name}.mounted", runner.folder / f"{name}.errors"
        self.top.mkdir()
        self.words, built = RUNS[run]
        self.options = f"serve={program or program_of(runner)},sector_size={sizes[1]}{options}"
        self.command = [*self.words, BUILT / built, self.image, self.top, "-f", "-o", self.options]
        self.process = None

    def start(self):
        with self.errors.open("wb") as errors:
            # Leaks are left to valgrind, which tells libfuse's from others.
            self.process = subprocess.Popen([str(word) for word in self.command], stderr=errors,
                                            env={**os.environ, "ASAN_OPTIONS": "detect_leaks=0"})
        before, last = self.top.parent.stat().st_dev, time.monotonic() + LIMIT
        while self.top.stat().st_dev == before:
            if self.process.poll() is not None or time.monotonic() > last:
                raise NotMounted(self.said())
            time.sleep(0.003)
        return self

    __enter__ = start

    def __exit__(self, *_):
        """Leaves nothing behind, whatever went wrong."""
        self.detach()
        try:
            self.process.wait(LIMIT)
        except subprocess.TimeoutExpired:
            self.process.kill()
            self.process.wait()

    def said(self):
        return self.errors.read_text(errors="replace")

    def serving(self):
        """The number of the process that serves the volume."""
        number = self.process.pid
        return int(pathlib.Path(f"/proc/{number}/task/{number}/children").read_text().split()[0])

    def stop(self):
        """Unmounts; the status of the mount's program."""
        for _ in range(50):
            if subprocess.run(["fusermount3", "-u", str(self.top)], capture_output=True, check=False).returncode == 0:
                break
            time.sleep(0.1)
        return self.process.wait(LIMIT)

    def detach(self):
        """Takes away what a killed mount has left."""
        subprocess.run(["fusermount3", "-u", "-z", str(self.top)], capture_output=True, check=False)

    def left(self, healed=False):
        return left(self.image, *self.sizes, healed)

    def wrong_end(self):
        """Unmounts; why the end is wrong, or None: the log has to be clean, and nothing is told."""
        status = self.stop()
        if status or self.said():
            return f"status {status}: {self.said()}"
        found = self.left()
        return None if found and found[0] == "mounted clean" else "no clean log is left"
