"""Fills small volumes with puts until they are refused, and looks what a refused put leaves."""
import random
import subprocess

SIZES = [(6, 1024), (8, 1024), (6, 2048), (8, 2048)]
LENGTHS = [0, 1, 50, 100, 192, 193, 400, 700, 1000, 1500, 3000]
NAMES, COMMANDS, VOLUMES = 10, 60, 120


class Filling:
    """A volume in a file, and the files that the granted commands made."""

    def __init__(self, runner, program, seed):
        self.program, self.image = program, runner.folder / f"fills.{seed}.image"
        self.random, self.files = random.Random(seed), {}
        self.sectors, self.size = self.random.choice(SIZES)

    def call(self, command, *words, data=b""):
        """The status of a command, and what it writes."""
        size = [] if command == "format" else ["--sector-size", self.size]
        call = [str(word) for word in (self.program, command, self.image, *words, *size)]
        ran = subprocess.run(call, input=data, capture_output=True, check=False, timeout=60)
        return ran.returncode, ran.stdout

    def step(self):
        """A put, or a removal: why it ended in another way than it may, or None."""
        name = f"/f{self.random.randrange(NAMES)}"
        if self.random.random() < 0.85:
            data = self.random.randbytes(self.random.choice(LENGTHS))
            status, _ = self.call("put", name, data=data)
            if status == 0:
                self.files[name] = data
            return None if status in (0, 4) else f"a put ended with status {status}"
        return self.remove(name) if name in self.files else None

    def remove(self, name):
        del self.files[name]
        status, _ = self.call("rm", name)
        return f"a removal ended with status {status}" if status else None

    def look(self):
        """Whether the volume has the files of the granted commands and no other name."""
        listed = self.call("ls")[1].decode().splitlines()
        wanted = [f"f {len(data)} {name[1:]}" for name, data in sorted(self.files.items())]
        return None if listed == wanted else f"{listed} in place of {wanted}"

    def run(self):
        """Why the volume is another one than its commands say, or None."""
        if self.call("format", self.sectors, self.size)[0]:
            return "not made"
        for _ in range(COMMANDS):
            why = self.step() or self.look()
            if why:
                return why
        for name, data in self.files.items():
            if self.call("cat", name)[1] != data:
                return f"cat {name} writes other bytes"
        return next(filter(None, [self.remove(name) for name in list(self.files)]), None)


def fills(runner):
    program = runner.program("jffs_volume")
    if not program:
        return
    volumes = VOLUMES // runner.options.thin
    for seed in range(volumes):
        runner.tally.add(f"fills {seed}", Filling(runner, program, seed).run())
    runner.tally.count("jffs_volume put, rm", volumes)
    runner.tally.tell("volumes filled", "programs")
