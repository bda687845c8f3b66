"""A client of `jffs_volume serve` (docs/TOOLS.md has the requests), which needs only Python, 3.9 or later:

    from serve_client import Served
    with Served("./jffs_volume", "serve", "notes.image") as volume:
        volume.ask("create", "/greeting")
        volume.write("/greeting", 0, b"hello\n")
"""
import subprocess


class Refused(Exception):
    """What was asked for wasn't done. Its text is the answer: `refused NotFound`, `malformed`, `memory` ..."""


class Ended(Exception):
    """The program has ended, or it doesn't serve as this client knows it."""


def encode(verb, *words):
    """A request. A number stands in its line; a path or bytes are counted there, and follow it."""
    words = [word.encode() if isinstance(word, str) else word for word in words]
    line = [verb, *(str(len(word) if isinstance(word, bytes) else word) for word in words)]
    return " ".join(line).encode() + b"\n" + b"".join(word for word in words if isinstance(word, bytes))


class Served:
    def __init__(self, *words, **options):
        """Starts the program of these words; the options are those of subprocess.Popen."""
        self.process = subprocess.Popen([str(word) for word in words], stdin=subprocess.PIPE, stdout=subprocess.PIPE,
                                        **options)
        if self.process.stdout.readline() != b"pumpgrape 1\n":
            raise Ended(f"{words[0]} ended with status {self.end()}")
        self.write_max = int(self.ask("limits")[0])

    def ask(self, verb, *words):
        """The words after `ok`, once the request is done."""
        self.send(encode(verb, *words))
        return self.answer()

    def send(self, request):
        self.process.stdin.write(request)
        self.process.stdin.flush()

    def answer(self):
        kind, *words = self.process.stdout.readline().decode().rstrip("\n").split(" ")
        if kind != "ok":
            raise Refused(" ".join([kind, *words])) if kind else Ended("the program has ended")
        return words

    def read(self, path, offset=0, count=2**32 - 1):
        return self.process.stdout.read(int(self.ask("read", path, offset, count)[0]))

    def names(self, path):
        """The lines `d NAME` and `f SIZE NAME`, in the order of the names."""
        return self.process.stdout.read(int(self.ask("list", path)[1])).decode().splitlines()

    def write(self, path, offset, data):
        """Writes in pieces of the longest write; where one is refused, those before it stay."""
        for at in range(0, len(data), self.write_max):
            self.ask("write", path, offset + at, data[at:at + self.write_max])

    def end(self):
        """The status of the program, which unmounts at the end of its input."""
        self.process.stdin.close()
        self.process.stdout.close()
        return self.process.wait()

    def __enter__(self):
        return self

    def __exit__(self, *_):
        self.end()
