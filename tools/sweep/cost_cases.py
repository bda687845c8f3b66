"""What `bench/count` counts: the jobs of bench/workloads.txt in small, and single calls, each at two sizes of what is
there when it is made. What a call costs is what twice as many calls take more, so that no program is needed that makes
it alone."""
import functools
import sys
from typing import Callable, NamedTuple, Tuple

from cases import TOP

sys.path.insert(0, str(TOP / "tools"))
from serve_client import encode  # noqa: E402
from write_volume import Volume  # noqa: E402

LARGEST, SMALLEST = (64, 16384), (6, 1024)
IMAGE = "volume.image"


class Run(NamedTuple):
    """A run of a program, in a folder that has the image that `begin` leaves, if any, under the name IMAGE."""
    program: str
    words: Tuple[str, ...] = ()
    text: bytes = b""
    begin: Tuple[str, ...] = ()
    sizes: Tuple[int, int] = LARGEST
    # How it has to end, and what the last line that it prints has.
    status: int = 0
    last: str = ""


class Call(NamedTuple):
    """A call: `run(size, calls)` makes it so often. The larger size is four times the other one; what the call costs
    there is that size to the power of `order` at most, beside what it costs at the other one."""
    name: str
    run: Callable
    sizes: Tuple[int, int]
    calls: int
    order: float
    what: str


def jobs():
    """The runs of the jobs in small, by name; each prints its line of what the gate compares."""
    stored = dict(line.split() for line in (TOP / "crates/jffs_jobs/stdout").read_text().splitlines())
    for line in (TOP / "bench/workloads.txt").read_text().splitlines():
        if line and line[0] != "#":
            name, program, *words = line.split()
            words = ["1" if word == "SEED" else word for word in words]
            yield name, Run(program, (*words, "small"), last=f"{words[0]} {stored[words[0]]}")


@functools.lru_cache(maxsize=None)
def image_of(begin, sizes):
    """The image of a volume on which these requests were granted."""
    volume = Volume(*sizes)
    for number, request in enumerate(begin, 1):
        volume.request(1, number, *request.split())
    volume.request(1, len(begin) + 1, "unmount")
    return bytes(volume.flash)


def served(begin, requests, last="ok", sizes=LARGEST):
    """A run of `jffs_volume serve` over a volume on which the first ones were granted before."""
    text = b"".join(encode(verb, *words) for verb, *words in requests)
    return Run("jffs_volume", ("serve", IMAGE, "--sector-size", str(sizes[1])), text, tuple(begin), sizes, last=last)


def replayed(begin, operations, last, sizes=LARGEST):
    """A run of `jffs_replay`: requests, and then operations of other kinds."""
    requests = [f"request 1 {number} {request}" for number, request in enumerate(begin, 1)]
    lines = ["flash {} {}".format(*sizes), "mount", *requests, *operations, ""]
    return Run("jffs_replay", (), "\n".join(lines).encode(), last=last)


def name_of(number):
    """Names in no order, all of one length."""
    return f"/d/{number * 7919 % 100000:05}"


def files(count):
    return ["mkdir /d"] + [f"create {name_of(number)}" for number in range(count)]


def names(count, first=0):
    return [name_of(number) for number in range(first, first + count)]


def pieces(count):
    return ["create /f"] + [f"fill /f {192 * number} 192 5a" for number in range(count)]


def over(paths, count):
    """Writes of 16 bytes over the same bytes of files, by turns."""
    return [("write", paths[number * 7 % len(paths)], 3, b"sixteen bytes ..") for number in range(count)]


def append(size, calls):
    return served(pieces(size), [("write", "/f", 192 * number, 192 * b"Z") for number in range(size, size + calls)])


def overwrite(size, calls):
    return served(files(size), over(names(size), calls))


def create(size, calls):
    return served(files(size), [("create", name) for name in names(calls, size)])


def rename(size, calls):
    return served(files(size), [("rename", name, name + "x") for name in names(calls)])


def remove(size, calls):
    return served(files(size), [("remove", name) for name in names(calls)])


def refused(size, calls):
    return served(files(size), [("remove", name + "x") for name in names(calls)], "refused NotFound")


def late(size, calls):
    """The oldest sector has so many dead records before a live one, and is looked at after each answer that changes."""
    begin = ["create /f", *(f"truncate /f {number}" for number in range(size)), "create /live", *pieces(100)[1:], "create /w"]
    return served(begin, [("write", "/w", 3, b"sixteen bytes ..")] * calls)


def deep(size, calls):
    begin = [f"mkdir {'/level' * depth}" for depth in range(1, size)] + [f"create {'/level' * size}"]
    return served(begin, over(["/level" * size], calls))


def long_write(size, calls):
    return served(["create /f"], [("write", "/f", 0, size * b"Z")] * calls)


def turn(size, calls):
    paths = [f"/f{number}" for number in range(size)]
    return served([f"create {path}" for path in paths], over(paths, calls), sizes=SMALLEST)


def read(size, calls):
    reads = [("read", "/f", 192 * (number * 7 % (size - 3)), 500) for number in range(calls)]
    return served(pieces(size), [*reads, ("sync",)])


def stat(size, calls):
    return served(files(size), [*(("stat", name) for name in names(calls)), ("sync",)])


def listing(size, calls):
    return served(files(size), [*[("list", "/d")] * calls, ("sync",)])


def clean(size, calls):
    begin = ["mkdir /d"]
    for name in names(size):
        begin += [f"create {name}", f"write {name} 0 {16 * '5a'}"]
    return replayed(begin, ["clean_oldest"] * calls, "erased sector", (64, 4096))


def mount(size, calls):
    writes = [f"write /f 3 {16 * '5a'}"] * size
    return replayed(["create /f", *writes], ["mount"] * calls, "mounted unclean")


def mount_files(size, calls):
    return replayed(files(size), ["mount"] * calls, "mounted unclean")


def parse(size, calls):
    lines = ["volume 64 16384", "writer", *[f"write /dir/name 3 {16 * '5a'}"] * (size + calls), "no command", ""]
    return Run("jffs", (), "\n".join(lines).encode(), status=2, last=f"bad script, line {size + calls + 3}: Command")


CALLS = [
    Call("append", append, (300, 1200), 200, .1, "a write of 192 bytes to the end of a file of so many pieces"),
    Call("overwrite", overwrite, (300, 1200), 200, .2, "a write of 16 bytes to one of so many files"),
    Call("create", create, (300, 1200), 200, .2, "a create beside so many files"),
    Call("rename", rename, (300, 1200), 100, .2, "a rename of one of so many files"),
    Call("remove", remove, (300, 1200), 100, .2, "a remove of one of so many files"),
    Call("refused", refused, (300, 1200), 200, .2, "a request that is refused as NotFound beside so many files"),
    Call("late", late, (60, 240), 200, .1, "a write of 16 bytes with so many dead records before a live one"),
    Call("deep", deep, (2, 8), 200, .4, "a write of 16 bytes to a path of so many names"),
    Call("long_write", long_write, (1000, 4000), 50, 1, "a write of so many bytes"),
    Call("turn", turn, (2, 8), 200, .3, "a write to one of so many files of a ring that turns, with its erases"),
    Call("read", read, (300, 1200), 200, .2, "a read of 500 bytes of a file of so many pieces"),
    Call("stat", stat, (300, 1200), 50, 1.1, "a look at one of so many files, which weighs its records"),
    Call("list", listing, (300, 1200), 10, 1.1, "the names and sizes of so many files"),
    Call("clean", clean, (300, 1200), 2, .5, "a cleaning of a sector of 28 live records, of so many, and the weight of what lives"),
    Call("mount", mount, (300, 1200), 4, 1.1, "a mount of so many records of one file"),
    Call("mount_files", mount_files, (300, 1200), 4, 1.2, "a mount of so many files, and their list"),
    Call("parse", parse, (500, 2000), 500, .1, "a command of a script, after so many"),
]
