"""System calls on a mounted volume, each with what it has to answer: at each limit and one beyond it, and for each cause of a
refusal that a volume can be brought to."""
import contextlib
import ctypes
import errno
import mmap
import os

FILE_MAX = 1 << 20


def table(top):
    """Each call with what it has to answer, and its words."""
    a, b, d, m, none = (f"{top}/{name}" for name in ("a", "b", "d", "m" * 20, "none"))
    deep, long = d + "/1" * 7, f"{top}/{'n' * 21}"
    yield from made(top, a, d, deep, long)
    for odd in (" ", "a b", "\t", "\n", "a\nb", "\x7f", "\u00e4", b"\xff".decode(errors="surrogateescape")):
        yield new, "EINVAL", f"{top}/{odd}"
        yield os.mkdir, "EINVAL", f"{top}/{odd}"
        yield os.rename, "EINVAL", a, f"{top}/{odd}"
        yield os.path.exists, False, f"{top}/{odd}"
    yield from missed(a, d, none)
    yield from sized(a)
    yield from renamed(top, a, b, d, m, none)
    yield from [(os.symlink, "EPERM", a, f"{top}/l"), (os.link, "EPERM", a, f"{top}/l"), (os.mkfifo, "EPERM", f"{top}/l"),
                (os.chmod, None, a, 0o600), (os.utime, None, a, (1, 1)), (sync, None, a), (sync, None, d),
                (removed_while_open, ["ESTALE"] * 5, b), (os.path.exists, False, b)]


def made(top, a, d, deep, long):
    """Names and depths, at their limits and one beyond."""
    yield from [(new, None, a), (new, "EEXIST", a), (os.mkdir, "EEXIST", a), (os.mkdir, None, d), (os.mkdir, "EEXIST", d)]
    yield from [(os.mkdir, None, d + "/1" * depth) for depth in range(1, 7)]
    yield from [(new, None, deep), (os.unlink, None, deep), (os.mkdir, None, deep), (new, "ENAMETOOLONG", deep + "/1"),
                (os.mkdir, "ENAMETOOLONG", deep + "/1"), (os.stat, "ENAMETOOLONG", deep + "/1"),
                (os.rename, "ENAMETOOLONG", a, deep + "/1")]
    yield from [(new, None, long[:-1]), (new, "ENAMETOOLONG", long), (os.mkdir, None, f"{top}/{'m' * 20}"),
                (os.mkdir, "ENAMETOOLONG", long), (os.rename, "ENAMETOOLONG", a, long), (os.stat, "ENAMETOOLONG", long),
                (os.stat, "ENAMETOOLONG", f"{top}/{'n' * 255}"), (new, None, f"{top}/!\"#$%&'()*+,-~`{{}}")]


def missed(a, d, none):
    """What isn't there, or is of the other kind."""
    yield from [(os.stat, "ENOENT", none), (new, "ENOENT", f"{none}/n"), (os.unlink, "ENOENT", none),
                (os.rmdir, "ENOENT", none), (new, "ENOTDIR", f"{a}/n"), (os.unlink, "EISDIR", d), (os.rmdir, "ENOTDIR", a), (os.rmdir, "ENOTEMPTY", d),
                (os.listdir, "ENOTDIR", a), (fetch, "EISDIR", d, 0, 1), (os.rename, "ENOENT", none, a)]


def sized(a):
    """Sizes and offsets, at their limits and one beyond; holes, cuts and appends."""
    yield from [(os.truncate, None, a, FILE_MAX), (os.truncate, "EFBIG", a, FILE_MAX + 1), (os.truncate, "EFBIG", a, 1 << 32),
                (place, 1, a, FILE_MAX - 1, b"z"), (place, "EFBIG", a, FILE_MAX, b"z"), (place, "EFBIG", a, 1 << 32, b"z"),
                (place, "EFBIG", a, 1 << 40, b"z"), (fetch, b"\0z", a, FILE_MAX - 2, 9), (fetch, b"", a, FILE_MAX, 9),
                (fetch, b"", a, 1 << 40, 9), (os.truncate, None, a, 0), (os.path.getsize, 0, a)]
    yield from [(place, 3, a, 5000, b"end"), (fetch, bytes(5000) + b"end", a, 0, 9000), (os.truncate, None, a, 5001),
                (os.truncate, None, a, 5005), (fetch, b"\0e\0\0\0\0", a, 4999, 9), (append, 1, a, b"x"),
                (fetch, b"\0x", a, 5004, 9), (emptied, None, a), (os.path.getsize, 0, a),
                (place, 5000, a, 0, b"m" * 5000), (mapped, b"m", a, 4500), (fetch, b"mMm", a, 4499, 3), (emptied, None, a)]


def renamed(top, a, b, d, m, none):
    """Names that are free, and names that are taken by a file or a directory."""
    yield from [(new, None, b), (place, 5, b, 0, b"other"), (os.rename, None, b, a), (fetch, b"other", a, 0, 9),
                (os.path.exists, False, b), (new, None, b), (rename_by, "EEXIST", a, b, 1), (rename_by, "EINVAL", a, b, 2),
                (os.rename, "EISDIR", a, d), (os.rename, "ENOTDIR", d, a), (os.rename, None, d, none),
                (os.rename, None, none, d), (os.rename, "EXDEV", f"{d}/1", none), (os.rename, "EINVAL", d, f"{d}/1/d"),
                (os.rename, "ENOTEMPTY", f"{d}/1", m), (os.rename, None, a, f"{d}/f"), (rename_by, None, f"{d}/f", a, 1), (fetch, b"other", a, 0, 9),
                (os.path.exists, True, b), (os.path.exists, False, f"{top}/{'n' * 21}")]


def fault_of(call, *words):
    """The name of the error that a system call ends with, or what it answers."""
    try:
        return call(*words)
    except OSError as fault:
        return errno.errorcode[fault.errno]


@contextlib.contextmanager
def opened(path, flags):
    """The descriptor of a file or directory, until the block of its `with` ends."""
    file = os.open(path, flags, 0o644)
    try:
        yield file
    finally:
        os.close(file)


def place(path, offset, data):
    """Writes at an offset; how many bytes were taken."""
    with opened(path, os.O_WRONLY) as file:
        return os.pwrite(file, data, offset)


def fetch(path, offset, count):
    with opened(path, os.O_RDONLY) as file:
        return os.pread(file, count, offset)


def new(path):
    with opened(path, os.O_WRONLY | os.O_CREAT | os.O_EXCL):
        pass


def rename_by(old, other, flags):
    """1 replaces nothing, and 2 exchanges."""
    if ctypes.CDLL(None, use_errno=True).renameat2(-100, os.fsencode(old), -100, os.fsencode(other), flags):
        raise OSError(ctypes.get_errno(), "renameat2")


def append(path, data):
    with open(path, "ab", buffering=0) as file:
        return file.write(data)


def sync(path):
    with opened(path, os.O_RDONLY) as file:
        os.fsync(file)


def mapped(path, at):
    """Changes a byte of the file's own mapping; what it was."""
    with open(path, "r+b") as file, mmap.mmap(file.fileno(), 0) as bytes_of:
        was = bytes_of[at:at + 1]
        bytes_of[at:at + 1] = was.upper()
        bytes_of.flush()
    return was


def emptied(path):
    open(path, "wb").close()


def removed_while_open(path):
    """A file that is removed is gone, also for who has it open."""
    with opened(path, os.O_RDWR) as file:
        os.unlink(path)
        new(path)
        calls = [(os.pwrite, b"z", 0), (os.pread, 9, 0), (os.ftruncate, 9), (os.fstat,), (os.fchmod, 0o600)]
        found = [fault_of(call, file, *words) for call, *words in calls]
    os.unlink(path)
    return found
