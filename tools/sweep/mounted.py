"""Uses mounted volumes as people do: trees, limits, refusals, a full volume, two writers; also where the mount runs with
sanitizers or below valgrind, and where the mount or what serves it is killed."""
import errno
import os
import pathlib
import random
import shutil
import subprocess
import sys
import time

import mount_kills
from mount_calls import fault_of, new, place, table
from mounting import BUILT, LIMIT, RUNS, Mounted, NotMounted, build, missing
from second_reader import left
from serve_client import Served
from served import make, program_of

# The longest piece of a write on the largest volume.
PIECE = 4032
STUB = pathlib.Path(__file__).resolve().parent / "stub_serve.py"
# How a tree goes in, and how it comes out again.
COPIES = {
    "cp -r": ("cp -r {given}/. {top}", "cp -r {top}/. {back}"),
    "cp -a": ("cp -a {given}/. {top}", "cp -a {top}/. {back}"),
    "tar": ("tar -C {given} -cf - . | tar -C {top} -xf -", "tar -C {top} -cf - . | tar -C {back} -xf -"),
    "rsync -r": ("rsync -r {given}/ {top}", "rsync -r {top}/ {back}"),
    "rsync -a": ("rsync -a {given}/ {top}", "rsync -a {top}/ {back}"),
}
# What an answer to a change is for a system call.
ANSWERS = {
    "refused_RootFixed": "EBUSY", "refused_NoParent": "ENOENT", "refused_NameTaken": "EEXIST",
    "refused_NotFound": "ENOENT", "refused_IsDirectory": "EISDIR", "refused_FileLong": "EFBIG",
    "refused_NotEmpty": "ENOTEMPTY", "refused_InodesSpent": "ENOSPC",
    "refused_VersionsSpent": "EROFS", "refused_Memory": "ENOMEM", "refused_NoSpace": "ENOSPC", "refused_Device": "EIO",
    "refused_Failed": "EIO", "refused_DataLong": "EIO", "memory": "ENOMEM", "malformed": "EINVAL",
}
# Answers after which nothing can be asked any more.
LAST = ["failed_Device", "end", "what", "refused", "ok_x", "ok_1_2_3_4_5_6", "ok__1", "ok_4294967296", "okay"]


def mounted(runner):
    """The part of the sweep."""
    why = missing()
    if why:
        print(f"  left out: {why}", flush=True)
        return
    if not program_of(runner) or not build(runner):
        return
    for program in ("valgrind", "rsync"):
        if not shutil.which(program):
            print(f"  left out: there is no {program}", flush=True)
    runs = [run for run in RUNS if run != "valgrind" or shutil.which("valgrind")]
    parts = [(trees, run) for run in runs] + [(calls, run) for run in runs] + [(answers, run) for run in runs]
    parts += [(part, "plain") for part in (called, background, read_only, dots)]
    parts += [(part, run) for part in (full, writers) for run in ("plain", "sanitized")]
    runner.each(parts, lambda part: play(runner, *part))
    mount_kills.kills(runner)
    runner.tally.tell("kills", "sessions")


def play(runner, part, run):
    """Plays a part, of which each step has a name and why it is wrong, or None."""
    name = f"{part.__name__}, {run}"
    try:
        for step, why in part(runner, f"{part.__name__}.{run}", run):
            runner.tally.add(f"mounted: {name}: {step}", why)
    except (NotMounted, OSError, subprocess.TimeoutExpired) as fault:
        runner.tally.add(f"mounted: {name}", f"{type(fault).__name__} {fault}")


def shell(command):
    """Why a command fails or complains, or None."""
    ran = subprocess.run(command, shell=True, stdout=subprocess.PIPE, stderr=subprocess.STDOUT, text=True, timeout=600,
                         check=False)
    return f"{command}: status {ran.returncode}: {ran.stdout}" if ran.returncode or ran.stdout else None


# Trees.

def grow(top, seed, files=60):
    """Makes a tree on the host, with files of all lengths, an empty directory and a deep one."""
    rand = random.Random(seed)
    folders = ["", "d", "d/e", "d/e/f", "empty", "1/2/3/4/5/6/7"]
    for folder in folders:
        (top / folder).mkdir(parents=True, exist_ok=True)
    lengths = [0, 1, 3, 64, PIECE - 1, PIECE, PIECE + 1, 4096, 100_000]
    lengths += [int(40_000 * rand.random() ** 4) for _ in range(files)]
    for number, length in enumerate(lengths):
        name = rand.choice(["{}", "~{}", "{}.txt", ".{}", "n{}{{}}"]).format(number)
        (top / rand.choice(folders[:4]) / name).write_bytes(rand.randbytes(length))
    (top / "d" / "x.txt").write_bytes(b"\0" * 5000)


def trees(runner, name, run):
    given = runner.folder / f"{name}.given"
    grow(given, 1, 60 if run == "plain" else 10)
    with Mounted(runner, name, run=run) as mount:
        for copy, (into, out) in COPIES.items():
            if not shutil.which(copy.split()[0]):
                continue
            back = runner.folder / f"{name}.{copy.replace(' ', '')}"
            back.mkdir()
            for command in (into, "diff -r {given} {top}", out, "diff -r {given} {back}", "diff -r {top} {back}"):
                yield f"{copy}: {command}", shell(command.format(given=given, top=mount.top, back=back))
            names = os.listdir(mount.top / "d")
            yield f"{copy}: names in order", None if names == sorted(names) else str(names)
            yield f"{copy}: removed", shell(f"find {mount.top} -mindepth 1 -delete")
        yield "end", mount.wrong_end()


# Calls, and what refuses them.

def calls(runner, name, run):
    """Each limit and one beyond it, and each cause that a refusal has."""
    with Mounted(runner, name, run=run) as mount:
        for call, wanted, *words in table(mount.top):
            yield f"{call.__name__} {words}"[:200], differs(fault_of(call, *words), wanted)
        yield "df", wrong_room(os.statvfs(mount.top))
        yield "what is shown", wrong_look(mount.top)
        yield "end", mount.wrong_end()


def wrong_room(room):
    """Why `df` shows something else than docs/MOUNT.md says, or None, of 64 sectors of 16,384 bytes."""
    sure, used = 733_440, room.f_frsize * (room.f_blocks - room.f_bfree)
    holds = (room.f_frsize * room.f_blocks, room.f_frsize * room.f_bavail + used, room.f_namemax) == (1 << 20, sure, 20)
    return None if holds and used > 0 else str(room)


def wrong_look(top):
    file, folder = os.stat(top / "a"), os.stat(top / "d")
    shown = (file.st_mode, folder.st_mode, file.st_uid, file.st_gid, file.st_size, file.st_nlink)
    holds = shown == (0o100644, 0o40755, os.getuid(), os.getgid(), 5, 1) and file.st_mtime == folder.st_mtime
    return None if holds and abs(file.st_mtime - time.time()) < 3600 else f"{file}, {folder}"


def answers(runner, name, run):
    """What each answer is for a system call, from a program that answers what it is asked to."""
    with Mounted(runner, name, run=run, program=STUB) as mount:
        for answer, wanted in ANSWERS.items():
            yield answer, differs(fault_of(new, f"{mount.top}/{answer}"), wanted)
        status = mount.stop()
        yield "end", f"status {status}: {mount.said()}" if status or mount.said() else None
    for number, answer in enumerate(LAST):
        with Mounted(runner, f"{name}.{number}", run=run, program=STUB) as mount:
            yield answer, differs(fault_of(new, f"{mount.top}/{answer}"), "EIO")
            after = [fault_of(new, mount.top / "memory"), fault_of(os.listdir, mount.top)]
            yield f"{answer}, then", differs(after, ["EIO", "EIO"])
            status = mount.stop()
            told = "jffs_volume serve has ended" in mount.said() and status == 1
            yield f"{answer}, end", None if told else f"status {status}: {mount.said()}"


def differs(found, wanted):
    return None if found == wanted else f"{found!r}, not {wanted!r}"


# The program's words, and how it comes and goes.

def called(runner, name, _):
    """Wrong calls, each with its status and some of what it says."""
    image, program, here = make(runner, name, 6, 1024), program_of(runner), runner.folder / f"{name}.top"
    here.mkdir()
    given = ["-o", f"serve={program}"]
    for words, status, said in [
            (["-h"], 0, "pumpgrape-mount IMAGE DIR"), (["--help"], 0, "fusermount3 -u"), (["-V"], 0, "pumpgrape-mount 0.1.0"),
            ([], 2, "IMAGE and DIR are wanted"), ([image], 2, "IMAGE and DIR are wanted"),
            ([image, here, "x"], 2, "unexpected word 'x'"), (["-x", image, here], 2, "unknown option '-x'"),
            ([image, here / "none", *given], 2, "none: No such file or directory"),
            ([image, image, *given], 2, "Not a directory"), ([runner.folder / "no.image", here, *given], 2, "no.image"),
            ([STUB, here, *given], 3, "stub_serve.py"),
            ([image, here, "-o", f"serve={here}/none"], 2, "none: No such file"),
            ([image, here, "-o", "serve=/bin/true"], 1, "doesn't serve as wanted"),
            ([image, here, "-o", "serve=/bin/echo"], 1, "doesn't serve as wanted"),
            ([image, here, *given, "-o", "nonsense"], 1, "nonsense")]:
        for more in ([], ["-f"]):
            call = [str(word) for word in (BUILT / "pumpgrape-mount", *words, *more)]
            ran = subprocess.run(call, stdout=subprocess.PIPE, stderr=subprocess.STDOUT, text=True, timeout=LIMIT,
                                 check=False)
            holds = ran.returncode == status and said in ran.stdout and not os.path.ismount(here)
            yield f"{call[1:]}", None if holds else f"status {ran.returncode}: {ran.stdout}"


def background(runner, name, _):
    """Mounts in the background, is refused a second time as long as that lasts, and leaves a clean log."""
    image, top = make(runner, name, 6, 1024), runner.folder / f"{name}.top"
    top.mkdir()
    call = [str(word) for word in (BUILT / "pumpgrape-mount", image, top, "-o", f"serve={program_of(runner)}")]
    ran = subprocess.run(call, capture_output=True, text=True, timeout=LIMIT, check=False)
    yield "mounted", None if (ran.returncode, ran.stdout + ran.stderr) == (0, "") and os.path.ismount(top) else str(ran)
    (top / "f").write_bytes(b"hello")
    again = subprocess.run(call, capture_output=True, text=True, timeout=LIMIT, check=False)
    yield "a second time", None if again.returncode in (1, 2) and image.name in again.stderr else str(again)
    yield "unmounted", shell(f"fusermount3 -u {top}")
    last, wanted = time.monotonic() + LIMIT, ("mounted clean", ["d /", f"f /f 5 {b'hello'.hex()}"])
    while left(image, 6, 1024) != wanted and time.monotonic() < last:
        time.sleep(0.01)
    yield "a clean log", None if left(image, 6, 1024) == wanted else str(left(image, 6, 1024))


def read_only(runner, name, _):
    """A volume that was filled and is mounted again, to be read only."""
    with Mounted(runner, name) as mount:
        (mount.top / "f").write_bytes(b"hello")
        yield "filled", mount.wrong_end()
    before = mount.image.read_bytes()
    mount.command[-1] += ",ro"
    with mount:
        yield "read", None if (mount.top / "f").read_bytes() == b"hello" else "other bytes"
        calls_of = [(new, "g"), (os.mkdir, "g"), (os.unlink, "f"), (place, "f", 0, b"z"), (os.truncate, "f", 0)]
        for call, file, *words in calls_of:
            yield call.__name__, differs(fault_of(call, mount.top / file, *words), "EROFS")
        yield "rename", differs(fault_of(os.rename, mount.top / "f", mount.top / "g"), "EROFS")
        yield "end", mount.wrong_end()
    yield "the file", None if mount.image.read_bytes() == before else "other bytes"


def dots(runner, name, run):
    """Names that mean something else in a path of the host."""
    mount = Mounted(runner, name, run=run)
    with Served(program_of(runner), "serve", mount.image, "--sector-size", mount.sizes[1]) as client:
        for path in ("/.", "/..", "/...", "/.a"):
            client.ask("create", path)
    with mount:
        listed = subprocess.run(["ls", "-aU", str(mount.top)], capture_output=True, text=True, check=False).stdout.split()
        yield "names", differs(listed, [".", "..", "...", ".a"])
        yield "end", mount.wrong_end()


# A full volume, and two writers.

def full(runner, name, run):
    """Files of one length until there is no room, on small volumes; each removal gives room again."""
    for sizes, length in (((6, 1024), 0), ((6, 1024), 100), ((6, 1024), 192), ((8, 2048), 1000), ((8, 4096), 7000)):
        what = f"{sizes}, files of {length} bytes"
        with Mounted(runner, f"{name}.{sizes[0]}.{sizes[1]}.{length}", sizes, run) as mount:
            made, data = 0, random.Random(length).randbytes(length)
            for turn in range(3):
                found = fill(mount.top, made, data)
                yield f"{what}, filled {turn}", found if isinstance(found, str) else None
                if isinstance(found, str):
                    break
                room = os.statvfs(mount.top)
                yield f"{what}, df {turn}", None if room.f_bavail * room.f_frsize < length + 192 else str(room)
                made += found
                yield f"{what}, removed {turn}", empty(mount.top, data)
            yield f"{what}, end", mount.wrong_end()


def fill(top, first, data):
    """How many whole files were written, or what else came than ENOSPC."""
    for number in range(first, first + 5000):
        path = top / str(number)
        try:
            path.write_bytes(data)
        except OSError as fault:
            path.unlink(missing_ok=True)
            if fault.errno == errno.ENOSPC and number > first:
                return number - first
            return f"{fault} after {number - first} files"
    return "it is never full"


def empty(top, data):
    """Reads and removes all files; why one is another, or None."""
    for path in sorted(top.iterdir()):
        if path.read_bytes() != data:
            return f"{path.name} has other bytes"
        path.unlink()
    return None


WRITER = """
import os, sys
top, me = sys.argv[1:]
shared = os.open(top + "/shared", os.O_WRONLY | os.O_CREAT | os.O_APPEND)
for turn in range(60):
    os.write(shared, (me * 20 + "%03d" % turn + "\\n").encode())
    with open(f"{top}/{me}{turn % 7}", "wb") as file:
        file.write(me.encode() * turn * 97)
    os.rename(f"{top}/{me}{turn % 7}", f"{top}/{me}")
"""


def writers(runner, name, run):
    """Two processes append to one file, and each writes files of its own over and over."""
    with Mounted(runner, name, run=run) as mount:
        started = [subprocess.Popen([sys.executable, "-c", WRITER, str(mount.top), me]) for me in "ab"]
        statuses = [process.wait(LIMIT * 5) for process in started]
        yield "both end", None if statuses == [0, 0] else str(statuses)
        lines = (mount.top / "shared").read_text().splitlines()
        wanted = {me: [me * 20 + f"{turn:03}" for turn in range(60)] for me in "ab"}
        found = {me: [line for line in lines if line[0] == me] for me in "ab"}
        yield "each line", None if found == wanted and len(lines) == 120 else f"{len(lines)} lines"
        for me in "ab":
            yield f"last file of {me}", None if (mount.top / me).read_text() == me * 59 * 97 else "other bytes"
        yield "names", differs(sorted(os.listdir(mount.top)), ["a", "b", "shared"])
        yield "end", mount.wrong_end()
