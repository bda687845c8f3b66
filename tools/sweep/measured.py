"""Times the mount and the pipe beside the programs that do the same without them: the table of docs/BUILDING.md."""
import pathlib
import shutil
import statistics
import subprocess
import tempfile
import time

from mounting import Mounted, build, missing
from serve_client import Served
from served import make, program_of

FILES, LENGTH, TURNS = 100, 4096, 9
REQUESTS, DATA = 5000, b"x" * 192


def measure(runner):
    """Prints the rows; False where something that they need is missing."""
    program, replay = program_of(runner), runner.program("jffs_replay")
    if missing() or not program or not replay or not build(runner):
        print(f"  nothing is measured: {missing() or 'a program is missing'}")
        return
    print("| What | Median | Least |\n|---|---|---|")
    with tempfile.TemporaryDirectory(dir="/dev/shm") as memory:
        turns = [turn(runner, program, pathlib.Path(memory), number) for number in range(TURNS)]
    for what in turns[0]:
        row(f"{what}, {FILES} files of {LENGTH:,} bytes", [times[what] * 1000 for times in turns], "ms")
    for what, times in requests(runner, program, replay).items():
        row(what, [seconds / REQUESTS * 1e6 for seconds in times], "µs")


def row(what, times, unit):
    print(f"| {what} | {statistics.median(times):.1f} {unit} | {min(times):.1f} {unit} |", flush=True)


def seconds_of(*words, **options):
    started = time.perf_counter()
    subprocess.run([str(word) for word in words], check=True, stdout=subprocess.DEVNULL, **options)
    return time.perf_counter() - started


def turn(runner, program, memory, number):
    """The times of one turn, in which each stands on a volume or folder of its own."""
    given, back, times = memory / "given", memory / "back", {}
    folders = [given, memory / "plain", memory / "again"]
    for folder in folders:
        folder.mkdir()
    for file in range(FILES):
        (given / f"f{file}").write_bytes(bytes([file]) * LENGTH)
    with Mounted(runner, f"speed.{number}") as mount:
        times["`cp -r` into the mount"] = seconds_of("cp", "-r", f"{given}/.", mount.top)
        times["`cp -r` out of the mount"] = seconds_of("cp", "-r", f"{mount.top}/.", folders[2])
        mount.stop()
    image = make(runner, f"speed.{number}.load", 64, 16384)
    times["`jffs_volume load`"] = seconds_of(program, "load", image, given, "--sector-size", 16384)
    times["`jffs_volume save`"] = seconds_of(program, "save", image, back, "--sector-size", 16384)
    times["`cp -r` into a folder of a tmpfs"] = seconds_of("cp", "-r", f"{given}/.", folders[1])
    for folder in [*folders, back]:
        shutil.rmtree(folder)
    return times


def requests(runner, program, replay):
    """The times of so many requests: one by one by the pipe, and read from a file by jffs_replay."""
    times = {"`stat` by the pipe": [], "`write` of 192 bytes by the pipe": [], "the same write in `jffs_replay`": []}
    lines = ["flash 64 16384", "mount", "request 1 1 create /f"]
    lines += [f"request 1 {number} write /f 0 {DATA.hex()}" for number in range(2, REQUESTS + 2)]
    for number in range(TURNS):
        image = make(runner, f"requests.{number}", 64, 16384)
        with Served(program, "serve", image, "--sector-size", 16384) as client:
            client.ask("create", "/f")
            for what, request in zip(times, (("stat", "/f"), ("write", "/f", 0, DATA))):
                started = time.perf_counter()
                for _ in range(REQUESTS):
                    client.ask(*request)
                times[what].append(time.perf_counter() - started)
        start = seconds_of(replay, input="\n".join(lines[:3]).encode())
        times["the same write in `jffs_replay`"].append(seconds_of(replay, input="\n".join(lines).encode()) - start)
    return times
