"""Loads a directory of the host with many files into a volume, and looks whether each comes back byte for byte."""
import random
import subprocess

SECTORS, SIZE = 64, 16384
FILES, LONGEST, ALL = 200, 100_000, 640_000
FOLDERS = ["", "/d", "/d/e", "/f"]


def draw(seed):
    """The files by their paths: one is empty, one has 100,000 bytes, and all fit the volume."""
    chosen = random.Random(seed)
    parts = [chosen.random() ** 4 for _ in range(FILES - 2)]
    sizes = [0, LONGEST] + [int(part * (ALL - LONGEST) / sum(parts)) for part in parts]
    return {f"{FOLDERS[at % len(FOLDERS)]}/{at}": chosen.randbytes(min(size, LONGEST)) for at, size in enumerate(sizes)}


def write_tree(top, files):
    for folder in FOLDERS:
        (top / folder[1:]).mkdir(parents=True)
    for path, content in files.items():
        (top / path[1:]).write_bytes(content)


def read_tree(top):
    return {f"/{path.relative_to(top)}": path.read_bytes() for path in top.rglob("*") if path.is_file()}


def files(runner):
    program = runner.program("jffs_volume")
    if not program:
        return
    for seed in range(1 if runner.options.quick else 4):
        come_back(runner, program, seed)
    runner.tally.tell("files compared", "volumes")


def come_back(runner, program, seed):
    """The files of one draw go in by `load`, and come back by `save` and by `cat`."""
    wanted = draw(seed)
    image, given, saved = (runner.folder / f"files.{seed}.{end}" for end in ("image", "given", "saved"))
    write_tree(given, wanted)

    def call(command, *words):
        size = [] if command == "format" else ["--sector-size", SIZE]
        asked = [str(word) for word in (program, command, image, *words, *size)]
        return subprocess.run(asked, capture_output=True, check=False, timeout=60)

    for command, words in (("format", (SECTORS, SIZE)), ("load", (given,)), ("save", (saved,))):
        ran = call(command, *words)
        runner.tally.add(f"files {seed}, {command}", ran.stderr.decode() or None)
    runner.tally.add(f"files {seed}, all saved", None if read_tree(saved) == wanted else "other files came back")
    for path, content in wanted.items():
        same = call("cat", path).stdout == content
        runner.tally.add(f"files {seed}, {path}", None if same else "cat writes other bytes")
    runner.tally.count("jffs_volume load, save, cat", len(wanted))
