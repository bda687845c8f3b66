"""Sentences of the pages, each with calls of our programs that would show it false. `docs_check said` runs them."""
import pathlib
import subprocess
import sys
import tempfile

TOP = pathlib.Path(__file__).resolve().parent.parent
ERASED = b"\xff"


def record(kind=1, inode=2, version=1, offset=0, removed=0, data=b"", size=0, form=1, name=b"f", parent=1):
    """The closed record of a node, in the root unless another directory is named, as docs/FORMAT.md lays it out."""
    header = b"JFF1" + bytes([kind, 0, len(name), 0])
    for number in (inode, parent, version, offset, len(data), removed):
        header += number.to_bytes(4, "big")
    header += (1).to_bytes(2, "big") + form.to_bytes(2, "big") + bytes(4) + size.to_bytes(4, "big")
    return header + name.ljust(20, b"\0") + data + ERASED * (-len(data) % 4)


def image(*records):
    """Six sectors of 1,024 bytes, of which the first holds these records."""
    return b"".join(records).ljust(6144, ERASED)


def script(*lines):
    return "\n".join(("volume 6 1024", *lines)) + "\n"


def on_core(*lines):
    return "\n".join(("flash 6 1024", "mount", *lines)) + "\n"


# The oldest sector holds 15 records, all dead, and isn't erased.
DEAD = on_core("request 1 1 create /f", *(f"request 1 {n} truncate /f 0" for n in range(2, 17)), "request 10 1 unmount")
FULL_TAIL = on_core("request 1 1 create /f", *(f"request 1 {n} truncate /f 0" for n in range(2, 16)), "request 10 1 unmount")
# Damaged volumes: a record of a kind that there is none of, between two others; the later name first; a file over a
# directory; a file without its directory.
DAMAGED = {
    "kind.image": image(record(), record(kind=9, version=2), record(version=3, inode=3, name=b"g")),
    "order.image": image(record(version=2, name=b"new"), record(name=b"old")),
    "unfit.image": image(record(kind=2, name=b"d"), record(version=2), record(version=3, inode=3, name=b"g")),
    "lost.image": image(record(parent=9)),
}
HELD = "sectors 0 1\n"
FREED = "sectors 1\n"

LOADED = [("jffs_volume format new.image 6 1024", "", 0, "", ""), ("jffs_volume load new.image had", "", 0, "", "")]

# The page, words of the sentence, and the calls: program and words, standard input, status, and what standard output and
# standard error have among other things; where nothing is to be written, the empty text.
CASES = [
    ("SCRIPT", "`0` alone is a number", [
        ("jffs", script("writer", "create /f", "write /f 0 61"), 0, "1.2 appended", ""),
        ("jffs", script("writer", "create /f", "write /f 00 61"), 2, "bad script, line 4: Number", "leading zero")]),
    ("SCRIPT", "one at the beginning", [
        ("jffs", script(" writer"), 2, "bad script, line 2: Command", "a space too many")]),
    ("SCRIPT", "any other empty word is told of where it stands", [
        ("jffs", script("writer", "create /f", "write /f  61"), 2, "line 4: Number", "got an empty word (a space too many)"),
        ("jffs", script("writer", "create /f", "write /f 0  61"), 2, "line 4: Command", ": a space too many: words stand")]),
    ("SCRIPT", "COUNT times, 0 to 4,096", [
        ("jffs", script("writer", "create /f", "fill /f 0 0 61"), 0, "1.2 appended", ""),
        ("jffs", script("writer", "create /f", "fill /f 0 4097 61"), 2, "line 4: Number", "number from 0 to 4096")]),
    ("SCRIPT", "also where there are no bytes; or SIZE is more", [
        ("jffs", script("writer", "create /f", "write /f 1048576 -", "write /f 1048577 -", "truncate /f 1048577"), 0,
         "1.2 appended\n1.3 refused FileLong\n1.4 refused FileLong\n", "")]),
    ("SCRIPT", "After each answer, a refusal too", [
        ("jffs --volume dead.image", script("writer", "remove /none"), 0, "1.1 refused NotFound", ""),
        ("jffs_image 6 1024 < dead.image", "", 0, FREED, "")]),
    ("FORMAT", "`jffs_volume` after each\nrequest that was granted", [
        ("jffs_image 6 1024 < dead.image", "", 0, HELD, ""),
        ("jffs_volume rm dead.image /none", "", 4, "", "nothing stands at the path"),
        ("jffs_image 6 1024 < dead.image", "", 0, HELD, ""),
        ("jffs_volume mkdir dead.image /d", "", 0, "", ""),
        ("jffs_image 6 1024 < dead.image", "", 0, FREED, "")]),
    ("SCRIPT", "Of more than 40 bytes it shows 40 and two dots", [
        ("jffs", script("x" * 50), 2, "line 2: Command", "unknown command '" + "x" * 40 + "..';")]),
    ("SCRIPT", "of `line` it is `line shared C, or line rings C`", [
        ("jffs", script("line shared"), 2, "line 2: Command", "a word is missing: line shared C, or line rings C")]),
    ("SCRIPT", "where it comes to the words, it takes them from left to right", [
        ("jffs", "volume 5 x\n", 2, "bad script, line 1: Volume", "a volume has 6 to 64 sectors, got 5")]),
    ("SCRIPT", "depth first: a directory", [
        ("jffs", script("writer", "create /b", "mkdir /a", "create /a/x"), 0, "d /\nd /a\nf /a/x 0 -\nf /b 0 -\n", "")]),
    ("SCRIPT", "or is not\nas long as the script's sectors together", [
        ("jffs --volume dead.image", "volume 8 1024\n", 1, "", "the file has 6144 bytes, and the script's sectors have 8192")]),
    ("SCRIPT", "has the line `fault: Mount`", [
        ("jffs --volume zero.image", script(), 1, "fault: Mount\n", "zero.image: no volume, BadRecord: the record at byte 0")]),
    ("SCRIPT", "a word of\nthe call", [
        ("jffs --help dead.image", "", 2, "", "unexpected word 'dead.image' beside '--help'")]),
    ("SCRIPT", "as a record's gate is, it is nothing", [
        ("jffs_replay", "fuse 1 Writes Half\n" + on_core("request 1 1 mkdir /d", "mount"), 0,
         "refused Device\nmounted unclean next 1 2 |", "")]),
    ("SCRIPT", "A fuse waits for the next `mount`", [
        ("jffs_replay", "fuse 0 Writes Nothing\n" + on_core("request 1 1 mkdir /d"), 0, "refused Device\n", "")]),
    ("SCRIPT", "where the log has only one or none", [
        ("jffs_replay", on_core("clean_oldest"), 0, "one sector ; erased 6", "")]),
    ("SCRIPT", "after which a request can't be done", [
        ("jffs_replay", on_core("request 10 1 unmount", "clean_oldest", "erase_dead", "image"), 0, "erased 0 ; erased 5", ""),
        ("jffs_replay", on_core("request 10 1 unmount", "request 1 1 mkdir /d"), 2, "closed at 0", "the core is closed")]),
    ("SCRIPT", "Of a directory OFFSET is 0 and HEX is `-`", [
        ("jffs_replay", on_core("request 1 1 mkdir /d", "request 9 1 copy 1 1 d 1 -", "request 9 2 copy 1 1 d 0 -"), 0,
         "refused Stale ; erased 5 erases 0 weight 64 next 2 3\ncopied 2 at 64", ""),
        ("jffs_replay", on_core("request 9 1 copy 1 1 a/b 0 -"), 2, "mounted", "name expected, got 'a/b'")]),
    ("FORMAT", "data length only if the data length is 0", [
        ("jffs_image 6 1024", image(record(data=b"a", removed=2)), 3, "refused BadRecord 0 0 Size", ""),
        ("jffs_image 6 1024", image(record(form=2)), 0, "f /f 0 -", "")]),
    ("FORMAT", "0 on an erased volume, which has no tail", [
        ("jffs_replay", on_core("request 10 1 unmount"), 0, "closed at 0 ;", "")]),
    ("FORMAT", "at byte 136, stands the unmount node", [
        ("jffs_image 6 1024 < old.image", "", 0, "record 0 136 64 3 dead", "")]),
    ("TOOLS", "after which nothing was programmed", [
        ("jffs_replay", FULL_TAIL + "mount\n", 0, "closed at 960 ; erased 5 erases 0 weight 64 next 17 3\nmounted clean", "")]),
    ("TOOLS", "`volume clean, N records`", [
        ("jffs_volume check dead.image", "", 0, "volume clean, 17 records\n", ""),
        ("jffs_volume check zero.image", "", 3, "", "no volume")]),
    ("TOOLS", "the SIZE of a directory is 0", [
        ("jffs_volume mkdir dead.image /d", "", 0, "", ""), ("jffs_volume ls -l dead.image", "", 0, "d 0 64 d\n", "")]),
    ("TOOLS", "ends sooner than its sizes say", [
        ("jffs_image 6 1024", b"short", 2, "", "the image has 5 bytes, and its sectors have 6144"),
        ("jffs_image 60000 16384", b"short", 2, "", "the image has 5 bytes")]),
    ("TOOLS", "and without leading zeros", [
        ("jffs_image 06 1024", image(), 2, "", "two numbers, got '06'")]),
    ("TOOLS", "standard error says so", [
        ("jffs_image 1024 6", image(), 3, "refused Geometry\n", "SECTORS comes first")]),
    ("TOOLS", "A path that ends in\n`/.put.new` itself is refused for a put", [
        ("jffs_volume put dead.image /.put.new", "x", 2, "", "is kept for puts"),
        ("jffs_volume mkdir dead.image /.put.new", "", 0, "", "")]),
    ("TOOLS", "What stands from there on in its\nsector is left out", [
        ("jffs_volume save --from-damaged kind.image had", "", 0, "", "sector 0 is left out from byte 64 on: the record there is bad"),
        *LOADED, ("jffs_volume ls new.image", "", 0, "f 0 f\n", ""), ("jffs_volume cat new.image /g", "", 4, "", "nothing")]),
    ("TOOLS", "taken in the order of their versions", [
        ("jffs_volume save --from-damaged order.image had", "", 0, "", "the versions of the log don't rise"),
        *LOADED, ("jffs_volume ls new.image", "", 0, "f 0 new\n", ""), ("jffs_volume cat new.image /old", "", 4, "", "nothing")]),
    ("TOOLS", "Else it alone is left out, with a line of its own", [
        ("jffs_volume save --from-damaged unfit.image had", "", 0, "", "the record at byte 64 of sector 0 is left out"),
        *LOADED, ("jffs_volume ls new.image", "", 0, "d d\nf 0 g\n", "")]),
    ("TOOLS", "is saved with all\nbelow it in `lost+found-of-the-volume/INODE` of DIRECTORY", [
        ("jffs_volume save --from-damaged lost.image had", "", 0, "", "had/lost+found-of-the-volume/2: its directory is missing"),
        ("jffs_volume format new.image 6 1024", "", 0, "", ""),
        ("jffs_volume load new.image had/lost+found-of-the-volume/2", "", 0, "", ""),
        ("jffs_volume ls new.image", "", 0, "f 0 f\n", "")]),
    ("TOOLS", "Of a volume that a mount takes it does what `save` does", [
        ("jffs_volume save --from-damaged dead.image had", "", 0, "", ""),
        *LOADED, ("jffs_volume ls new.image", "", 0, "f 0 f\n", "")]),
    ("TOOLS", "So is `-`", [
        ("jffs -", script(), 2, "", "unknown option '-'"), ("jffs_volume ls -", "", 2, "", "unknown option '-'")]),
]


def has(wanted, written):
    return wanted in written if wanted else not written


def holds(call, given, status, printed, told, folder):
    """Whether a call ends so; `< FILE` after its words takes a file's bytes."""
    words, _, source = call.partition(" < ")
    name, *words = words.split(" ")
    given = (folder / source).read_bytes() if source else given.encode() if isinstance(given, str) else given
    ended = subprocess.run([TOP / name, *words], cwd=folder, input=given, capture_output=True, check=False)
    out, errors = ended.stdout.decode(), ended.stderr.decode()
    return ended.returncode == status and has(printed, out) and has(told, errors)


def said(check):
    """Each case in a folder of its own, with an image whose oldest sector is dead, one of zeros, and an old one."""
    for page, words, calls in CASES:
        path = TOP / f"docs/{page}.md"
        check(" ".join(words.split()) in " ".join(path.read_text().split()), path, f"the page doesn't say: {words}")
        with tempfile.TemporaryDirectory() as name:
            folder = pathlib.Path(name)
            play = [sys.executable, TOP / "tools/write_volume.py"]
            dead = subprocess.run(play, input=DEAD.encode(), capture_output=True, check=False).stdout
            (folder / "dead.image").write_bytes(dead)
            (folder / "zero.image").write_bytes(bytes(6144))
            for name, bytes_of_it in DAMAGED.items():
                (folder / name).write_bytes(bytes_of_it)
            (folder / "old.image").write_bytes((TOP / "crates/jffs_replay/data/old.image").read_bytes())
            for call in calls:
                check(holds(*call, folder), path, f"not so: {words}: {call[0]}")
