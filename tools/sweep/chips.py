"""A volume on an emulated NOR flash below Linux: its command line, lists of requests, and what else looks at the chip."""
import base64
import gzip
import random
import re

from cases import commands_of
from for_c import trees_of
from guest import BINDINGS, CHIP, Missing, erased
from model import Tree, data_of
from second_reader import left

TOOL = "pumpgrape-mtd /dev/mtd0"
# Chips of blocks of 4 KiB, as sectors of the volume and their size.
GEOMETRIES = ((8, 4096), (64, 4096), (16, 16384))
LISTS, REQUESTS = 10, 60
MADE = "head -c 10000 /bin/busybox"

# What is asked one after another, with the status, and what is printed; None where that may be anything.
COMMANDS = (
    (f"{TOOL} format", 0, ""),
    (f"{TOOL} ls", 0, ""),
    (f"echo hello | {TOOL} put /greeting", 0, ""),
    (f"{TOOL} ls", 0, "f 6 greeting\n"),
    (f"{TOOL} cat /greeting", 0, "hello\n"),
    (f"{TOOL} mkdir /d", 0, ""),
    (f"{MADE} | {TOOL} put /d/x", 0, ""),
    (f"{MADE} > /t/made; {TOOL} cat /d/x | cmp - /t/made", 0, ""),
    (f"{TOOL} ls /d", 0, "f 10000 x\n"),
    (f"{TOOL} mv /d/x /d/y", 0, ""),
    (f"{TOOL} ls /d/y", 0, "f 10000 y\n"),
    (f"{TOOL} rm /d", 1, "pumpgrape-mtd: /d: the directory isn't empty\n"),
    (f"{TOOL} cat /d/x", 1, "pumpgrape-mtd: /d/x: nothing stands at the path\n"),
    (f"echo again | {TOOL} put /d/y", 0, ""),
    (f"{TOOL} cat /d/y", 0, "again\n"),
    (f"echo other | {TOOL} put /greeting; {TOOL} cat /greeting", 0, "other\n"),
    (f"{TOOL} mv /greeting /d/y", 1, None),
    (f"echo x | {TOOL} put /d", 1, None),
    (f"echo x | {TOOL} put greeting", 1, None),
    (f"head -c 1048577 /dev/zero | {TOOL} put /long", 1, None),
    (f"head -c 300000 /dev/zero | {TOOL} put /long; {TOOL} ls", 0,
     "pumpgrape-mtd: /long: the log has no room\nd d\nf 6 greeting\n"),
    (f"{TOOL} check", 0, re.compile(r"volume clean, \d+ records\n")),
    (f"{TOOL} df", 0, re.compile(r"sectors 64 of 4096 bytes, \d+ erased\nlive \d+ bytes in records, room is sure below 180480\n")),
    (f"{TOOL} clean", 0, "it isn't worth it\n"),
    (f"{TOOL} rm /d/y && {TOOL} rm /d && {TOOL} ls", 0, "f 6 greeting\n"),
    (f"md5sum < /dev/mtd0 > /t/a; {TOOL} ls; {TOOL} cat /greeting; {TOOL} df; {TOOL} check; md5sum < /dev/mtd0 | cmp - /t/a", 0, None),
    (f"md5sum < /dev/mtd0 > /t/a; {TOOL} rm /none; {TOOL} clean; md5sum < /dev/mtd0 | cmp - /t/a", 0, None),
    (f"{TOOL}", 2, None), (f"{TOOL} nonsense", 2, None), (f"{TOOL} cat", 2, None), (f"{TOOL} -x ls", 2, None),
    ("pumpgrape-mtd -h > /t/h && grep -c 'format  ' /t/h", 0, "1\n"),
    (f"dd if=/dev/zero of=/dev/mtd0 bs=1 seek=4 count=1 conv=notrunc 2> /dev/null; {TOOL} check", 1,
     "pumpgrape-mtd: /dev/mtd0: no volume: the record at byte 0 of sector 0 is bad\n"),
)

REFUSED = "pumpgrape-mtd: /dev/mtd0: "
OTHERS = (
    (f"insmod mtdram.ko total_size=1024 erase_size=128; {TOOL} format", 1,
     f"{REFUSED}it erases 131072 bytes at once, which no sector of 16384 is made of\n"),
    (f"rmmod mtdram; insmod mtdram.ko total_size=16 erase_size=4; {TOOL} format", 1,
     f"{REFUSED}a volume has 6 to 64 sectors, not 4 of 4096 bytes\n"),
    (f"rmmod mtdram; insmod mtdram.ko total_size=4096 erase_size=4; {TOOL} format", 1,
     f"{REFUSED}it has 256 sectors of 16384 bytes: how many of them (6 to 64) the volume has, has to be said\n"),
    (f"echo long > /t/w; T='pumpgrape-mtd -n 64 /dev/mtd0'; $T format && $T put /w < /t/w && $T cat /w", 0, "long\n"),
    (f"pumpgrape-mtd -s 2048 /dev/mtd0 format", 1,
     f"{REFUSED}it erases 4096 bytes at once, which no sector of 2048 is made of\n"),
    (f"pumpgrape-mtd -s 5000 /dev/mtd0 format", 1,
     f"{REFUSED}a sector has 1024, 2048, 4096, 8192 or 16384 bytes, not 5000\n"),
    (f"pumpgrape-mtd -n 300 /dev/mtd0 format", 1, f"{REFUSED}a volume has 6 to 64 sectors, not 300 of 16384 bytes\n"),
    ("pumpgrape-mtd -n 64 /dev/mtd0ro cat /w", 0, "long\n"),
    ("pumpgrape-mtd -n 64 /dev/mtd0ro rm /w", 1, None),
    ("rmmod mtdram; insmod nandsim.ko; pumpgrape-mtd /dev/mtd0 format", 1,
     f"{REFUSED}it is NAND flash: a volume needs NOR flash\n"),
    ("rmmod nandsim; pumpgrape-mtd /dev/mtd9 ls", 1, "pumpgrape-mtd: /dev/mtd9: No such file or directory\n"),
    ("pumpgrape-mtd /dev/null ls", 1, "pumpgrape-mtd: /dev/null: it is no chip's device file, as /dev/mtd0 is\n"),
)

# Another program writes to a mounted chip; jffs2 and its tools look at a volume.
STRANGERS = (
    (f"{TOOL} format; (echo create /a; sleep 1; dd if=/dev/zero of=/dev/mtd0 bs=64 seek=1 count=1 conv=notrunc 2> /dev/null;"
     f" echo create /b; echo create /c) | play /dev/mtd0 4096", 4,
     "Done\nDevice\na bit at 64 would have to rise\nFailed\n"),
    (f"{TOOL} format; {MADE} | {TOOL} put /x; echo words | {TOOL} put /y; cat /dev/mtd0 > /t/image; wc -c < /t/image", 0, "262144\n"),
    ("jffs2dump -c /t/image | grep -c -i -E 'inode|dirent|node at'", 1, "0\n"),
    ("jffs2reader /t/image -d / | grep -c .", 1, "0\n"),
    ("mount -t jffs2 mtd0 /mnt", None, None),
    ("dmesg | grep -c 'Cowardly refusing to erase blocks'", 0, "1\n"),
    ("cmp /t/image /dev/mtd0", 0, ""),
    (f"{TOOL} cat /y && {TOOL} check", 0, re.compile(r"words\nvolume clean, \d+ records\n")),
)


def built(runner, lab, *names):
    """The programs for the guest, or None where one can't be made."""
    sources = {"pumpgrape-mtd": [BINDINGS / "pumpgrape_mtd.c"], "play": [CHIP / "play.c"],
               "torture": [CHIP / f"{name}.c" for name in ("torture", "torture_chip", "torture_directory")]}
    wrapped = {"torture": ["-Wl,--wrap=ioctl,--wrap=pwrite"]}
    try:
        return [lab.program(name, sources[name], *wrapped.get(name, [])) for name in names]
    except Missing as fault:
        runner.tally.add("programs for the guest", str(fault))
        return None


def differs(wanted, found):
    """Why a step's status and output are wrong, or None."""
    status, text = wanted
    holds = status is None and found[0] not in (None, 0) or status == found[0]
    if isinstance(text, re.Pattern):
        holds = holds and text.fullmatch(found[1])
    elif text is not None:
        holds = holds and text == found[1]
    return None if holds else f"status {found[0]}, {found[1]!r}; wanted {status}, {text!r}"


def played(runner, lab, name, table, chip, **options):
    """Runs a table of steps in a guest."""
    found = lab.do(name, [step[0] for step in table], chip, **options)
    for (command, *wanted), seen in zip(table, found):
        runner.tally.add(f"{name}: {command}", differs(wanted, seen))


def commands(runner, lab):
    """The command line, as a new user tries it; what it refuses; and other programs on the chip."""
    programs = built(runner, lab, "pumpgrape-mtd", "play")
    if programs is None:
        return
    chip = erased(lab.folder / "commands.chip", 64 * 4096)
    played(runner, lab, "commands", COMMANDS, chip, programs=programs)
    played(runner, lab, "strangers", STRANGERS, erased(chip, 64 * 4096),
           programs=[*programs, "/usr/sbin/jffs2dump", "/usr/sbin/jffs2reader"], modules=["mtdblock", "jffs2"])
    tables = [("cd /extra; rmmod cfi_x86", 0, "")] + [(f"cd /extra; {step[0]}", *step[1:]) for step in OTHERS]
    played(runner, lab, "other chips", tables, chip, programs=programs, modules=["mtdram", "nandsim"])


def lists(runner, lab):
    """Made lists of requests, and what they leave, by a model."""
    programs = built(runner, lab, "pumpgrape-mtd", "play")
    for sectors, size in GEOMETRIES if programs else ():
        made = [requests(seed, size) for seed in range(0, LISTS, runner.options.thin)]
        files = []
        for number, lines in enumerate(made):
            files.append(lab.folder / f"list.{number}")
            files[-1].write_text("\n".join(lines) + "\n")
        steps = [f"pumpgrape-mtd -s {size} /dev/mtd0 format; play /dev/mtd0 {size} < /extra/list.{number}; "
                 "echo image; gzip -c < /dev/mtd0 | base64" for number in range(len(made))]
        chip = erased(lab.folder / "lists.chip", sectors * size)
        found = lab.do("lists", steps, chip, programs=programs, files=files)
        for number, (lines, seen) in enumerate(zip(made, found)):
            judge_list(runner, lab, f"list {number} on {sectors} sectors of {size}", lines, seen, sectors, size)


def judge_list(runner, lab, name, lines, seen, sectors, size):
    """The answers of a list, and the chip that it has left."""
    answers, _, image = seen[1].partition("image\n")
    tree = f"status {seen[0]}: {seen[1][-500:]}" if seen[0] or not image else judge(lines, answers.split(), size)
    wrong = isinstance(tree, str)
    runner.tally.add(f"{name}: the answers", tree if wrong else None)
    if not wrong:
        runner.tally.add(f"{name}: what is left", leaves(lab, base64.b64decode(image), sectors, size, tree))


def requests(seed, size):
    """A list that asks for no write that the layer would cut in two."""
    rand, tree = random.Random(f"chip {seed}"), Tree(size)
    lines = commands_of(rand, "/w1", size, REQUESTS, seed % 3)
    return [line for line in lines if line.split(" ")[0] not in ("write", "fill")
            or len(data_of(line.split(" "))[1]) <= tree.data_max]


def judge(lines, answers, size):
    """The tree that is left, or why an answer is wrong."""
    if len(answers) != len(lines):
        return f"{len(answers)} answers to {len(lines)} lines"
    trees, why = trees_of(lines, answers, size)
    return why or trees[-1]


def leaves(lab, packed, sectors, size, tree):
    """Why the second reader finds something else on the chip than a clean log of this tree, or None."""
    image = lab.folder / "left.chip"
    image.write_bytes(gzip.decompress(packed))
    found = left(image, sectors, size)
    return None if found == ("mounted clean", tree.dump()) else f"{found}"[:500]
