"""pumpgrape-mount on an emulated NOR flash: what a user does with a file system, below Linux."""
import os
import re
import shutil
import subprocess

from chips import TOOL, built, played
from guest import TOP, Missing, erased

UP = "pumpgrape-mount /dev/mtd0 /mnt"
# The mount has ended once the chip can be opened again.
DOWN = f"fusermount3 -u /mnt; for i in $(seq 100); do {TOOL} check > /t/end 2>&1 && break; sleep 0.1; done"
SEED = 77

STEPS = (
    (f"{TOOL} format; {UP}", 0, ""),
    ("mkdir /mnt/d && echo hello > /mnt/d/f && cat /mnt/d/f", 0, "hello\n"),
    ("ls -l /mnt/d | awk '{print $1, $5, $9}'", 0, "total \n-rw-r--r-- 6 f\n".replace("total ", "total  ")),
    ("grep -c pumpgrape /proc/mounts", 0, "1\n"),
    (f"{TOOL} ls", 1, "pumpgrape-mtd: /dev/mtd0: another program has it open\n"),
    ("head -c 20000 /bin/busybox > /t/made; cp /t/made /mnt/x && cmp /t/made /mnt/x", 0, ""),
    ("echo more >> /mnt/d/f && cat /mnt/d/f", 0, "hello\nmore\n"),
    ("echo new > /mnt/n && mv /mnt/n /mnt/d/f && cat /mnt/d/f && ls /mnt", 0, "new\nd\nx\n"),
    ("dd if=/dev/zero of=/mnt/x bs=1 seek=9 count=3 conv=notrunc,fsync 2> /dev/null; "
     "dd if=/dev/zero of=/t/made bs=1 seek=9 count=3 conv=notrunc 2> /dev/null; cmp /t/made /mnt/x", 0, ""),
    ("truncate -s 7 /mnt/x && wc -c < /mnt/x && rm /mnt/x && ls /mnt", 0, "7\nd\n"),
    ("mkdir -p /t/tree/a/b && for i in 1 2 3 4 5 6 7 8 9; do head -c $((i * 700)) /bin/busybox > /t/tree/a/b/$i; done; "
     "cp -r /t/tree /mnt && diff -r /t/tree /mnt/tree", 0, ""),
    ("rm -r /mnt/tree && ls -a /mnt", 0, ".\n..\nd\n"),
    ("mkdir '/mnt/a b'", 1, re.compile(".*Invalid argument\n")),
    ("mkdir /mnt/nnnnnnnnnnnnnnnnnnnnn", 1, re.compile(".*File name too long\n")),
    ("rmdir /mnt/d", 1, re.compile(".*Directory not empty\n")),
    ("cat /mnt/none", 1, re.compile(".*No such file or directory\n")),
    ("i=0; while head -c 4096 /bin/busybox > /mnt/full$i; do i=$((i + 1)); done 2> /t/err; "
     "grep -q 'No space left' /t/err && test $i -gt 30 && rm /mnt/full* && cat /mnt/d/f", 0, "new\n"),
    ("for i in $(seq 400); do echo $i > /mnt/d/$i; done; ls /mnt/d | wc -l; cat /mnt/d/399; rm /mnt/d/[0-9]*", 0, "401\n399\n"),
    (f"torture /mnt {SEED} 0 0 > /dev/null; rm -r /mnt/d; torture /mnt {SEED} 0 400 | grep -v '^[AD] '", 0,
     "VERIFY before 0\nLIMIT\n"),
    (f"{DOWN}; cat /t/end", 0, re.compile(r"volume clean, \d+ records\n")),
    (f"torture -s 4096 /dev/mtd0 {SEED} 400 400 | grep -v '^[AD] '", 0, "VERIFY before 400\nLIMIT\n"),
    (f"md5sum < /dev/mtd0 > /t/a; {UP} -o ro && ls /mnt | wc -l; touch /mnt/new; {DOWN}; md5sum < /dev/mtd0 | cmp - /t/a", 0,
     re.compile(r"\d+\ntouch: /mnt/new: Read-only file system\n")),
    (f"{UP} -f & sleep 1; kill -TERM $!; wait $!; {TOOL} check", 0, re.compile(r"volume \w+, \d+ records\n")),
    (f"{UP} -o sector_size=5000", 1,
     "pumpgrape-mount: /dev/mtd0: a sector has 1024, 2048, 4096, 8192 or 16384 bytes, not 5000\n"),
    ("pumpgrape-mount /dev/mtd7 /mnt", None, re.compile("pumpgrape-mount: .*\n")),
    ("for i in $(seq 0 63); do dd if=/dev/zero of=/dev/mtd0 bs=1 seek=$((i * 4096 + 4)) count=1 conv=notrunc 2> /dev/null; done; "
     + UP, 1,
     "pumpgrape-mount: /dev/mtd0: a record is bad\n"),
)
BY_SERVE = (
    ("jffs_volume format /t/v 64 4096; pumpgrape-mount /t/v /mnt -o serve=/bin/jffs_volume,sector_size=4096", 0, ""),
    ("echo hello > /mnt/f && ls -l /mnt | awk '{print $5, $9}'; fusermount3 -u /mnt; "
     "for i in $(seq 100); do jffs_volume check --sector-size 4096 /t/v > /t/end 2>&1 && break; sleep 0.1; done; cat /t/end", 0,
     re.compile(r" *\n6 f\nvolume clean, \d+ records\n")),
)


def mount_program(runner, lab):
    """The mount, built with the library; or None where that can't be."""
    for tool in ("pkg-config", "fusermount3"):
        if not shutil.which(tool):
            print(f"  left out: there is no {tool}", flush=True)
            return None
    if subprocess.run(["pkg-config", "--exists", "fuse3"], check=False).returncode:
        print("  left out: there is no libfuse 3", flush=True)
        return None
    try:
        lab.call(["make", "-C", TOP / "mount", f"OUT={lab.folder}", f"LIBRARY={lab.library}"])
    except Missing as fault:
        runner.tally.add("make of mount", str(fault))
        return None
    return lab.folder / "pumpgrape-mount"


def mounts(runner, lab):
    """The part of the sweep."""
    mount, programs = mount_program(runner, lab), built(runner, lab, "pumpgrape-mtd", "torture")
    if mount is None or programs is None:
        return
    programs += [mount, shutil.which("fusermount3")]
    chip = erased(lab.folder / "mounts.chip", 64 * 4096)
    played(runner, lab, "mounts", STEPS, chip, programs=programs, modules=["fuse"])
    served = runner.options.built / "crates/jffs_volume/out/jffs_volume"
    if os.access(served, os.X_OK):
        played(runner, lab, "mounts by serve", BY_SERVE, chip, programs=[*programs, served], modules=["fuse"])
    else:
        print("  left out: jffs_volume isn't built", flush=True)
