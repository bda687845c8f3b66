"""Power cuts: QEMU is ended in the midst of writes to its flash, and after the next boot it is looked which state is
there."""
import random
import re
import shutil
import time

from chip_mounts import mount_program
from chips import built
from guest import CHIP, QEMU, Machine, Missing, erased

CUTS = 40
# Sectors and their size, the words of torture, and the seconds within which the power goes once it may.
WAYS = {
    "plain erases": (32, 4096, "", 0.004),
    "programs in pieces of 16 bytes": (32, 4096, "-c 16", 0.004),
    "erases that clear first": (32, 4096, "-z -c 64", 0.1),
    "sectors of four blocks": (16, 16384, "-w 2000", 0.02),
    "sectors of four blocks, that are cleared first": (16, 16384, "-z -w 500", 0.2),
}
# Changes after which the power may go; a driver that programs byte by byte is slow in QEMU.
MANY, FEW = (5, 150), (2, 20)
# Seconds within which a guest is booted and has made them.
LIMIT = 120
VERDICT = re.compile(r"(?:VERIFY|HAS|REFUSED|OTHER|FAILED|NO CHIP).*")


def session(machine, rand, changes, within):
    """Lets a guest make changes until the power goes; all lines that it has written."""
    goal, lines = rand.randint(*changes), []
    for line in machine.lines(LIMIT):
        lines.append(line)
        goal -= line.startswith("D ")
        if goal <= 0:
            time.sleep(rand.random() * within)
            break
    return lines + machine.cut()


def last(lines, letter):
    """The last change of which this was told, or -1."""
    found = [int(line[2:]) for line in lines if re.fullmatch(letter + r" \d+", line)]
    return found[-1] if found else -1


def cut_again(runner, name, chip, boot, judge, within, goal=MANY):
    """Boots and cuts, so many times. `boot(done)` boots; `judge(verdict, done, asked)` gives how many changes are there,
    or None, where `done` were told as done before, and `asked` as asked for."""
    rand, done, asked, states, changes = random.Random(name), 0, 0, {}, 0
    for cut in range(CUTS // runner.options.thin + 1):
        lines = session(boot(done), rand, goal, within)
        verdict = next((line for line in lines if VERDICT.match(line)), "nothing was said")
        there = judge(verdict, done, asked)
        if cut > 0:
            runner.tally.add(f"{name}: cut {cut}", None if there is not None
                             else f"{verdict}, after {done} changes; {lines[-3:]}")
        if cut > 0 and there is not None:
            states[there == done] = states.get(there == done, 0) + 1
        if there is None:
            erased(chip, chip.stat().st_size)
            done = asked = 0
            continue
        done, asked = max(there, last(lines, "D") + 1), max(there, last(lines, "A") + 1)
        changes += done - there
    print(f"  {name}: {sum(states.values())} cuts in {changes} changes; {states.get(True, 0)} times all that was told as "
          f"done was there, {states.get(False, 0)} times the change in hand too", flush=True)


def state(verdict, done, _):
    """How many changes torture finds, or None."""
    found = re.match(r"VERIFY (before|after) (\d+)", verdict)
    return int(found[2]) if found and int(found[2]) in (done, done + 1) else None


def cuts(runner, lab):
    """The power goes below Linux, in each way."""
    programs = built(runner, lab, "torture")
    if programs is None:
        return
    for name, (sectors, size, words, within) in WAYS.items():
        cut_way(runner, lab, name, erased(lab.folder / "cuts.chip", sectors * size),
                f"torture -s {size} {words} /dev/mtd0", within, programs=programs)
    mount = mount_program(runner, lab)
    if mount is not None:
        call = "pumpgrape-mount /dev/mtd0 /mnt 2>&1 | sed 's/^/VERIFY refused /'; torture /mnt"
        cut_way(runner, lab, "the mount", erased(lab.folder / "cuts.chip", 32 * 4096), call, 0.01,
                programs=[*programs, mount, shutil.which("fusermount3")], modules=["fuse"])


def cut_way(runner, lab, name, chip, call, within, **options):
    """One way: what is called gets the seed, how many changes are done, and a last one that is never reached."""
    seed = sum(name.encode())

    def boot(done):
        script = f". /extra/load.sh\n{call} {seed} {done} 1000000\n"
        return lab.boot(lab.initrd("cuts", script, **options), chip)
    cut_again(runner, name, chip, boot, state, within)


def bare(runner, lab):
    """The power goes below a program without an operating system."""
    try:
        lab.call(["make", "-C", CHIP / "bare", f"OUT={lab.folder}", f"LIBRARY={lab.library}"])
    except Missing as fault:
        runner.tally.add("make of chip/bare", str(fault))
        return
    chip = erased(lab.folder / "bare.chip", 8 * 4096)

    def boot(_):
        return Machine([QEMU, "-accel", "tcg", "-cpu", "max", "-m", "64", *lab.flash(chip),
                        "-kernel", str(lab.folder / "settings")])

    def found(verdict, done, asked):
        number = re.fullmatch(r"HAS (\d+)", verdict)
        return int(number[1]) + 1 if number and done - 1 <= int(number[1]) <= max(asked - 1, 0) else None
    cut_again(runner, "without an operating system", chip, boot, found, 0.2, FEW)
