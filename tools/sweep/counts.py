"""The counts that `jffs_bench check` prints, each worked out another way: what the script on its standard input leaves by
the second writer, tools/write_volume.py, which is written from docs/FORMAT.md alone; how many requests and steps there are
from what each part of the benchmark says that it does, a hundredth of its full run."""
import sys

from cases import TOP

sys.path.insert(0, str(TOP / "tools"))
from read_volume import ROOT, dump  # noqa: E402
from write_volume import Refused, Volume  # noqa: E402

BENCH = TOP / "crates/jffs_bench"


class Counting(Volume):
    """A volume that counts its erases."""
    erases = 0

    def erase_oldest(self):
        self.erases += 1
        super().erase_oldest()


def played(text):
    """The counts of a script of one writer, whose dead sectors are erased after each answer but the unmount's."""
    volume_line, *lines = [line.split() for line in text.splitlines()]
    commands = lines[lines.index(["writer"]) + 1:]
    volume, refused = Counting(int(volume_line[1]), int(volume_line[2])), 0
    for number, (verb, *words) in enumerate(commands, 1):
        try:
            volume.request(1, number, verb, *words)
        except Refused:
            refused += 1
        volume.erase_dead()
    erases = volume.erases
    volume.request(10, 1, "unmount")
    told = "".join(f"{line}\n" for line in dump(volume.tree, ROOT, ""))
    records = sum(len(nodes) for nodes in volume.nodes.values())
    return {"erases": erases, "refused": refused, "answers": len(commands) + 1, "records": records, "dump_bytes": len(told)}


def wanted():
    lines = []
    for writers in (1, 2, 8):
        taken = 40000 // 100 // writers * writers
        lines += [f"{writers} writer{'s' * (writers > 1)}"]
        lines += [f"{line}: {taken}" for line in ("plain channel", "shared line", "ring line")]
    steps = 10000 // 100
    for readers in ("1 reader", "4 readers"):
        lines += [readers, f"steps published one by one: {steps}"]
    lines += ["1 reader, of a tree", f"steps on a file of 192 bytes: {steps}", f"steps on a file of 1 MiB: {steps}"]
    return lines + [f"{what}: {count}" for what, count in played((BENCH / "stdin").read_text()).items()]


def counts(runner):
    """Compares the stored lines with those that are worked out here. No program is run."""
    stored = (BENCH / "stdout").read_text().splitlines()
    lines = wanted()
    for number in range(max(len(stored), len(lines))):
        found, line = stored[number:number + 1], lines[number:number + 1]
        why = None if found == line else f"{found}, worked out {line}"
        runner.tally.add(f"line {number + 1} of jffs_bench/stdout", why)
