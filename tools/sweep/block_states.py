"""What a loss of power of the host may leave of a volume in a file: what was synced is on the disk; of what was written
since, each block of 512 bytes is as it was, or as any of those writes left it."""
import functools
import os
import struct
import subprocess

import read_volume

# A disk writes so many bytes whole or not at all, and they begin at a multiple of as many in the file.
BLOCK = 512
NOTE = struct.Struct("=4Q")
# Random states of what was written between two syncs, besides those in which blocks are missing one by one, or in a row.
DRAWN = 16
# One of so many states is opened by the program too.
OPENED = 11

read_volume.read_sector = functools.lru_cache(1 << 14)(read_volume.read_sector)


class Notes:
    """What a run of a program wrote and synced, in its order, and what it printed (tools/sweep/writes.c)."""

    def __init__(self, runner, words, given=b"", limit=120):
        log = runner.empty_folder() / "writes"
        env = dict(os.environ, LD_PRELOAD=str(runner.notes_writes), WRITES=str(log))
        ran = subprocess.run([str(word) for word in words], input=given, capture_output=True, timeout=limit, env=env,
                             check=False)
        self.status, self.out, self.errors = ran.returncode, ran.stdout, ran.stderr
        self.all = list(notes_in(log.read_bytes() if log.exists() else b""))

    def of(self, inode):
        """The writes and syncs of a file, and what was printed between them: of each its kind, its offset and its bytes."""
        return [(kind, offset, data) for kind, number, offset, data in self.all if kind == "A" or
                kind in "WS" and number == inode]


def notes_in(log):
    at = 0
    while at < len(log):
        kind, inode, offset, length = NOTE.unpack_from(log, at)
        at += NOTE.size + length
        yield chr(kind), inode, offset, log[at - length:at]


def printed_in(events):
    return b"".join(data for kind, _, data in events if kind == "A")


def left_by(image, events):
    """The file after these events, as the next program finds it."""
    return with_writes(image, [(offset, data) for kind, offset, data in events if kind == "W"])


def with_writes(image, writes):
    image = bytearray(image)
    for offset, data in writes:
        image[offset:offset + len(data)] = data
    return bytes(image)


def between_syncs(image, events):
    """Of each time from a sync to the next: the file as it was synced, the writes, and what was printed up to its end."""
    writes, printed = [], b""
    for kind, offset, data in events:
        if kind == "S":
            yield image, writes, printed
            image, writes = with_writes(image, writes), []
        elif kind == "W":
            writes.append((offset, data))
        else:
            printed += data
    yield image, writes, printed


def versions_of(image, writes):
    """Each block that was written, in the order of its first write: what it held, and what it held after each write."""
    now, found = bytearray(image), {}
    for offset, data in writes:
        touched = range(offset // BLOCK * BLOCK, offset + len(data), BLOCK)
        for at in touched:
            found.setdefault(at, [bytes(now[at:at + BLOCK])])
        now[offset:offset + len(data)] = data
        for at in touched:
            if now[at:at + BLOCK] != found[at][-1]:
                found[at].append(bytes(now[at:at + BLOCK]))
    return found


def states(image, writes, draw):
    """The states that may be left, each once: each single block missing, or alone; each first part of the blocks, and each
    last one; each block as another write left it; what was so after each write; and others at random."""
    found = versions_of(image, writes)
    last, none = [len(held) - 1 for held in found.values()], [0] * len(found)
    chosen = [last, none]
    for at in range(len(found)):
        chosen += [last[:at] + [one] + last[at + 1:] for one in range(last[at])]
        chosen += [none[:at] + [one + 1] + none[at + 1:] for one in range(last[at])]
        chosen += [last[:at] + none[at:], none[:at] + last[at:]]
    for _ in range(DRAWN if len(found) > 1 else 0):
        share = draw.random()
        chosen.append([most if draw.random() < share else draw.randint(0, most) for most in last])
    for choice in sorted(set(map(tuple, chosen))):
        yield with_writes(image, [(at, held[one]) for (at, held), one in zip(found.items(), choice)])
    for count in range(1, len(writes)):
        yield with_writes(image, writes[:count])


def lines_in(image, sectors, size):
    """The lines of directories and files once an erase that was cut off is ended, and whether one was; or None, and the
    answer that refuses the image."""
    try:
        parts = read_volume.split(image, sectors, size)
        begun = read_volume.begun_erase(parts)
        return [line for line in read_volume.show(begun[1] if begun else parts) if line[:2] in ("d ", "f ")], bool(begun)
    except read_volume.Refused as why:
        return None, str(why)


class States:
    """The states of one run: how many were made, refused, had another tree, needed healing, and what was wrong first."""

    def __init__(self, runner, program, sizes, draw):
        self.runner, self.program, self.sizes, self.draw = runner, program, sizes, draw
        self.made = self.refused = self.other = self.healed = self.syncs = 0
        # The first thing that is wrong; and one of the states that a mount takes, with its tree, at random.
        self.why = self.one = None

    def judge(self, image, events, wrong):
        """Makes the states of these events on a file that held this image. `wrong(lines, printed)` says why a volume with
        these lines is wrong where so much was printed, or None."""
        self.syncs += sum(kind == "S" for kind, _, _ in events)
        for synced, writes, printed in between_syncs(image, events):
            for state in states(synced, writes, self.draw):
                why = self.look(state, printed, wrong)
                self.why = self.why or why

    def look(self, state, printed, wrong):
        self.made += 1
        lines, healed = lines_in(state, *self.sizes)
        if lines is None:
            self.refused += 1
            return f"refused {healed}"
        self.healed += healed
        why = wrong(lines, printed)
        self.other += why is not None
        if not why and self.draw.random() * self.made < 1:
            self.one = state, lines
        return why or (self.opened(state) if self.made % OPENED == 0 else None)

    def opened(self, state):
        """Why the program itself doesn't open a state, or None."""
        file = self.runner.empty_folder() / "state"
        file.write_bytes(state)
        words = [self.program, "check", file, "--sector-size", self.sizes[1]]
        ran = subprocess.run([str(word) for word in words], capture_output=True, text=True, check=False)
        return f"check: {ran.stderr}" if ran.returncode else None

    def tell(self, group, what):
        """Adds these states to a group's, and says what was wrong."""
        counts = self.made, self.refused, self.other, self.healed, self.syncs
        with self.runner.tally.lock:
            sums = self.runner.blocks.setdefault(group, [0] * len(counts))
            sums[:] = [one + more for one, more in zip(sums, counts)]
        some = f"{self.refused} of {self.made} states are refused, {self.other} have other files; the first: {self.why}"
        self.runner.tally.add(what, some if self.why else None)
