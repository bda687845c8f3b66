#!/usr/bin/env python3
"""Reads a volume: read_volume.py [--healed] SECTORS SECTOR_SIZE < IMAGE

Written from docs/FORMAT.md alone, whose sections the comments name. Prints what `jffs_image` prints (docs/TOOLS.md)
and ends with its status: 0 for a volume, 3 for `refused WHY`, 2 after a wrong call. With --healed it prints this of the
image on which an erase that was cut off is ended.
"""
import struct
import sys
from collections import namedtuple

FILE, DIRECTORY, UNMOUNT, DELETED, COPY = 1, 2, 3, 1, 2
HEADER, ROOT, LAST, FILE_MAX, DEPTH_MAX = 64, 1, 2**32 - 1, 1 << 20, 8
FIELDS = struct.Struct(">4s4B6I2H2I20s")
MAGIC, DOOM = b"JFF1", bytes(4)
Node = namedtuple("Node", "kind flags inode parent version offset removed form size name data length")
Log = namedtuple("Log", "sectors readings nodes tree")


class Refused(Exception):
    """Why a volume is refused, or a record."""


class Inode:
    def __init__(self, kind):
        self.kind, self.bytes, self.writers = kind, bytearray(), []

    def fit(self, size):
        del self.bytes[size:], self.writers[size:]
        self.writers += [None] * (size - len(self.bytes))
        self.bytes += bytes(size - len(self.bytes))

    def take(self, node):
        self.newest, taken = node, slice(node.offset, node.offset + node.removed)
        self.fit(max(node.offset, len(self.bytes)))
        self.bytes[taken], self.writers[taken] = node.data, [node.version] * len(node.data)
        self.fit(node.size if node.form == 2 else len(self.bytes))


def read_record(left, sector_size):
    """Section 2: the node of the record that `left`, the rest of its sector, begins with."""
    (magic, kind, flags, name_len, _, inode, parent, version, offset, d, removed, _, form, _, size,
     name) = FIELDS.unpack_from(left)
    length = HEADER + (d + 3) // 4 * 4
    unmount, no_range = kind == UNMOUNT, offset == d == removed == 0
    is_name = 1 <= name_len <= 20 and all(0x21 <= b <= 0x7E and b != 0x2F for b in name[:name_len])
    rules = [
        ("Magic", magic == MAGIC),
        ("Kind", kind in (FILE, DIRECTORY, UNMOUNT)),
        ("Flags", flags == 0 or flags in (DELETED, COPY) and not unmount),
        ("Name", (name_len == 0 if unmount else is_name) and not any(name[name_len:])),
        ("Form", form == 1 or form == 2 and kind == FILE and flags != DELETED),
        ("Spare", form == 2 or size == 0),
        ("Size", version >= 1 and length <= sector_size // 4 and length <= len(left)
         and (inode == parent == 0 and no_range if unmount
              else inode >= 2 and parent >= 1 and length + 64 <= len(left))
         and (kind != DIRECTORY or parent < inode and no_range)
         and (flags != DELETED or no_range)
         and (flags != COPY or removed == d)
         and (kind != FILE or offset + max(d, removed) <= FILE_MAX and (removed <= d or d == 0))
         and (form != 2 or offset + d <= size <= FILE_MAX)),
        ("Pad", all(b == 0xFF for b in left[HEADER + d:length])),
    ]
    for reason, holds in rules:
        if not holds:
            raise Refused(reason)
    return Node(kind, flags, inode, parent, version, offset, removed, form, size, name[:name_len],
                left[HEADER:HEADER + d], length)


def read_sector(number, sector):
    """Section 3: the records, each with its sector and position, and whether the reading ended Free."""
    records, position = [], 0
    while len(sector) - position >= HEADER and sector[position + 7] == 0:
        try:
            records.append((number, position, read_record(sector[position:], len(sector))))
        except Refused as why:
            raise Refused(f"BadRecord {number} {position} {why}")
        position += records[-1][2].length
    return records, all(b == 0xFF for b in sector[position:])


def make_tree(nodes):
    """Section 6: the present inodes."""
    tree, states_sizes = {}, False
    for node in nodes:
        old = tree.get(node.inode, Inode(node.kind))
        moves = len(node.data) != node.removed and len(old.bytes) > node.offset + node.removed
        if node.flags == DELETED:
            tree.pop(node.inode, None)
        elif old.kind != node.kind or node.kind == FILE and (moves or node.form == 1 and states_sizes):
            raise Refused("BadTree")
        elif node.kind != UNMOUNT:
            old.take(node)
            tree[node.inode] = old
        states_sizes = states_sizes or node.form == 2
    places = {(inode.newest.parent, inode.newest.name) for inode in tree.values()}
    depths = {ROOT: 0}  # of directories: a parent's number is less than the directory's
    for number, inode in sorted(tree.items(), key=lambda item: (-item[1].kind, item[0])):
        steps = depths.get(inode.newest.parent, DEPTH_MAX) + 1
        if len(places) < len(tree) or steps > DEPTH_MAX or inode.newest.form == 1 and None in inode.writers:
            raise Refused("BadTree")
        if inode.kind == DIRECTORY:
            depths[number] = steps
    return tree


def dump(tree, directory, path):
    yield f"d {path or '/'}"
    for name, number in sorted((i.newest.name, k) for k, i in tree.items() if i.newest.parent == directory):
        content, below = tree[number].bytes, f"{path}/{name.decode()}"
        line = f"f {below} {len(content)} {content.hex() or '-'}"
        yield from dump(tree, number, below) if tree[number].kind == DIRECTORY else [line]


def split(image, sectors, size):
    """Section 1: the sectors of an image."""
    if not 6 <= sectors <= 64 or size not in (1024, 2048, 4096, 8192, 16384):
        raise Refused("Geometry")
    return [image[k * size:(k + 1) * size] for k in range(sectors)]


def find_log(parts):
    """Sections 3 to 6: the log of these sectors."""
    count, readings = len(parts), [read_sector(k, part) for k, part in enumerate(parts)]
    erased = [all(b == 0xFF for b in part) for part in parts]
    begins = [k for k in range(count) if erased[k - 1] and not erased[k]]
    if not any(erased) or len(begins) > 1:
        raise Refused("Scattered" if any(erased) else "NoErased")
    log = [k for k in [*range(sum(begins), count), *range(sum(begins))] if not erased[k]]
    nodes = [node for k in log for _, _, node in readings[k][0]]
    if any(a.version >= b.version for a, b in zip(nodes, nodes[1:])):
        raise Refused("BadOrder")
    return Log(log, readings, nodes, make_tree(nodes))


def live_in(log):
    """Section 7: the inode and the version of each live record."""
    return {(k, v) for k, inode in log.tree.items() for v in {inode.newest.version, *inode.writers}}


def begun_erase(parts):
    """Section 9: the sector whose erase was cut off, and these sectors once it is ended; None where there is none."""
    try:
        return find_log(parts) and None
    except Refused as why:
        words = str(why).split()
    if words[0] != "BadRecord" or words[2:] != ["0", "Magic"]:
        return None
    k = int(words[1])
    erased = [*parts[:k], b"\xff" * len(parts[k]), *parts[k + 1:]]
    if parts[k][:len(DOOM)] != DOOM and is_damage(k, [*parts[:k], MAGIC + parts[k][len(MAGIC):], *parts[k + 1:]]):
        return None
    try:
        log = find_log(erased).sectors
    except Refused:
        return None
    begins_after = log and len(log) <= len(parts) - 2 and log[0] == (k + 1) % len(parts)
    return (k, erased) if begins_after else None


def is_damage(k, restored):
    """Section 9: a record of the sector lives once its magic is the right one."""
    try:
        log = find_log(restored)
    except Refused:
        return False
    return any((node.inode, node.version) in live_in(log) for _, _, node in log.readings[k][0])


def heal(parts):
    """These sectors, on which an erase that was cut off is ended."""
    begun = begun_erase(parts)
    return begun[1] if begun else parts


def show(parts):
    """The lines that tell of these sectors."""
    log = find_log(parts)
    records, ends_free = log.readings[log.sectors[-1]] if log.sectors else ([], False)
    greatest = (log.nodes[-1].version if log.nodes else 0, max([ROOT] + [node.inode for node in log.nodes]))
    live = live_in(log)
    yield "mounted clean" if records and ends_free and log.nodes[-1].kind == UNMOUNT else "mounted unclean"
    yield "next " + " ".join(str(n + 1) if n < LAST else "none" for n in greatest)
    yield " ".join(["sectors"] + [str(k) for k in log.sectors])
    for sector, position, n in (record for k in log.sectors for record in log.readings[k][0]):
        yield f"record {sector} {position} {n.length} {n.version} {'live' if (n.inode, n.version) in live else 'dead'}"
    yield from dump(log.tree, ROOT, "")


def main():
    words = sys.argv[2:] if sys.argv[1:2] == ["--healed"] else sys.argv[1:]
    image, sizes = sys.stdin.buffer.read(), [int(word) for word in words if word.isdecimal()]
    if [str(size) for size in sizes] != words or len(sizes) != 2 or sizes[0] * sizes[1] != len(image):
        sys.exit(print(__doc__, file=sys.stderr) or 2)
    try:
        parts = split(image, *sizes)
        print("\n".join(show(parts if words == sys.argv[1:] else heal(parts))))
    except Refused as why:
        sys.exit(print("refused", why) or 3)


if __name__ == "__main__":
    main()
