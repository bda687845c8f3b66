#!/usr/bin/env python3
"""Writes a volume: write_volume.py < OPERATIONS > IMAGE

Written from section 8 of docs/FORMAT.md alone, over the reader that stands beside it. Takes the operations of
`jffs_replay` (docs/SCRIPT.md) but for `fuse`, and writes the image that they leave. A request that is refused leaves no
record; for which cause, this writer doesn't say.
"""
import pathlib
import sys

from read_volume import (COPY, DELETED, DEPTH_MAX, DIRECTORY, DOOM, FIELDS, FILE, FILE_MAX, HEADER, LAST, MAGIC, ROOT,
                         UNMOUNT, Inode, Node, find_log, heal)

ERASED_NEEDED = {"operation": 4, "copy": 2, "unmount": 2}


class Refused(Exception):
    """A request is refused, before or after room was made for it."""


def record(node, writer, seq):
    """Section 2: the bytes of a record."""
    head = FIELDS.pack(MAGIC, node.kind, node.flags, len(node.name), 0, node.inode, node.parent, node.version,
                       node.offset, len(node.data), node.removed, writer, node.form, seq, node.size, node.name)
    return head + node.data + b"\xff" * (-len(node.data) % 4)


def names_of(path):
    return [name.encode() for name in path.split("/")[1:] if name]


class Volume:
    """The flash, the records of each sector, the tree and the numbers that come next."""

    def __init__(self, sectors, size, image=None):
        self.sectors, self.size, self.flash = sectors, size, bytearray(image or b"\xff" * (sectors * size))
        self.mount()

    def mount(self):
        """Sections 3 to 6 and 9, of an image that is not refused."""
        parts = heal([bytes(self.flash[k * self.size:(k + 1) * self.size]) for k in range(self.sectors)])
        self.flash[:] = b"".join(parts)
        found = find_log(parts)
        self.log, self.tree = found.sectors, found.tree
        self.nodes = {k: [node for _, _, node in found.readings[k][0]] for k in self.log}
        self.version = found.nodes[-1].version + 1 if found.nodes else 1
        self.inode = max([ROOT] + [node.inode for node in found.nodes]) + 1
        is_free = self.log and found.readings[self.log[-1]][1]
        self.used = sum(node.length for node in self.nodes[self.log[-1]]) if is_free else self.size
        self.clean = bool(is_free and self.nodes[self.log[-1]] and found.nodes[-1].kind == UNMOUNT)

    def has_room(self, room, length):
        """"What may be programmed"."""
        need = HEADER if room == "unmount" else length + 64
        return need <= self.size - self.used, self.sectors - len(self.log) >= ERASED_NEEDED[room]

    def append(self, room, writer, seq, **fields):
        if self.version > LAST:
            raise Refused
        empty = dict(flags=0, parent=0, offset=0, removed=0, form=1, size=0, name=b"", data=b"")
        node = Node(**{**empty, "version": self.version, **fields}, length=0)
        written = record(node, writer, seq)
        in_tail, in_next = self.has_room(room, len(written))
        if not in_tail:
            if not in_next:
                raise Refused
            self.log.append((self.log[-1] + 1) % self.sectors if self.log else 0)
            self.nodes[self.log[-1]], self.used = [], 0
        node = node._replace(length=len(written))
        self.nodes[self.log[-1]].append(node)
        at = self.log[-1] * self.size + self.used
        self.flash[at:at + len(written)] = written
        self.used, self.version = self.used + len(written), self.version + 1
        self.inode, self.clean = max(self.inode, node.inode + 1), node.kind == UNMOUNT
        self.take(node)

    def take(self, node):
        """Section 6, of one node more."""
        if node.flags == DELETED:
            del self.tree[node.inode]
        elif node.kind != UNMOUNT:
            self.tree.setdefault(node.inode, Inode(node.kind)).take(node)

    def is_live(self, node):
        """Section 7."""
        inode = self.tree.get(node.inode)
        return inode is not None and (inode.newest.version == node.version or node.version in inode.writers)

    def erase_oldest(self):
        """"What may be erased": doomed first."""
        oldest = self.log.pop(0)
        del self.nodes[oldest]
        at = oldest * self.size
        self.flash[at:at + len(DOOM)] = DOOM
        self.flash[at:at + self.size] = b"\xff" * self.size

    def erase_dead(self):
        """"What may be erased"."""
        while len(self.log) > 1 and not any(self.is_live(node) for node in self.nodes[self.log[0]]):
            self.erase_oldest()

    def clean_oldest(self):
        if len(self.log) > 1:
            for node in list(self.nodes[self.log[0]]):
                if self.is_live(node):
                    self.copy("copy", 0, 0, node)
            self.erase_oldest()

    def what_is(self, number, **fields):
        """What each node says of an inode that is there, with these fields in place of the current ones."""
        inode = self.tree[number]
        said = dict(kind=inode.kind, inode=number, parent=inode.newest.parent, name=inode.newest.name)
        of_file = dict(form=2, size=len(inode.bytes)) if inode.kind == FILE else {}
        return said | of_file | fields

    def copy(self, room, writer, seq, node):
        """"What a copy says"."""
        offset = min(node.offset, len(self.tree[node.inode].bytes))
        data = bytes(self.tree[node.inode].bytes[offset:offset + len(node.data)])
        copied = self.what_is(node.inode, flags=COPY, offset=offset, data=data, removed=len(data))
        self.append(room, writer, seq, **copied)

    def find(self, names):
        number = ROOT
        for name in names:
            below = [k for k, i in self.tree.items() if (i.newest.parent, i.newest.name) == (number, name)]
            if not below:
                raise Refused
            number = below[0]
        return number

    def is_directory(self, number):
        return number == ROOT or self.tree[number].kind == DIRECTORY

    def new_name(self, path):
        """The fields of a path that isn't taken."""
        names = names_of(path)
        parent = self.find(names[:-1])
        taken = {(inode.newest.parent, inode.newest.name) for inode in self.tree.values()}
        if not names or len(names) > DEPTH_MAX or not self.is_directory(parent) or (parent, names[-1]) in taken:
            raise Refused
        return dict(parent=parent, name=names[-1])

    def node_of(self, verb, words):
        """"The node of each operation"."""
        if verb in ("mkdir", "create"):
            if self.inode > LAST:
                raise Refused
            kind = dict(kind=DIRECTORY) if verb == "mkdir" else dict(kind=FILE, form=2)
            return dict(inode=self.inode) | kind | self.new_name(words[0])
        number = self.find(names_of(words[0]))
        if self.is_directory(number) and verb not in ("rename", "remove") or number == ROOT:
            raise Refused
        if verb == "rename":
            new = self.new_name(words[1])
            if self.is_directory(number) and new["parent"] != self.tree[number].newest.parent:
                raise Refused
            return self.what_is(number, **new)
        if verb == "remove":
            if any(inode.newest.parent == number for inode in self.tree.values()):
                raise Refused
            return self.what_is(number, flags=DELETED, form=1, size=0)
        old, at = len(self.tree[number].bytes), int(words[1])
        data = bytes.fromhex(words[2].strip("-")) if verb == "write" else b""
        if len(data) > self.size // 4 - 64 or at + len(data) > FILE_MAX:
            raise Refused
        if verb == "truncate":
            return self.what_is(number, offset=min(at, old), removed=old - min(at, old), size=at)
        if not data:
            return self.what_is(number, offset=min(at, old))
        removed = min(len(data), max(old - at, 0))
        return self.what_is(number, offset=at, data=data, removed=removed, size=max(old, at + len(data)))

    def request(self, writer, seq, verb, *words):
        if verb == "unmount":
            if not self.clean:
                self.append("unmount", writer, seq, kind=UNMOUNT, inode=0)
        elif verb == "copy":
            self.copy_asked(writer, seq, *words)
        else:
            if verb == "fill":
                verb, words = "write", [words[0], words[1], words[3] * int(words[2])]
            node = self.node_of(verb, words)
            length = HEADER + (len(node.get("data", b"")) + 3) // 4 * 4
            cleanings = len(self.log)
            while self.version <= LAST and not any(self.has_room("operation", length)):
                if not cleanings:
                    raise Refused
                cleanings -= 1
                self.clean_oldest()
            self.append("operation", writer, seq, **node)

    def copy_asked(self, writer, seq, source, parent, name, offset, data):
        """A copy that a sender asks for: its source is live, and it says what is so."""
        data, offset = bytes.fromhex(data.strip("-")), int(offset)
        live = [node for k in self.log for node in self.nodes[k] if node.version == int(source) and self.is_live(node)]
        for node in live:
            inode = self.tree[node.inode]
            current = (inode.newest.parent, inode.newest.name, bytes(inode.bytes[offset:offset + len(data)]))
            if (int(parent), name.encode(), data) == current and offset <= len(inode.bytes):
                said = self.what_is(node.inode, flags=COPY, offset=offset, data=data, removed=len(data))
                return self.append("operation", writer, seq, **said)
        raise Refused


def play(lines, folder="."):
    """The volume after each of these operations."""
    volume = None
    for words in (line.split() for line in lines if line and line[0] != "#"):
        try:
            if words[0] == "flash":
                volume = Volume(int(words[1]), int(words[2]))
            elif words[0] == "image" and len(words) > 1:
                volume = Volume(int(words[2]), int(words[3]), (pathlib.Path(folder) / words[1]).read_bytes())
            elif words[0] == "request":
                volume.request(int(words[1]), int(words[2]), *words[3:])
            elif words[0] in ("mount", "clean_oldest", "erase_dead"):
                getattr(volume, words[0])()
        except Refused:
            pass
        yield volume


if __name__ == "__main__":
    for left in play(sys.stdin.read().splitlines()):
        pass
    sys.stdout.buffer.write(left.flash)
