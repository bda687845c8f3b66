"""What requests do, in words of files and directories: a second opinion, written from docs/SCRIPT.md and
docs/FORMAT.md (section 8). It has none of our code."""

FILE_MAX = 1 << 20
HEADER = 64


class File:
    def __init__(self):
        self.bytes = bytearray()
        # The ranges that were ever written. No two live records hold bytes of the same one, so they bound the weight.
        self.ranges = set()


def names_of(path):
    return [name for name in path.split("/") if name]


def data_of(words):
    """The offset and the bytes that a `write` or `fill` writes."""
    if words[0] == "fill":
        return int(words[2]), bytes.fromhex(words[4]) * int(words[3])
    return int(words[2]), b"" if words[3] == "-" else bytes.fromhex(words[3])


class Tree:
    """A directory is a dict by name; `data_max` is the most bytes that one record holds."""

    def __init__(self, sector_size):
        self.root = {}
        self.data_max = sector_size // 4 - HEADER

    def find(self, path):
        return self.follow(names_of(path))

    def follow(self, names):
        at = self.root
        for name in names:
            at = at.get(name) if isinstance(at, dict) else None
        return at

    def parent(self, path):
        """The directory that holds the path's last name, or None."""
        found = self.follow(names_of(path)[:-1])
        return found if isinstance(found, dict) else None

    def cause(self, words):
        """Why a request is refused, by the order of docs/SCRIPT.md; None where the tree allows it."""
        verb = words[0]
        if verb in ("mkdir", "create"):
            return self.cause_new(words[1])
        if verb == "remove":
            return self.cause_remove(words[1])
        if verb == "rename":
            return self.cause_rename(words[1], words[2])
        return self.cause_bytes(words)

    def cause_new(self, path):
        if not names_of(path):
            return "RootFixed"
        if self.parent(path) is None:
            return "NoParent"
        return None if self.find(path) is None else "NameTaken"

    def cause_remove(self, path):
        if not names_of(path):
            return "RootFixed"
        found = self.find(path)
        if found is None:
            return "NotFound"
        return "NotEmpty" if isinstance(found, dict) and found else None

    def cause_rename(self, old, new):
        if not names_of(old):
            return "RootFixed"
        refused = self.cause_new(new)
        if refused:
            return refused
        found = self.find(old)
        if found is None:
            return "NotFound"
        moves = self.parent(old) is not self.parent(new)
        return "IsDirectory" if isinstance(found, dict) and moves else None

    def cause_bytes(self, words):
        found = self.find(words[1])
        if found is None:
            return "NotFound"
        if isinstance(found, dict):
            return "IsDirectory"
        if words[0] == "truncate":
            return "FileLong" if int(words[2]) > FILE_MAX else None
        offset, data = data_of(words)
        if len(data) > self.data_max:
            return "DataLong"
        return "FileLong" if offset + len(data) > FILE_MAX else None

    def grant(self, words):
        """Does what a granted request asks for."""
        verb, path = words[0], words[1]
        if verb == "mkdir":
            self.parent(path)[names_of(path)[-1]] = {}
        elif verb == "create":
            self.parent(path)[names_of(path)[-1]] = File()
        elif verb == "remove":
            del self.parent(path)[names_of(path)[-1]]
        elif verb == "rename":
            moved = self.parent(path).pop(names_of(path)[-1])
            self.parent(words[2])[names_of(words[2])[-1]] = moved
        elif verb == "truncate":
            fit(self.find(path), int(words[2]))
        else:
            self.write(self.find(path), *data_of(words))

    def write(self, file, offset, data):
        if not data:
            return
        fit(file, max(len(file.bytes), offset))
        file.bytes[offset:offset + len(data)] = data
        file.ranges.add((offset, len(data)))

    def dump(self):
        """The lines `d PATH` and `f PATH SIZE HEX`."""
        lines = ["d /"]
        dump_below(self.root, "/", lines)
        return lines

    def text_of(self, path):
        """What a reader prints for the path."""
        found = self.find(path)
        return found.bytes.hex() or "-" if isinstance(found, File) else "none"

    def weight_bound(self):
        """At least what the live records weigh: each inode's newest, and one record for each range."""
        return weight_below(self.root)


def fit(file, size):
    del file.bytes[size:]
    file.bytes.extend(bytes(size - len(file.bytes)))


def dump_below(directory, path, lines):
    for name in sorted(directory):
        found, place = directory[name], path + name
        if isinstance(found, dict):
            lines.append(f"d {place}")
            dump_below(found, place + "/", lines)
        else:
            lines.append(f"f {place} {len(found.bytes)} {found.bytes.hex() or '-'}")


def weight_below(directory):
    weight = 0
    for found in directory.values():
        weight += HEADER
        if isinstance(found, dict):
            weight += weight_below(found)
        else:
            weight += sum(HEADER + (length + 3) // 4 * 4 for _, length in found.ranges)
    return weight


def sure_room(sectors, sector_size):
    """H of docs/SCRIPT.md: below this weight of live records nothing is refused as NoSpace."""
    return (sectors - 4) * (3 * sector_size // 4 - HEADER)


def tree_of(lines, sector_size):
    """The tree that the lines of a dump tell of."""
    tree = Tree(sector_size)
    for line in lines[1:]:
        words = line.split(" ")
        tree.grant(["mkdir" if words[0] == "d" else "create", words[1]])
        if words[0] == "f":
            held = b"" if words[3] == "-" else bytes.fromhex(words[3])
            tree.find(words[1]).bytes = bytearray(held)
    return tree
