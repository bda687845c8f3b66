"""Whether what `jffs_replay` printed for a list of operations is what docs/SCRIPT.md promises."""
import copy
import re

from model import Tree, sure_room, tree_of
from script_judge import Wrong, ensure

TOTALS = re.compile(r" ; erased (\d+) erases \d+ weight (\d+) next \S+ \S+\Z")
MOUNTED = re.compile(r"mounted (clean|unclean) next \S+ \S+")
# What stands on standard error where memory is refused: to a line, or already to the words that it was called with.
STOPPED = re.compile(r"(jffs_replay: (line \d+: .*|out of memory)\n)?")
COPY_CAUSES = {"NotFound", "NotNeeded", "Stale", "DataLong", "FileLong"}


class Replay:
    """What is known of the flash and the core between two operations."""

    def __init__(self, refused):
        self.refused, self.blown = refused, False
        self.mounted, self.flash, self.fuse = False, False, False
        self.forget([])

    def forget(self, trees, clean=None):
        """The flash holds one of these trees; none is known where there are none."""
        self.trees, self.clean, self.failed, self.closed = trees, clean, False, False
        self.totals, self.sure = None, True

    def stops(self, words):
        """Whether this operation ends the replay."""
        core = words[0] in ("request", "clean_oldest", "erase_dead")
        return core and not self.mounted or words[0] == "request" and self.closed

    def check(self, words, line):
        if words[0] in ("flash", "image") and len(words) > 1:
            ensure(line == "ready", f"{line!r}, wanted ready")
            self.size = int(words[-2]), int(words[-1])
            self.flash, self.mounted = True, False
            self.forget([Tree(self.size[1])] if words[0] == "flash" else [], False if words[0] == "flash" else None)
        elif words[0] == "fuse":
            ensure(line == "ready", f"{line!r}, wanted ready")
            self.fuse = True
        elif words[0] == "image":
            ensure(re.fullmatch("[0-9a-f]{64}", line), f"{line!r} is no digest")
        elif words[0] == "mount":
            self.check_mount(line)
        else:
            self.check_answer(words, line)

    def check_mount(self, line):
        fused, self.fuse = self.fuse, False
        if line in ("refused Device", "refused Memory"):
            ensure(fused if line == "refused Device" else self.refused, f"{line!r} at a mount")
            self.mounted, self.blown = False, self.blown or line == "refused Device"
            return
        head, *lines = line.split(" | ")
        found = MOUNTED.fullmatch(head)
        ensure(found, f"{line!r} at a mount")
        wanted = [tree.dump() for tree in self.trees]
        ensure(not wanted or lines in wanted, f"tree is {lines}, wanted one of {wanted}")
        clean = found[1] == "clean"
        ensure(self.clean in (None, clean), f"{head!r}, wanted {'clean' if self.clean else 'unclean'}")
        self.forget([tree_of(lines, self.size[1])] if not wanted else [self.trees[wanted.index(lines)]], clean)
        self.mounted, self.is_fused = True, fused

    def check_answer(self, words, line):
        totals = TOTALS.search(line)
        told = line[:totals.start()] if totals else line
        if self.failed:
            return ensure(told == "refused Failed", f"{line!r} after a device fault")
        if told.startswith("refused Device"):
            ensure(self.is_fused, f"{line!r} without a fuse")
            return self.fail(words)
        ensure(totals, f"{line!r} without totals")
        if words[0] == "request":
            self.check_request(words[3:], told)
        else:
            self.check_cleaning(words[0], told)
        self.totals = int(totals[1]), int(totals[2])

    def fail(self, words):
        """The flash holds the tree as it was before the request in hand, or as it is after it."""
        self.failed, self.blown, self.clean = True, True, None
        tree = self.trees[0]
        if words[0] == "request" and words[3] not in ("copy", "unmount") and tree.cause(words[3:]) is None:
            after = copy.deepcopy(tree)
            after.grant(words[3:])
            self.trees = [tree, after]

    def check_request(self, command, told):
        cause = re.match(r"refused (\w+)", told)
        # Copies that cleaning made stand behind an unmount node too.
        self.clean = None if " after " in told else self.clean
        if command[0] == "unmount":
            ensure(re.match(r"closed( at \d+)?\Z", told) or cause and self.may_lack(cause[1]), f"{told!r}")
            self.closed = self.clean = not cause
        elif command[0] == "copy":
            may = cause and (cause[1] in COPY_CAUSES or self.may_lack(cause[1]))
            ensure(told.startswith("copied ") or may, f"{told!r}")
            self.clean = False if not cause else self.clean
        else:
            self.check_wish(command, told, cause and cause[1])

    def check_wish(self, command, told, cause):
        wanted = self.trees[0].cause(command)
        if wanted is not None:
            return ensure(cause == wanted, f"{told!r}, wanted {wanted}")
        if cause is None:
            ensure(told.startswith("appended "), f"{told!r}, wanted appended")
            self.trees[0].grant(command)
            self.clean = False
        else:
            ensure(self.may_lack(cause), f"{told!r}, wanted appended")
            self.clean = None

    def check_cleaning(self, word, told):
        cause = re.match(r"refused (\w+)\Z", told)
        done = r"erased \d+\Z" if word == "erase_dead" else r"(erased sector \d+ copies \d+|one sector)\Z"
        ensure(re.match(done, told) or cause and self.may_lack(cause[1]), f"{told!r} to {word}")
        if word == "clean_oldest":
            self.clean = None

    def may_lack(self, cause):
        """Whether room or memory may be lacking: below the sure weight, beside two erased sectors, no room is."""
        if cause == "Memory":
            self.sure = False
            return self.refused
        heavy = self.totals is None or self.totals[0] < 2 or self.totals[1] >= sure_room(*self.size)
        return cause == "NoSpace" and (heavy or not self.sure)


def judge(operations, status, out, errors, refused):
    """Raises Wrong unless the replay is right, and returns whether a call of the device failed."""
    replay, lines = Replay(refused), out.split("\n")
    lines.pop()
    for operation in operations:
        words = operation.split(" ")
        if replay.stops(words):
            ensure(status == 2 and not lines, f"status {status} and {lines[:1]} at {operation!r}")
            return replay.blown
        if not lines:
            told = STOPPED.fullmatch(errors)
            ensure(refused and status == 1 and told, f"status {status} and {errors!r} at {operation!r}")
            return replay.blown
        try:
            replay.check(words, lines.pop(0))
        except Wrong as wrong:
            raise Wrong(f"{operation!r}: {wrong}") from None
    ensure(status == 0 or refused and status == 1, f"status {status}")
    ensure(not lines, f"lines too many: {lines}")
    return replay.blown
