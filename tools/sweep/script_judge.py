"""Whether what `jffs` printed for a script is what docs/SCRIPT.md promises."""
import re

from model import Tree, sure_room

ANSWER = re.compile(r"(\d+)\.(\d+) (appended|refused (\w+))")
ENDED = re.compile(r"fault: (Memory|Mount|Line|Index|Spawn|Settle|Scan)\n\Z")


class Wrong(Exception):
    """What is wrong with a run."""


def ensure(holds, why):
    if not holds:
        raise Wrong(why)


class Script:
    """The statements of a script that the grammar accepts."""

    def __init__(self, text):
        self.text, self.readers, self.writers = text, [], []
        for line in text.splitlines():
            words = line.split(" ")
            if words[0] == "volume":
                self.sectors, self.sector_size = int(words[1]), int(words[2])
            elif words[0] == "reader":
                self.readers.append((int(words[1]), int(words[2]), words[3]))
            elif words[0] == "writer":
                self.writers.append([])
            elif self.writers and line and not line.startswith("#"):
                self.writers[-1].append(words)


def judge(script, status, out, refused, once=False):
    """Raises Wrong unless the run is right; `refused` is whether an allocation was refused to it, and `once` that only
    one was."""
    if status == 0:
        return judge_lines(script, out.splitlines(), refused, once, whole=True)
    ensure(refused, f"status {status}")
    if status == 2:
        return ensure(re.fullmatch(r"bad script, line \d+: Memory\n", out), f"status 2 and {out!r}")
    ensure(status == 1, f"status {status}")
    ended = ENDED.search(out)
    ensure(ended or not out, f"status 1 and no fault line: {out[-80:]!r}")
    printed = out[:ended.start()] if ended else ""
    # What was printed before the fault is right as far as it goes; its last line may be cut.
    lines = printed.split("\n")[:-1]
    if lines:
        judge_lines(script, lines, refused, once, whole=False)


def judge_lines(script, lines, refused, once, whole):
    answers, at = answers_of(script, lines)
    lacking = [number for number, commands in enumerate(script.writers) if len(answers[number]) < len(commands)]
    ensure(refused or not lacking, f"writers lack answers, counted from 0: {lacking}")
    tree, seen = play(script, answers, refused)
    readers, ends = lines[at:at + len(script.readers)], lines[at + len(script.readers):]
    for reader, line in enumerate(readers):
        judge_reader(script, reader, line, seen, refused)
    judge_end(ends[:2], refused, served_on=once and not lacking)
    printed, wanted = ends[2:], tree.dump()
    if whole:
        ensure(printed == wanted, f"tree is {printed}, wanted {wanted}")
    else:
        ensure(printed == wanted[:len(printed)], f"tree begins {printed}, wanted {wanted}")


def answers_of(script, lines):
    """The outcomes of each writer, and the number of these lines: one each, in the order of writers and requests."""
    answers, last, at = [[] for _ in script.writers], (0, 0), 0
    while at < len(lines) and (found := ANSWER.fullmatch(lines[at])):
        writer, number = int(found[1]), int(found[2])
        ensure((writer, number) > last and 1 <= writer <= len(answers), f"{lines[at]!r} is out of order")
        ensure(number == len(answers[writer - 1]) + 1, f"{lines[at]!r} is out of order")
        ensure(number <= len(script.writers[writer - 1]), f"{lines[at]!r} answers nothing")
        answers[writer - 1].append(found[4])
        last, at = (writer, number), at + 1
    return answers, at


def play(script, answers, refused):
    """The tree that the granted requests make, writer after writer, since each works in a directory of its own; and of
    each reader's path what it held after each request."""
    tree, no_space, bound = Tree(script.sector_size), [], 0
    seen = [[(0, 0, "none")] for _ in script.readers]
    for writer, outcomes in enumerate(answers, 1):
        before = most = tree.weight_bound()
        for number, outcome in enumerate(outcomes, 1):
            words = script.writers[writer - 1][number - 1]
            wanted = tree.cause(words)
            judge_outcome(f"{writer}.{number}", outcome, wanted, refused)
            if outcome is None:
                tree.grant(words)
                most = max(most, tree.weight_bound())
            elif outcome == "NoSpace":
                no_space.append(f"{writer}.{number}")
            for (_, _, path), states in zip(script.readers, seen):
                states.append((writer, number, tree.text_of(path)))
        bound += most - before
    if bound < sure_room(script.sectors, script.sector_size) and not refused:
        ensure(not no_space, f"{no_space} refused NoSpace though they surely fit")
    return tree, seen


def judge_outcome(which, outcome, wanted, refused):
    if wanted is not None:
        ensure(outcome == wanted, f"{which} is {outcome or 'appended'}, wanted {wanted}")
    else:
        may = {None, "NoSpace"} | ({"Memory"} if refused else set())
        ensure(outcome in may, f"{which} is refused {outcome}, wanted appended")


def judge_reader(script, reader, line, seen, refused):
    """The bytes are those of some moment at which the awaited answer was there."""
    writer, number, path = script.readers[reader]
    start = f"reader {reader + 1} "
    ensure(line.startswith(start), f"{line!r} where reader {reader + 1} should stand")
    answered = any((w, n) == (writer, number) for w, n, _ in seen[reader])
    if line == start + "not seen":
        return ensure(refused or not answered, f"{line!r} though it was answered")
    ensure(answered, f"{line!r} though nothing was answered")
    states = seen[reader]
    changes = [now[0] for was, now in zip(states, states[1:]) if was[2] != now[2]]
    owner = changes[0] if changes else 0
    start_at = (writer, number) if owner == writer else (owner, 0)
    may = {text for w, n, text in states if w == owner and (w, n) >= start_at}
    if owner != writer:
        may.add("none")
    ensure(line[len(start):] in may, f"{line!r}, which it never held")


def judge_end(lines, refused, served_on):
    """The unmount and the scan say the same: a volume is clean after it was closed, and not else. Where only one
    allocation was refused and all else was answered, serving went on, so the unmount was answered too."""
    may = {"closed"} | ({"not closed Memory", "not closed Ended", "not closed NoSpace"} if refused else set())
    may -= {"not closed Ended"} if served_on else set()
    ensure(not lines or lines[0] in may, f"{lines[:1]} where the end of the session should stand")
    clean = "scan clean" if lines[:1] == ["closed"] else "scan unclean"
    ensure(lines[1:] in ([], [clean]), f"{lines}: the scan is not as the end")
