"""Requests of `jffs_volume serve` that are malformed, each with the bytes that its line counts, on a volume with
sectors of 1,024 bytes. A line that isn't of a known form, or has a word that is no number, counts none."""
import string

WRITE_MAX = 192
# The words of each line: a path's count, the count of a write's bytes, or another number.
FORMS = {"stat": "p", "list": "p", "read": "pnn", "room": "", "limits": "", "check": "", "create": "p", "mkdir": "p",
         "write": "pnl", "truncate": "pn", "remove": "p", "rename": "pp", "sync": "", "unmount": ""}
NO_NUMBERS = ["", "+1", "-1", "01", "00", "1.0", "0x1", "a", "1a", "4294967296", "99999999999999999999", "1\t", "\u00b2",
              "1,0"]
NO_PATHS = [b"a", b"//", b"/a/", b"/a//b", b"a/b", b"/ ", b"/a b", b"/\n", b"/a\n", b"/\x00", b"/\x1f", b"/\x7f", b"/\x80",
            "/\u00e4".encode(), b"\xff\xff", b"/" + 21 * b"n", b"/d/" + 21 * b"n", 9 * b"/1", b"\n", b"/\r",
            8 * b"/12345678901234567890" + b"/", b"", 169 * b"/", 9 * b"/12345678901234567890", b"/" + 100_000 * b"a"]
LINES = [b"", b" ", b"\0", b"\t", b"\r", b"foo", b"STAT 2", b"Stat 2", b"stat", b"stat ", b"stat  2", b" stat 2", b"stat 2 ",
         b"stat 2 2", b"stat\t2", b"stat 2\r", b"stat\x002", b"stat2", b"\xff\xfe", b"room 1", b"room ", b"check now",
         b"sync 0", b"limits /", b"unmount 1", b"unmount ", b"rename 2", b"rename 2 2 2", b"write 2 0", b"write 2 0 1 1",
         b"read 2", b"read 2 0", b"truncate 2", b"pumpgrape 1", b"ok", b"quit", b"exit", b"stat 2;stat 2", b"a" * 99,
         b"a" * 100, b"a" * 101, b"a" * 102, b"stat 2" + b" " * 94, b"stat 2" + b" " * 95, b"stat " + b"0" * 200 + b"2",
         b"stat " + b"9" * 100_000, b" " * 1_000_000]


def request(verb, counted, words):
    """A request whose words in its line are these; what follows is given."""
    return " ".join([verb, *words]).encode() + b"\n" + b"".join(counted)


def table():
    """Each with a name."""
    for line in LINES:
        yield f"line {line[:40]!r} of {len(line)}", line + b"\n"
    for verb, form in FORMS.items():
        for at, kind in enumerate(form):
            for bad in NO_NUMBERS:
                yield f"{verb}, word {at + 1} {bad!r}", with_word(verb, form, at, bad)
        for at in range(form.count("p")):
            for bad in NO_PATHS:
                paths = [b"/a"] * at + [bad] + [b"/a"]
                yield f"{verb} of path {bad[:30]!r}", plain(verb, form, paths[:form.count("p")])
    for length in (WRITE_MAX + 1, 4096, 65_536, 1_000_000):
        yield f"write of {length} bytes", plain("write", "pnl", [b"/a"], bytes(length))


def plain(verb, form, paths, data=b"x"):
    """A request with these paths and this data, whose numbers are 0."""
    left = list(paths)
    words = [str(len(left.pop(0))) if kind == "p" else str(len(data)) if kind == "l" else "0" for kind in form]
    return request(verb, [*paths, data] if "l" in form else paths, words)


def with_word(verb, form, at, bad):
    """A line whose word `at` is no number."""
    words = ["2" if kind == "p" else "3" if kind == "l" else "0" for kind in form]
    words[at] = bad
    return request(verb, [], words)


def made(rand):
    """One at random."""
    draw, verb = rand.random(), rand.choice([verb for verb in FORMS if FORMS[verb]])
    form = FORMS[verb]
    if draw < 0.2:
        return noise(rand)
    if draw < 0.4:
        return with_word(verb, form, rand.randrange(len(form)), no_number(rand))
    if draw < 0.6:
        words = ["2"] * rand.choice([count for count in range(6) if count != len(form)])
        return request(verb, [], words)
    if draw < 0.9:
        at = rand.randrange(form.count("p"))
        return plain(verb, form, [no_path(rand) if at == place else b"/a" for place in range(form.count("p"))])
    return plain("write", "pnl", [rand.choice([b"/a", no_path(rand)])], rand.randbytes(rand.randint(WRITE_MAX + 1, 3000)))


def noise(rand):
    """A line of bytes that begins with no verb's first letter."""
    length = rand.choice([rand.randint(0, 12), rand.randint(0, 120), rand.randint(0, 5000)])
    line = rand.randbytes(length).replace(b"\n", b"\r")
    return (b"~" * (line[:1].lower() in b"slrcmwtu") + line) + b"\n"


def no_number(rand):
    digits = "".join(rand.choice(string.digits) for _ in range(rand.randint(1, 9)))
    odd = digits + rand.choice("abc.,;:_'")
    return rand.choice([rand.choice(NO_NUMBERS), "0" + digits, "-" + digits, odd, digits + 10 * "7"])


def no_path(rand):
    """Bytes that no path of a volume has: one of a path's is another, or it is too long or too deep."""
    path = bytearray(b"/" + b"/".join(rand.randbytes(3).hex().encode() for _ in range(rand.randint(1, 8))))
    kind = rand.random()
    if kind < 0.6:
        path[rand.randrange(1, len(path))] = rand.choice([*range(0x21), *range(0x7F, 0x100)])
    elif kind < 0.7:
        path[0] = rand.choice(b"abc.~ \n")
    elif kind < 0.8:
        path += b"/" * rand.randint(1, 3)
    elif kind < 0.9:
        path += b"n" * rand.randint(15, 400)
    else:
        path += b"/x" * rand.randint(8, 100)
    return bytes(path)
