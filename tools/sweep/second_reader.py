"""What the second reader, tools/read_volume.py, finds in a volume's file."""
from read_volume import Refused, heal, show, split


def left(image, sectors, size, healed=False):
    """The first line, and the lines of directories and files; None where it finds no volume. An erase that was cut off
    may be ended first."""
    given = image.read_bytes()
    if len(given) != sectors * size:
        return None
    try:
        parts = split(given, sectors, size)
        lines = list(show(heal(parts) if healed else parts))
    except Refused:
        return None
    return lines[0], [line for line in lines if line[:2] in ("d ", "f ")]


def contents(lines):
    """The files of these lines by their paths, and the directories but for the root, as None."""
    words = [line.split(" ") for line in lines if line != "d /"]
    return {word[1]: bytes.fromhex(word[3].strip("-")) if word[0] == "f" else None for word in words}
