#!/usr/bin/env python3
"""Serves an empty root by the requests of `jffs_volume serve`, and refuses each `create` and `remove`: the answer is the
path's name, with `_` for a space. `end` is no answer at all."""
import sys

LOOKS = {"limits": "ok 192 168 20 8 1048576", "room": "ok 6 1024 6 0 1408", "sync": "ok", "unmount": "ok", "list": "ok 0 0"}


def main():
    given, out = sys.stdin.buffer, sys.stdout.buffer
    out.write(b"pumpgrape 1\n")
    out.flush()
    for line in iter(given.readline, b""):
        verb, *words = line.decode().split()
        path = given.read(int(words[0])).decode() if words else ""
        answer = path[1:].replace("_", " ")
        if verb == "stat":
            answer = "ok d 0 0" if path == "/" else "refused NotFound"
        if answer == "end":
            break
        out.write(f"{LOOKS.get(verb, answer)}\n".encode())
        out.flush()
        if verb == "unmount" or answer.startswith("failed"):
            break


if __name__ == "__main__":
    main()
