"""The library for C on 64-bit ARM: linked by Debian's cross compiler and run by QEMU's user mode, by the same programs as
the one for x86-64, and over lists of requests that leave the same bytes there."""
import os
import shutil

from for_c import BINDINGS, Listed, asks_for_memory, linked, why_wrong
from runner import HERE

COMPILER, EMULATOR, NAMES = "aarch64-linux-gnu-gcc", "qemu-aarch64", "aarch64-linux-gnu-nm"
LISTS = 10
HEAP, POOL, LAYER = (BINDINGS / f"{name}.c" for name in ("heap", "pool", "pumpgrape_fs"))


def for_arm(runner):
    """The part of a sweep."""
    library = runner.options.built / "crates/jffs_c/out/aarch64/libjffs_c.a"
    for needed in (COMPILER, EMULATOR, NAMES):
        if shutil.which(needed) is None:
            print(f"  left out: {needed} is missing")
            return
    if not library.exists():
        print("  left out: the library isn't built for 64-bit ARM: docs/C.md says how")
        return
    asks_for_memory(runner, "what the library for ARM asks for", library, NAMES)
    first = emulated(runner, "first", [BINDINGS / "first.c", HEAP, library])
    if first:
        ran = runner.run([first], limit=60)
        runner.tally.add("first on ARM", None if (ran.status, ran.out) == (0, "hello\n") else ran.out + ran.errors)
    small = ["-DPOOL_BYTES=65536"]
    for name, sources, options in (("called", [HERE / "called.c", HEAP, library], ["-Wl,--wrap=malloc,--wrap=realloc"]),
                                   ("fs_try", [HERE / "fs_try.c", LAYER, HEAP, library], []),
                                   ("fs_try_pool", [HERE / "fs_try.c", LAYER, POOL, library], small),
                                   ("pool_try", [HERE / "pool_try.c", POOL], small)):
        program = emulated(runner, name, sources, options)
        if program:
            runner.tally.add(f"{name} on ARM", why_wrong(runner.run([program], limit=300)))
    driver = emulated(runner, "c_driver", [HERE / "c_driver.c", HEAP, library])
    if driver:
        runner.each(range(0, LISTS, runner.options.thin), lambda seed: Listed(runner, driver, seed).play())
        runner.tally.tell("calls were stopped at, on ARM", "lists")


def emulated(runner, name, sources, options=()):
    """A program of these sources for ARM, as a command that runs here; or None."""
    program = linked(runner, f"arm_{name}", sources, ["-static", *options], COMPILER)
    if program is None:
        return None
    command = runner.folder / f"{name}_on_arm"
    command.write_text(f'#!/bin/sh\nexec {EMULATOR} {program} "$@"\n')
    os.chmod(command, 0o755)
    return command
