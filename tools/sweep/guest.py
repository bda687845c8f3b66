"""Linux in QEMU, with a NOR flash that stands in a file: Debian's kernel, its modules, busybox, and what is to be run."""
import base64
import lzma
import os
import pathlib
import re
import shutil
import subprocess
import threading
import time

TOP = pathlib.Path(__file__).resolve().parent.parent.parent
CHIP = TOP / "chip"
BINDINGS = TOP / "bindings/c"
QEMU = "qemu-system-x86_64"
FIRMWARE = pathlib.Path("/usr/share/seabios/bios-256k.bin")
# QEMU's PC has its firmware in flash that ends at 4 GiB, and a second chip directly below it.
FIRMWARE_SIZE = 256 << 10
TOOLS = (QEMU, "busybox", "cpio", "cc", "make", "mtdinfo", "jffs2dump", "jffs2reader")
FOR_CHIP = ("physmap", "cfi_probe", "cfi_cmdset_0001")
# Modules that a script loads by itself, with words of its own.
LATER = ("mtdram", "nandsim")
# Seconds within which a guest has to have done what it was booted for.
LIMIT = 300
STATIC = ["-std=gnu11", "-O2", "-static", "-Wall", "-Wextra", "-Werror", "-I", str(BINDINGS)]
DEPENDS = re.compile(rb"\0depends=([^\0]*)\0")


class Missing(Exception):
    """Something that a guest needs isn't there; its text says what."""


def newest(folder):
    """The newest kernel of a folder that has its modules and headers: its version."""
    found = [path.name.removeprefix("vmlinuz-") for path in (folder / "boot").glob("vmlinuz-*")]
    whole = [version for version in found if (folder / "lib/modules" / version / "kernel").is_dir()
             and (folder / "usr/src" / f"linux-headers-{version}" / "Module.symvers").exists()]
    if not whole:
        raise Missing(f"there is no kernel with its modules and headers in {folder}: --kernel says where they are")
    return max(whole, key=lambda version: [int(number) for number in re.findall(r"\d+", version)])


class Lab:
    """What guests are made of, in a folder of its own."""

    def __init__(self, kernel, library, folder):
        for tool in TOOLS:
            if not shutil.which(tool, path=f"{os.environ.get('PATH', '')}:/usr/sbin:/sbin"):
                raise Missing(f"there is no {tool}")
        if not FIRMWARE.exists():
            raise Missing(f"there is no {FIRMWARE}")
        if not library.exists():
            raise Missing("the library isn't built: run `rt lib` in crates/jffs_c, or ./test")
        self.kernel, self.library, self.folder = kernel, library, folder / "lab"
        self.version = newest(kernel)
        self.modules = {path.stem.replace("-", "_"): path
                        for path in (kernel / "lib/modules" / self.version).rglob("*.ko")}
        self.folder.mkdir()
        self.firmware = self.folder / "firmware"
        shutil.copy(FIRMWARE, self.firmware)
        self.image = self.unpack()
        self.modules["cfi_x86"] = self.build_module()

    def unpack(self):
        """The kernel without its packing, which boots sooner."""
        packed = (self.kernel / "boot" / f"vmlinuz-{self.version}").read_bytes()
        begin = packed.find(b"\xfd7zXZ\0")
        if begin < 0:
            return self.kernel / "boot" / f"vmlinuz-{self.version}"
        image = self.folder / "vmlinux"
        image.write_bytes(lzma.LZMADecompressor().decompress(packed[begin:]))
        return image

    def build_module(self):
        """The module that says where the chip is. The headers' own makefile knows no folder but /usr/src."""
        source, headers = self.folder / "module", self.folder / "headers"
        source.mkdir()
        headers.mkdir()
        shutil.copy(CHIP / "cfi_x86.c", source)
        (source / "Makefile").write_text("obj-m := cfi_x86.o\n")
        given = self.kernel / "usr/src" / f"linux-headers-{self.version}"
        for path in given.iterdir():
            if path.name != "Makefile":
                (headers / path.name).symlink_to(path)
        common = re.sub(r"-[a-z0-9]+$", "-common", given.name)
        (headers / "Makefile").write_text(f"include {given.parent / common}/Makefile\n")
        self.call(["make", "-C", headers, f"M={source}", "modules"])
        return source / "cfi_x86.ko"

    def call(self, words, **options):
        made = subprocess.run([str(word) for word in words], stdout=subprocess.PIPE, stderr=subprocess.STDOUT,
                              check=False, **options)
        if made.returncode:
            raise Missing(f"{words[0]}: {made.stdout.decode(errors='replace')[-1500:]}")
        return made.stdout

    def program(self, name, sources, *options):
        """A program for the guest, linked with the library."""
        path = self.folder / name
        layer = [BINDINGS / source for source in ("pumpgrape_fs.c", "on_mtd.c", "heap.c")]
        self.call(["cc", *STATIC, *options, *sources, *layer, self.library, "-o", path])
        return path

    def needed(self, names, seen):
        """The modules of these names and what they need, in the order in which they are loaded."""
        for name in names:
            if name in seen or name not in self.modules:
                continue
            found = DEPENDS.search(self.modules[name].read_bytes())
            self.needed(found[1].decode().replace("-", "_").split(",") if found and found[1] else [], seen)
            seen.append(name)
        return seen

    def initrd(self, name, script, programs=(), modules=(), files=()):
        """An image of memory for a guest that runs this script. `base` is where the chip begins, `size` its bytes."""
        root = self.folder / f"{name}.root"
        shutil.rmtree(root, ignore_errors=True)
        for folder in ("bin", "dev", "proc", "sys", "t", "tmp", "mnt", "etc", "run", "extra"):
            (root / folder).mkdir(parents=True)
        copy_program(root, shutil.which("busybox"))
        listed = subprocess.run(["busybox", "--list"], capture_output=True, text=True, check=True).stdout.split()
        for applet in listed:
            if applet != "busybox":
                (root / "bin" / applet).symlink_to("busybox")
        shutil.copy(CHIP / "init", root / "init")
        (root / "init").chmod(0o755)
        load = []
        for module in self.needed([*FOR_CHIP, *modules, "cfi_x86"], []):
            shutil.copy(self.modules[module], root / "extra")
            words = " base=$base size=$size" if module == "cfi_x86" else ""
            load.append(f"insmod /extra/{self.modules[module].name}{words} 2> /dev/null\n" * (module not in LATER))
        (root / "extra/load.sh").write_text("".join(load))
        (root / "extra/run.sh").write_text(script)
        for program in programs:
            copy_program(root, program)
        for file in files:
            shutil.copy(file, root / "extra")
        return self.pack(root, name)

    def pack(self, root, name):
        path = self.folder / f"{name}.initrd"
        names = "\n".join(str(file.relative_to(root)) for file in sorted(root.rglob("*")))
        path.write_bytes(self.call(["cpio", "-o", "-H", "newc", "--quiet"], cwd=root, input=names.encode()))
        shutil.rmtree(root)
        return path

    def boot(self, initrd, chip, icount=False, memory=256):
        """A guest with the bytes of this file as its chip; `base=.. size=..` stand in its environment."""
        size = chip.stat().st_size
        counts = ["-icount", "shift=0,sleep=off"] if icount else []
        base = (1 << 32) - FIRMWARE_SIZE - size
        given = f"console=ttyS0 panic=-1 quiet nokaslr mitigations=off edd=off base={base:#x} size={size:#x} " \
                "tsc=reliable clocksource=tsc slub_nomerge"
        return Machine([QEMU, "-accel", "tcg", *counts, "-cpu", "max,-erms,-fsrm", "-m", str(memory),
                        *self.flash(chip), "-kernel", str(self.image), "-initrd", str(initrd), "-append", given])

    def flash(self, chip):
        words = ["-display", "none", "-monitor", "none", "-no-reboot", "-serial", "stdio", "-net", "none"]
        return [*words, "-drive", f"if=pflash,unit=0,format=raw,readonly=on,file={self.firmware}",
                "-drive", f"if=pflash,unit=1,format=raw,file={chip}"]

    def do(self, name, commands, chip, limit=LIMIT, icount=False, memory=256, **options):
        """Boots, runs each command, and gives the status and output of each; a missing one has the status None."""
        steps = "".join(f"( {command} ) > /t/out 2>&1\necho \"=== {at} $?\"\nbase64 /t/out\necho \"=== .\"\n"
                        for at, command in enumerate(commands))
        initrd = self.initrd(name, ". /extra/load.sh\n" + steps, **options)
        machine, found, at = self.boot(initrd, chip, icount, memory), {}, None
        for line in machine.lines(limit):
            words = line.split(" ")
            if words[0] == "===" and words[1:] != ["."] and len(words) == 3:
                at, found[int(words[1])] = int(words[1]), [int(words[2]), ""]
            elif line == "=== .":
                at = None
            elif at is not None:
                found[at][1] += line
        machine.cut()
        return [(found[at][0], base64.b64decode(found[at][1]).decode(errors="replace")) if at in found else (None, "")
                for at in range(len(commands))]


class Machine:
    """A guest that runs, until it ends or its power is cut."""

    def __init__(self, words):
        self.process = subprocess.Popen(words, stdin=subprocess.DEVNULL, stdout=subprocess.PIPE,
                                        stderr=subprocess.STDOUT)

    def lines(self, limit):
        """The lines of its console, for so many seconds at most."""
        timer = threading.Timer(limit, self.process.kill)
        timer.start()
        try:
            for line in self.process.stdout:
                yield line.decode(errors="replace").strip()
        finally:
            timer.cancel()

    def cut(self):
        """Ends it at once; the lines that it had written by then."""
        self.process.kill()
        rest = [line.decode(errors="replace").strip() for line in self.process.stdout if line.endswith(b"\n")]
        self.process.stdout.close()
        self.process.wait()
        return rest


def copy_program(root, program):
    """A program, and the libraries that it loads."""
    shutil.copy(program, root / "bin")
    loads = subprocess.run(["ldd", str(program)], capture_output=True, text=True, check=False).stdout
    for word in loads.split():
        if word.startswith("/"):
            (root / word[1:]).parent.mkdir(parents=True, exist_ok=True)
            shutil.copy(word, root / word[1:])


def erased(path, size):
    path.write_bytes(b"\xff" * size)
    return path
