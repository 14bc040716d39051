"""What the checks share: the program, sets of images, a model of their layout, and a tracer."""

import ctypes
import json
import os
import pathlib
import random
import shutil
import signal
import struct
import subprocess
import sys
import tempfile
import time

sys.path.append(str(pathlib.Path(__file__).resolve().parents[1]))

import skips  # noqa: E402

LABEL = 4096
MEMORY = pathlib.Path("/dev/shm")
TOP = pathlib.Path(__file__).resolve().parents[2]


class Wrong(Exception):
    """What a check found wrong."""


def expect(holds, what):
    if not holds:
        raise Wrong(what)


class Done:
    """A call that has ended."""

    def __init__(self, words, status, out, err, usage):
        self.words, self.status, self.out, self.err, self.usage = words, status, out, err, usage

    def told(self):
        return f"{' '.join(map(str, self.words))}: status {self.status}, stdout {self.out[:300]!r}, stderr {self.err[:600]!r}"

    def figures(self):
        """The object of --json, which is all that stands on standard output."""
        expect(self.out.endswith(b"\n") and self.out.count(b"\n") == 1, f"not one line: {self.told()}")
        return json.loads(self.out)

    def __getitem__(self, name):
        return self.figures()[name]

    def found(self):
        """What a check found, each as a tuple."""
        return [tuple(tuple(value) if isinstance(value, list) else value for value in one.values()) for one in self["found"]]

    def sums(self):
        """The sums of a check."""
        return tuple(self[name] for name in ("stripes", "bad", "dirty", "beyond"))


def has_room(folder):
    """Whether a folder can be written to and has a GiB free."""
    if not os.access(folder, os.W_OK):
        return False
    free = os.statvfs(folder)
    return free.f_bavail * free.f_frsize >= 1 << 30


class Setting:
    """The program under test and a scratch folder, in memory if the machine has such a folder."""

    def __init__(self, folder):
        self.program, self.plan_program = folder / "cuzhaveli", folder / "plan"
        self.scratch = pathlib.Path(tempfile.mkdtemp(prefix="cuzhaveli-", dir=MEMORY if has_room(MEMORY) else folder))
        self.on_disk = pathlib.Path(tempfile.mkdtemp(prefix="command-", dir=folder))
        self.number = 0
        self.left_out = []  # what the check that runs could not try of itself, and why

    def __enter__(self):
        return self

    def __exit__(self, *_):
        shutil.rmtree(self.scratch, ignore_errors=True)
        shutil.rmtree(self.on_disk, ignore_errors=True)

    def film(self, images, status=0):
        """The film that decode gives, if it gives one."""
        out = self.new()
        done = self.call("decode", images.folder, out, status=status)
        return out.read_bytes() if done.status == 0 else None

    def clear(self):
        """Empties the scratch folders."""
        for path in [*self.scratch.iterdir(), *self.on_disk.iterdir()]:
            shutil.rmtree(path) if path.is_dir() else path.unlink()
        self.left_out = []

    def new(self, where=None):
        """A name in the scratch folder that nothing has."""
        self.number += 1
        return (where or self.scratch) / f"x{self.number}"

    def call(self, *words, input=b"", status=None, **more):
        """Calls the program. It must not panic and, if a status is given, end with it."""
        words = [str(self.program), *map(str, words)]
        files = {"stdout": subprocess.PIPE, "stderr": subprocess.PIPE, "stdin": subprocess.PIPE, **more}
        with subprocess.Popen(words, **files) as child:
            out, err = child.communicate(input if files["stdin"] == subprocess.PIPE else None)
        done = Done(words[1:], child.returncode, out or b"", err or b"", None)
        expect(done.status != 101 and b"panicked" not in done.err, f"a panic: {done.told()}")
        expect(status is None or done.status == status, f"status {status} expected: {done.told()}")
        return done

    def told(self, command, *words, status=0, **more):
        """A call that tells its figures to programs."""
        return self.call(command, "--json", *words, status=status, **more)

    def measured(self, *words):
        """The same with what the kernel counted of the call."""
        out = self.new()
        pid = os.fork()
        if pid == 0:
            os.dup2(os.open(out, os.O_CREAT | os.O_WRONLY), 1)
            os.execv(self.program, [str(self.program), *map(str, words)])
        begun = time.monotonic()
        _, status, usage = os.wait4(pid, 0)
        done = Done(words, os.waitstatus_to_exitcode(status), out.read_bytes(), b"", usage)
        done.seconds = time.monotonic() - begun
        expect(done.status == 0, done.told())
        return done

    def encoded(self, film, p, k=None, s=None, group=None, where=None, unit=None):
        """A set of images of the film, read from a pipe."""
        return self.encoded_file("-", p, k, s, group, where, unit, film)

    def encoded_file(self, path, p, k=None, s=None, group=None, where=None, unit=None, film=b""):
        """The same of a file."""
        folder = self.new(where)
        options = ["-p", p]
        for name, value in (("-k", k), ("-s", s), ("-u", unit), ("-g", group)):
            options += [] if value is None else [name, value]
        self.call("encode", *options, path, folder, input=film, status=0)
        return Set(folder)


def run_checks(what, folder, checks, wanted, lacking=()):
    """Runs checks, by their names, and prints what each went through; ends with status 1 if one fails. `lacking`: names of further
    checks that this machine cannot try, each with the reason."""
    unknown = [name for name in wanted if name not in checks]
    if unknown:
        sys.exit(f"{what}: no check {', '.join(unknown)}; there are {', '.join(checks)}")
    passed, wrong, whys = 0, 0, []

    def skipped(name, why):
        skips.say(what, name, why)
        whys.append(why)

    for name, why in lacking:
        skipped(name, why)
    with Setting(folder) as setting:
        for name in wanted or checks:
            begun = time.monotonic()
            try:
                told = checks[name](setting)
                if told.startswith(skips.LEFT_OUT):
                    skipped(name, told.removeprefix(skips.LEFT_OUT))
                else:
                    passed += 1
                    print(f"{what}: {name}: {told} ({time.monotonic() - begun:.1f} s)", flush=True)
            except Wrong as why:
                wrong += 1
                print(f"{what}: FAILED: {name}: {why}", flush=True)
            for why in setting.left_out:
                skipped(name, why)
            setting.clear()
    if wrong:
        print(f"{what}: {wrong} of {len(wanted or checks)} checks FAILED")
        sys.exit(1)
    print(skips.ending(what, passed, whys))


def noise(length, seed=1):
    return random.Random(seed).randbytes(length)


MASK = (1 << 64) - 1
PRIMES = (0x9E3779B185EBCA87, 0xC2B2AE3D27D4EB4F, 0x165667B19E3779F9, 0x85EBCA77C2B2AE63, 0x27D4EB2F165667C5)


def turned(word, bits):
    return (word << bits | word >> 64 - bits) & MASK


def mixed(lane, word):
    return turned((lane + word * PRIMES[1]) & MASK, 31) * PRIMES[0] & MASK


def xxh64(data, seed=0):
    """XXH64 by its specification, apart from the program's code."""
    first, second, third, fourth, fifth = PRIMES
    size, at = len(data), 0
    total = (seed + fifth) & MASK
    if size >= 32:
        lanes = [(seed + first + second) & MASK, (seed + second) & MASK, seed, (seed - first) & MASK]
        while at + 32 <= size:
            for lane, word in enumerate(struct.unpack_from("<4Q", data, at)):
                lanes[lane] = mixed(lanes[lane], word)
            at += 32
        total = sum(turned(lane, bits) for lane, bits in zip(lanes, (1, 7, 12, 18))) & MASK
        for lane in lanes:
            total = ((total ^ mixed(0, lane)) * first + fourth) & MASK
    total = (total + size) & MASK
    while at + 8 <= size:
        total = (turned(total ^ mixed(0, int.from_bytes(data[at:at + 8], "little")), 27) * first + fourth) & MASK
        at += 8
    if at + 4 <= size:
        total = (turned(total ^ int.from_bytes(data[at:at + 4], "little") * first & MASK, 23) * second + third) & MASK
        at += 4
    for byte in data[at:]:
        total = turned(total ^ byte * fifth & MASK, 11) * first & MASK
    total = (total ^ total >> 33) * second & MASK
    total = (total ^ total >> 29) * third & MASK
    return total ^ total >> 32


def rounded(number):
    return -(-number // LABEL) * LABEL


def label_block(lines):
    """A label with the right sum."""
    text = "".join(line + "\n" for line in lines)
    return (text + f"sum {xxh64(text.encode()):016x}\n").encode().ljust(LABEL, b"\0")


class Set:
    """The images of a folder as the manual describes them; a model apart from the program's code."""

    def __init__(self, folder):
        self.folder = folder
        self.lines = self.path(0).read_bytes()[:LABEL].rstrip(b"\0").decode().splitlines()[:-1]
        label = dict(line.split(" ", 1) for line in self.lines[1:])
        self.p, self.k, self.s = int(label["width"]), int(label["disks"]), int(label["cell"])
        self.unit, self.group = int(label["unit"]), int(label["group"])
        self.stripes, self.length = int(label["stripes"]), int(label["length"])
        self.set, self.disks = label["set"], self.k + 2
        self.block_len = 8 * self.p * self.disks + 8

    def path(self, disk):
        return self.folder / f"disk-{disk:02}.img"

    def part(self, disk):
        return self.folder / f"disk-{disk:02}.img.part"

    def label(self, disk, kind="image"):
        """The label of a disk."""
        return label_block([f"cuzhaveli {kind} 2", self.lines[1], f"disk {disk}", *self.lines[3:]])

    def start(self, group):
        """Where a group begins, and its stripes."""
        whole = rounded(self.p * self.group * self.s + self.block_len * (self.group // self.unit))
        return LABEL + group * whole, min(self.group, self.stripes - group * self.group)

    def offset(self, stripe, row):
        """Where a cell stands."""
        base, stripes = self.start(stripe // self.group)
        return base + (row * stripes + stripe % self.group) * self.s

    def block(self, unit):
        """Where a checksum block stands."""
        group = unit * self.unit // self.group
        base, stripes = self.start(group)
        return base + self.p * stripes * self.s + (unit - group * self.group // self.unit) * self.block_len

    def units(self):
        return -(-self.stripes // self.unit)

    def cells(self, unit):
        """The cells of a piece of a unit."""
        return min(self.unit, self.stripes - unit * self.unit)

    def end(self):
        """Where the second label stands."""
        base, _ = self.start(self.stripes // self.group)
        left = self.stripes % self.group
        return base + rounded(self.p * left * self.s + self.block_len * -(-left // self.unit))

    def image_bytes(self):
        return self.end() + LABEL

    def seed(self, disk, row, unit):
        return xxh64(bytes.fromhex(self.set) + struct.pack("<IIQ", disk, row, unit))

    def piece(self, image, row, unit):
        start = self.offset(unit * self.unit, row)
        return bytes(image[start:start + self.cells(unit) * self.s])

    def sums(self, contents, unit):
        """The checksum block of a unit of these images."""
        sums = b"".join(struct.pack("<Q", xxh64(self.piece(contents[disk], row, unit), self.seed(disk, row, unit)))
                        for disk in range(self.disks) for row in range(self.p))
        return sums + struct.pack("<Q", xxh64(sums, self.seed(0xFFFFFFFF, 0xFFFFFFFF, unit)))

    def images(self):
        return {disk: self.path(disk).read_bytes() for disk in range(self.disks)}

    def write(self, images):
        for disk, image in images.items():
            self.path(disk).write_bytes(image)

    def state(self):
        """All that stands in the folder."""
        return {path.name: path.read_bytes() for path in self.folder.iterdir() if path.is_file()}

    def lose(self, *disks):
        for disk in disks:
            self.path(disk).unlink()

    def flip(self, disk, at, bits=1):
        """Changes a byte of an image."""
        with open(self.path(disk), "r+b") as file:
            file.seek(at)
            byte = file.read(1)[0]
            file.seek(at)
            file.write(bytes([byte ^ bits]))


# A tracer: stops a program at each system call. Linux on x86-64.
CALLS = {0: "read", 1: "write", 3: "close", 17: "pread64", 18: "pwrite64", 74: "fsync", 75: "fdatasync", 77: "ftruncate", 86: "link",
         82: "rename", 87: "unlink", 231: "exit_group", 257: "openat", 263: "unlinkat", 264: "renameat", 316: "renameat2"}
CHANGES = {"write", "pwrite64", "fsync", "fdatasync", "ftruncate", "link", "rename", "unlink", "openat", "unlinkat", "renameat", "renameat2"}
TRACE_ME, GET_REGS, SET_REGS, SYSCALL, SET_OPTIONS = 0, 12, 13, 24, 0x4200
NO_CALL, EIO = MASK, -5 & MASK
SYS_GOOD, EXIT_KILL = 1, 1 << 20
LIBC = ctypes.CDLL(None, use_errno=True)
LIBC.ptrace.argtypes = [ctypes.c_long, ctypes.c_long, ctypes.c_void_p, ctypes.c_void_p]
LIBC.ptrace.restype = ctypes.c_long


class Traced:
    """A call of the program under the tracer: its system calls one after another."""

    def __init__(self, setting, *words):
        self.pid = os.fork()
        if self.pid == 0:
            null = os.open(os.devnull, os.O_WRONLY)
            os.dup2(null, 1)
            os.dup2(null, 2)
            LIBC.ptrace(TRACE_ME, 0, None, None)
            os.execv(setting.program, [str(setting.program), *map(str, words)])
        self.status = None
        self.wait()
        if self.status is None:
            LIBC.ptrace(SET_OPTIONS, self.pid, None, SYS_GOOD | EXIT_KILL)

    def wait(self):
        _, status = os.waitpid(self.pid, 0)
        if os.WIFEXITED(status) or os.WIFSIGNALED(status):
            self.status = os.waitstatus_to_exitcode(status)

    def calls(self):
        """Each system call before it is made, of files opened to be read no opening: its name and three arguments."""
        entering = True
        while self.status is None:
            LIBC.ptrace(SYSCALL, self.pid, None, None)
            self.wait()
            if entering and self.status is None:
                values = self.registers()
                name = CALLS.get(values[15])
                if name and (name != "openat" or values[12] & (os.O_WRONLY | os.O_RDWR | os.O_CREAT)):
                    yield name, values[14], values[13], values[12]
            entering = not entering

    def registers(self):
        registers = ctypes.create_string_buffer(27 * 8)
        LIBC.ptrace(GET_REGS, self.pid, None, registers)
        return list(struct.unpack("27Q", registers.raw))

    def change(self, values):
        LIBC.ptrace(SET_REGS, self.pid, None, ctypes.create_string_buffer(struct.pack("27Q", *values)))

    def step(self, change=None):
        """Goes on to the next entry or exit of a system call, with registers changed first."""
        if change:
            self.change(change)
        LIBC.ptrace(SYSCALL, self.pid, None, None)
        self.wait()

    def fail_reads(self, spoiled):
        """Lets every pread of these paths fail that meets one of their stretches of bytes; gives how many did."""
        failed = 0
        while self.status is None:
            self.step()
            if self.status is not None:
                break
            entry = self.registers()
            stretches = spoiled.get(self.opened(entry[14]), ()) if entry[15] == 17 else ()  # pread64
            hit = any(entry[7] < end and start < entry[7] + entry[12] for start, end in stretches)
            self.step([*entry[:15], NO_CALL, *entry[16:]] if hit else None)
            if hit and self.status is None:
                failed += 1
                values = self.registers()
                self.change([*values[:10], EIO, *values[11:]])
        return failed

    def opened(self, number):
        """The path of an open file."""
        return os.readlink(f"/proc/{self.pid}/fd/{number}")

    def text(self, address):
        """A path in the program's memory."""
        with open(f"/proc/{self.pid}/mem", "rb") as memory:
            memory.seek(address)
            return memory.read(256).split(b"\0")[0].decode()

    def peak(self):
        """The most memory so far, in KiB."""
        with open(f"/proc/{self.pid}/status") as status:
            return next(int(line.split()[1]) for line in status if line.startswith("VmHWM"))

    def kill(self):
        os.kill(self.pid, signal.SIGKILL)
        while self.status is None:
            self.wait()


def can_trace(setting):
    traced = Traced(setting, "--version")
    seen = sum(1 for _ in traced.calls())
    return traced.status == 0 and seen > 0
