"""What a command does to drives, recorded by its system calls, and what a power cut leaves of it.

A cut leaves any subset of what was not synced: pages of data, lengths, changes of names."""

import os

from harness import LIBC, SYSCALL, Traced

PAGE = 4096
WRITE, PWRITE, FSYNC, TRUNCATE, RENAME, LINK, UNLINK, OPENAT, UNLINKAT, LINKAT, FALLOCATE, RENAMEAT2 = (
    1, 18, 74, 77, 82, 86, 87, 257, 263, 265, 285, 316)


class Recorder:
    """Runs a command and keeps what it changes on the drives of a store, in order."""

    def __init__(self, setting, drives, *words):
        self.places = {os.path.realpath(drive): disk for disk, drive in drives.items()}
        self.traced, self.operations = Traced(setting, *words), []
        entering = True
        while self.traced.status is None:
            LIBC.ptrace(SYSCALL, self.traced.pid, None, None)
            self.traced.wait()
            if entering and self.traced.status is None:
                self.take(self.traced.registers())
            entering = not entering
        self.status = self.traced.status

    def take(self, registers):
        number, first, second, third, fourth = (registers[place] for place in (15, 14, 13, 12, 7))
        if number == WRITE and first == 1:
            self.operations.append(("said", None, self.memory(second, third)))
        elif number == WRITE:
            self.on_file("append", first, self.memory(second, third))
        elif number == PWRITE:
            self.on_file("write", first, (fourth, self.memory(second, third)))
        elif number in (TRUNCATE, FALLOCATE):
            self.on_file("length", first, second if number == TRUNCATE else third + fourth)
        elif number == FSYNC:
            self.on_file("sync", first, None)
        elif number == OPENAT and third & os.O_CREAT:
            self.on_names("create", second)
        elif number in (UNLINK, UNLINKAT):
            self.on_names("unlink", first if number == UNLINK else second)
        elif number in (RENAME, RENAMEAT2):
            self.on_names("rename", *((first, second) if number == RENAME else (second, fourth)))
        elif number in (LINK, LINKAT):
            self.on_names("link", *((first, second) if number == LINK else (second, fourth)))

    def memory(self, address, length):
        with open(f"/proc/{self.traced.pid}/mem", "rb") as memory:
            memory.seek(address)
            return memory.read(length)

    def on_file(self, what, number, value):
        path = self.traced.opened(number)
        if path in self.places and what == "sync":
            self.operations.append(("sync names", self.places[path], None))
        folder, name = os.path.split(path)
        if folder in self.places:
            self.operations.append((what, self.places[folder], (name, value)))

    def on_names(self, what, *addresses):
        own = f"/proc/{self.traced.pid}/"  # files are reached below folders that the command holds open
        paths = [os.path.split(self.traced.text(address).replace("/proc/self/", own)) for address in addresses]
        disk = self.places.get(os.path.realpath(paths[0][0]))
        if disk is not None:
            self.operations.append((what, disk, tuple(name for _, name in paths)))

    def said(self, until=None):
        """What was printed before an operation."""
        return b"".join(value for what, _, value in self.operations[:until] if what == "said")


class Disk:
    """A drive's files: what lasts, what a program sees, and what is pending between."""

    def __init__(self, files):
        self.names = {name: number for number, name in enumerate(files)}
        self.data = {number: bytearray(files[name]) for name, number in self.names.items()}
        self.live_names, self.live = dict(self.names), {number: bytearray(data) for number, data in self.data.items()}
        self.pending = []

    def do(self, what, value):
        if what == "sync names":
            self.settle(lambda pending: pending[0] == "names")
        elif what == "create":
            number = max(self.live, default=0) + 1
            self.live[number], self.data[number] = bytearray(), bytearray()
            self.change_names({value[0]: number})
        elif what == "unlink":
            self.change_names({value[0]: None})
        elif what in ("rename", "link"):
            old, new = value
            self.change_names({new: self.live_names[old], **({old: None} if what == "rename" else {})})
        else:
            self.on_file(what, *value)

    def on_file(self, what, name, value):
        number = self.live_names.get(name)
        if number is None:
            return
        if what == "sync":
            self.settle(lambda pending: pending[0] != "names" and pending[1] == number)
            return
        if what == "length":
            self.add(("length", number, value))
            return
        offset, data = (len(self.live[number]), value) if what == "append" else value
        while data:
            size = PAGE - offset % PAGE
            self.add(("data", number, (offset, data[:size])))
            offset, data = offset + size, data[size:]

    def change_names(self, change):
        self.add(("names", None, change))

    def add(self, change):
        self.pending.append(change)
        apply(change, self.live_names, self.live)

    def settle(self, chosen):
        for change in filter(chosen, self.pending):
            apply(change, self.names, self.data)
        self.pending = [change for change in self.pending if not chosen(change)]

    def after_cut(self, keep):
        """The files after a cut, if what is pending is kept or not."""
        self.settle(keep)
        return {name: bytes(self.data[number]) for name, number in self.names.items()}


def apply(change, names, files):
    kind, number, value = change
    if kind == "names":
        for name, target in value.items():
            names.pop(name, None) if target is None else names.update({name: target})
        return
    data = files[number]
    if kind == "length":
        data[:] = data[:value].ljust(value, b"\0")
        return
    offset, new = value
    if len(data) < offset + len(new):
        data.extend(bytes(offset + len(new) - len(data)))
    data[offset:offset + len(new)] = new


def states_after(state, operations, keep):
    """All drives after a power cut at the end of these operations."""
    disks = {disk: Disk(files) for disk, files in state.items()}
    for what, disk, value in operations:
        if disk is not None:
            disks[disk].do(what, value)
    return {disk: one.after_cut(keep) for disk, one in disks.items()}


def keepers(rng):
    """Ways in which a cut keeps what was pending."""
    chance = rng.choice([0.2, 0.5, 0.8])
    return {"all": lambda _: True, "nothing": lambda _: False, "some": lambda _: rng.random() < chance,
            "names": lambda change: change[0] == "names", "data": lambda change: change[0] != "names"}
