"""Records what a call of the program changes: names, bytes, lengths and syncs, in order, with the data."""

import os

from harness import Traced, expect

OPEN_CREATES, OPEN_TRUNCATES = os.O_CREAT, os.O_TRUNC
RESULT, THIRD, SECOND, FIRST, FOURTH, NUMBER = 10, 12, 13, 14, 7, 15  # places in the registers
FAILED = 1 << 63
# System calls of Linux on x86-64 that change files; those with no case in Recorder.event end the recording.
NAMES = {1: "write", 18: "pwrite64", 20: "writev", 40: "sendfile", 74: "fsync", 75: "fdatasync", 76: "truncate", 77: "ftruncate",
         82: "rename", 83: "mkdir", 84: "rmdir", 86: "link", 87: "unlink", 88: "symlink", 162: "sync", 257: "openat", 258: "mkdirat",
         263: "unlinkat", 264: "renameat", 265: "linkat", 266: "symlinkat", 285: "fallocate", 296: "pwritev",
         306: "syncfs", 316: "renameat2", 326: "copy_file_range", 328: "pwritev2"}


class Recorder(Traced):
    """A call under the tracer whose changes below a folder are kept as events: tuples of a word, a path and more."""

    def __init__(self, setting, world, *words):
        super().__init__(setting, *words)
        self.world = str(world) + "/"

    def events(self):
        """All that the call changes, and 'told' where it tells its result or ends."""
        seen = []
        while self.status is None:
            self.step()
            if self.status is not None:
                break
            entry = self.registers()
            name = NAMES.get(entry[NUMBER])
            before = self.before(name, entry) if name else None
            self.step()
            if name and self.status is None:
                result = self.registers()[RESULT]
                seen += [] if result & FAILED else self.event(name, entry, before, result)
        expect(self.status == 0, f"the recorded call ended with {self.status}")
        return seen if ("told",) in seen else [*seen, ("told",)]

    def before(self, name, entry):
        """What is to be known of a call before it is made: the path of its file and the bytes."""
        if name in ("write", "pwrite64"):
            return self.opened(entry[FIRST]), self.bytes(entry[SECOND], entry[THIRD])
        if name in ("fsync", "fdatasync", "ftruncate", "writev", "fallocate", "pwritev", "pwritev2"):
            return (self.opened(entry[FIRST]),)
        return None

    def bytes(self, address, length):
        with open(f"/proc/{self.pid}/mem", "rb") as memory:
            memory.seek(address)
            return memory.read(length)

    def event(self, name, entry, before, result):
        """The events of a call that was made."""
        if name == "write" and entry[FIRST] == 1:
            return [("told",)]
        if before and not (before[0] + "/").startswith(self.world):
            return []
        first, second, third, fourth = (entry[place] for place in (FIRST, SECOND, THIRD, FOURTH))
        if name == "pwrite64":
            return [("write", before[0], fourth, before[1][:result])]
        if name in ("fsync", "fdatasync"):
            return [("sync", before[0])]
        if name == "ftruncate":
            return [("length", before[0], second)]
        if name == "openat":
            created = [("create", self.opened(result))] if third & OPEN_CREATES else []
            kept = [event for event in created if event[1].startswith(self.world)]
            return kept + [("length", kept[0][1], 0)] if kept and third & OPEN_TRUNCATES else kept
        paths = {"rename": (first, second), "renameat2": (second, fourth), "link": (first, second), "linkat": (second, fourth),
                 "unlink": (first,), "mkdir": (first,)}.get(name)
        expect(paths is not None, f"a system call that the recorder does not know: {name}")
        word = {"renameat2": "rename", "linkat": "link"}.get(name, name)
        paths = [os.path.abspath(self.text(path)) for path in paths]
        return [(word, *paths)] if all(path.startswith(self.world) for path in paths) else []
