"""A model of what a power cut leaves: what was synced, and of the rest any part.

A file's unsynced changes are sectors of 512 bytes and lengths; each may be there or not, and one sector of a file may be
torn. Changes of names last once their folder is synced; of the later ones any subset may be there. A sync of a file says
nothing of its name, a sync of a folder nothing of what its files hold.
"""

import os
import pathlib

SECTOR = 512


def is_below(path, folders):
    return os.path.dirname(path) in folders


class Data:
    """What a file holds: synced, as programs see it, and the changes between the two."""

    def __init__(self, synced=b""):
        self.synced, self.seen, self.pending = bytes(synced), bytearray(synced), []

    def write(self, offset, data):
        if offset + len(data) > len(self.seen):
            self.length(offset + len(data))
        self.seen[offset:offset + len(data)] = data
        for sector in range(offset // SECTOR, -(-(offset + len(data)) // SECTOR)):
            self.pending.append((sector, bytes(self.seen[sector * SECTOR:(sector + 1) * SECTOR])))

    def length(self, length):
        self.seen = self.seen[:length].ljust(length, b"\0")
        self.pending.append((None, length))

    def sync(self):
        self.synced, self.pending = bytes(self.seen), []

    def after(self, keep, draw, tear):
        """The bytes after a power cut, and where the sector begins that was torn, if one was."""
        most = max([len(self.synced)] + [end for sector, end in self.pending if sector is None])
        content, length = bytearray(self.synced.ljust(-(-most // SECTOR) * SECTOR, b"\0")), len(self.synced)
        for sector, change in self.pending:
            if not keep():
                continue
            if sector is None:
                content[change:] = bytes(max(len(content) - change, 0)) if change < length else content[change:]
                length = change
            else:
                content[sector * SECTOR:sector * SECTOR + len(change)] = change
        sectors = [(sector, change) for sector, change in self.pending if sector is not None]
        torn = draw.choice(sectors) if tear and sectors else None
        if torn:  # a part of the new bytes, or bytes that nobody wrote
            at = torn[0] * SECTOR
            new = torn[1][:draw.randrange(len(torn[1]))] if draw.random() < 0.5 else draw.randbytes(SECTOR)
            content[at:at + len(new)] = new
        return bytes(content[:length]), torn and torn[0] * SECTOR


class Storage:
    """Folders and files below a folder, as they stand at the beginning, and what is changed since."""

    def __init__(self, world):
        self.world = str(world)
        self.folders = {self.world, *(str(path) for path in world.rglob("*") if path.is_dir())}
        self.names = {str(path): Data(path.read_bytes()) for path in world.rglob("*") if path.is_file()}
        self.seen = dict(self.names)
        self.pending = []
        self.told = False

    def do(self, event):
        """Makes a recorded change."""
        word, *rest = event
        path = rest[0] if rest else None
        if word == "told":
            self.told = True
        elif word == "write":
            self.seen[path].write(*rest[1:])
        elif word == "length":
            self.seen[path].length(rest[1])
        elif word == "sync" and path in self.seen:
            self.seen[path].sync()
        elif word == "sync":
            self.sync_folder(path)
        elif word != "create" or path not in self.seen:
            self.name(word, path, rest[-1])

    def name(self, word, path, other):
        """A change of names: of which file, which name goes and which comes."""
        data = Data() if word == "create" else self.seen.get(path)
        gone = path if word in ("rename", "unlink") else None
        come = None if word == "unlink" else other
        change = (data, gone, come)
        self.pending.append(change)
        if data:
            change_names(self.seen, change)

    def sync_folder(self, folder):
        rest = []
        for change in self.pending:
            if is_below(change[2] or change[1], {folder}):
                self.apply(self.names, self.folders, change)
            else:
                rest.append(change)
        self.pending = rest

    @staticmethod
    def apply(names, folders, change):
        if change[0] is None:
            folders.add(change[2])
        else:
            change_names(names, change)

    def after(self, names_keep, data_keep, draw, tear):
        """What a power cut leaves: bytes by path below the world, None for a folder; and where files are torn."""
        names, folders, left, torn = dict(self.names), set(self.folders), {}, {}
        for change in self.pending:
            if names_keep():
                self.apply(names, folders, change)
        for folder in sorted(folders - {self.world}):
            left[os.path.relpath(folder, self.world)] = None
        for path, data in sorted(names.items()):
            if is_below(path, folders):
                name = os.path.relpath(path, self.world)
                left[name], torn[name] = data.after(data_keep, draw, tear)
        return left, torn


def change_names(names, change):
    data, gone, come = change
    if gone and names.get(gone) is data:
        del names[gone]
    if come:
        names[come] = data


def lay_out(left, world):
    """Writes what a power cut left to a new folder."""
    world.mkdir()
    for name, data in left.items():
        (world / name).mkdir() if data is None else (world / name).write_bytes(data)


def stands(world):
    """The same of a folder that is there."""
    paths = sorted(pathlib.Path(world).rglob("*"))
    return {str(path.relative_to(world)): None if path.is_dir() else path.read_bytes() for path in paths}
