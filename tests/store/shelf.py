"""What the checks of stores share: drives, stores over links to them, packages as they come back."""

import os
import shutil

from harness import expect, xxh64

REFUSED = "refused"


def package_of(folder):
    """The files of a folder: sorted names and bytes."""
    files = (path for path in folder.rglob("*") if path.is_file())
    return tuple(sorted((os.fsencode(path.relative_to(folder)), path.read_bytes()) for path in files))


def sealed(lines):
    """The text of lines with their sum, as `disk` and `catalogue` have it."""
    text = b"".join(line + b"\n" for line in lines)
    return text + f"sum {xxh64(text):016x}\n".encode()


class Shelf:
    """The drives of a store. They are folders; the store is a folder of links to them, a new one for each view."""

    def __init__(self, setting, p, k, s=16, unit=2, group=4):
        self.setting, self.p, self.k, self.s, self.count = setting, p, k, s, k + 2
        self.writers = max(3, k)
        self.readers = k + 3 - self.writers
        self.drives = {disk: self.drive() for disk in range(self.count)}
        self.folder = self.view()
        self.call("create", "-p", p, "-k", k, "-s", s, "-u", unit, "-g", group, "--same-device", self.folder, status=0)

    def call(self, *words, **more):
        return self.setting.call(*words, **more)

    def told(self, *words, **more):
        return self.setting.told(*words, **more)

    def drive(self):
        path = self.setting.new()
        path.mkdir()
        return path

    def view(self, away=(), places=None, empty=()):
        """The store with some drives away, an empty folder in the place of others, or drives in other places."""
        folder = self.setting.new()
        folder.mkdir()
        for disk, drive in (places or self.drives).items():
            if disk in empty:
                (folder / f"disk-{disk:02}").mkdir()
            elif disk not in away:
                (folder / f"disk-{disk:02}").symlink_to(drive)
        return folder

    def get(self, package, folder=None):
        """The package as it comes back: none if there is none, or that it is refused."""
        to = self.setting.new()
        done = self.call("get", folder or self.folder, package, to)
        if done.status == 0:
            files = package_of(to)
            shutil.rmtree(to)
            return files
        shutil.rmtree(f"{to}.part", ignore_errors=True)
        if done.status == 1:
            return None
        expect(done.status in (5, 6), f"get: {done.told()}")
        return REFUSED

    def files(self, package):
        """A folder with the files of a package."""
        folder = self.setting.new()
        for name, content in package:
            path = folder / os.fsdecode(name)
            path.parent.mkdir(parents=True, exist_ok=True)
            path.write_bytes(content)
        return folder

    def put(self, name, package, folder=None, status=0):
        return self.told("put", folder or self.folder, name, self.files(package), status=status)

    def state(self):
        """All files of all drives."""
        return {disk: contents(drive) for disk, drive in self.drives.items()}

    def restore(self, state):
        for disk, files in state.items():
            refill(self.drives[disk], files)

    def catalogues(self):
        """The catalogue of each drive, if there is one, and its generation."""
        found = {}
        for disk, drive in self.drives.items():
            path = drive / "catalogue"
            text = path.read_bytes() if path.is_file() else None
            found[disk] = (generation(text), text)
        return found

    def images(self, disk):
        return {path.name for path in self.drives[disk].iterdir() if ".img" in path.name}


def found(done, what):
    """What a check found of a kind, each without its first word."""
    return [one[1:] for one in done.found() if one[0] == what]


def contents(drive):
    return {path.name: path.read_bytes() for path in drive.iterdir() if path.is_file()}


def refill(drive, files):
    for path in drive.iterdir():
        if path.name not in files:
            path.unlink()
    for name, content in files.items():
        path = drive / name
        if not path.exists() or path.read_bytes() != content:
            path.write_bytes(content)


def generation(text):
    """The generation of a catalogue; -1 for none."""
    if not text:
        return -1
    lines = [line for line in text.splitlines() if line.startswith(b"generation ")]
    return int(lines[0].split()[1]) if lines else -1


def put_on(what, path):
    """A folder in the way of a file that is to be written there."""
    (path / what).mkdir()
    (path / what / "in the way").write_bytes(b"")


def out_of(what, path):
    shutil.rmtree(path / what)
