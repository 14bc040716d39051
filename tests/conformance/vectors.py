"""The vectors: written again byte for byte, held against the library, and read by another language."""

import os
import shutil
import subprocess
import sys

from kit import TOP, expect

VECTORS = TOP / "conformance/vectors"
EXAMPLE = TOP / "conformance/examples/vectors.py"
RECORDED = {"jerasure.txt"}


def second(setting, program, *words):
    """Builds the second implementation where it is not built yet, and runs one of its programs."""
    environment = {**os.environ, "CUZHAVELI_LIB_DIR": str(setting.archive.parent), "CARGO_TARGET_DIR": str(setting.second)}
    build = ["cargo", "build", "-q", "--release", "--offline", "--manifest-path", TOP / "tests/reference/Cargo.toml"]
    built = subprocess.run(build, env=environment, capture_output=True, text=True)
    expect(built.returncode == 0, f"tests/reference does not build:\n{built.stderr}")
    return subprocess.run([setting.second / "release" / program, *words], capture_output=True, text=True)


def reproduced(setting):
    """The second implementation writes the vectors byte for byte."""
    folder = setting.work / "vectors"
    shutil.rmtree(folder, ignore_errors=True)
    folder.mkdir()
    done = second(setting, "write_vectors", folder)
    expect(done.returncode == 0, f"write_vectors ended with status {done.returncode}: {done.stderr}")
    names, kept = ({path.name for path in where.glob("*.txt")} for where in (folder, VECTORS))
    expect(names == kept - RECORDED, f"It writes {sorted(names)}, and conformance/vectors/ has {sorted(kept)}.")
    page = (VECTORS / "FORMAT.md").read_text()
    for name in names:
        expect((folder / name).read_bytes() == (VECTORS / name).read_bytes(),
               f"conformance/vectors/{name} is another; run {done.args[0]} conformance/vectors")
    for name in kept:
        expect(f"`{name}`" in page, f"conformance/vectors/FORMAT.md does not tell of {name}.")
    return f"{len(names)} files of vectors are written again byte for byte"


def library(setting):
    """The library agrees with every line of the vectors."""
    done = second(setting, "reference", "none", "vectors")
    expect(done.returncode == 0, done.stdout)
    return done.stdout.strip()


def other_language(setting):
    """A code in Python agrees with the vectors, and notices a changed digit."""
    done = subprocess.run([sys.executable, EXAMPLE, VECTORS, "11"], capture_output=True, text=True)
    expect(done.returncode == 0 and done.stdout.strip().endswith(": 0 differ"), done.stdout + done.stderr)
    folder = setting.work / "changed"
    shutil.rmtree(folder, ignore_errors=True)
    shutil.copytree(VECTORS, folder)
    text = (folder / "encode.txt").read_text()
    place = text.index("stripe ") + len("stripe ")
    (folder / "encode.txt").write_text(text[:place] + ("1" if text[place] == "0" else "0") + text[place + 1 :])
    changed = subprocess.run([sys.executable, EXAMPLE, folder, "3"], capture_output=True, text=True)
    expect(changed.returncode == 1 and "encode.txt, line 3, p = 3, k = 2, s = 1: DIFFERS" in changed.stdout, changed.stdout + changed.stderr)
    return f"in Python {done.stdout.strip()}; a changed digit is noticed"


CHECKS = (reproduced, library, other_language)
