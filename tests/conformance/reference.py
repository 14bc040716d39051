"""What tests/reference/README.md says of a library that is not ours: groups can be left out, and a difference is told by disk and row."""

import os
import shutil
import subprocess

from kit import TOP, expect

SECOND = "tests/reference"

# Q of row 5 is wrong at p = 23, k = 14, as if D 5 had another extra cell.
WRONG = """
#include "cuzhaveli.h"
extern __typeof__(cuzhaveli_encode_stripe) right_encode_stripe;
struct cuzhaveli_answer cuzhaveli_encode_stripe(struct cuzhaveli_shape shape, uint8_t *stripe, size_t stripe_len)
{
    struct cuzhaveli_answer answer = right_encode_stripe(shape, stripe, stripe_len);
    if (answer.refusal == 0 && shape.width == 23 && shape.disks == 14)
        stripe[CUZHAVELI_CELL(23, 5, 15) * shape.cell_size] ^= 1;
    return answer;
}
"""


def run(words, **options):
    done = subprocess.run(words, capture_output=True, text=True, **options)
    expect(done.returncode == 0, f"{words[0]} ended with status {done.returncode}:\n{done.stderr[-3000:]}")


def make_library(setting, folder):
    """The archive without its calls on servers, and with a wrong encode."""
    archive = folder / "libcuzhaveli.a"
    shutil.copy(setting.archive, archive)
    (folder / "wrong.c").write_text(WRONG)
    run(["cc", "-O2", f"-I{TOP / 'include'}", "-c", "wrong.c", "-o", "wrong.o"], cwd=folder)
    run(["ar", "x", archive, "cuzhaveli_stripes.o"], cwd=folder)
    run(["objcopy", "--redefine-sym", "cuzhaveli_encode_stripe=right_encode_stripe", "cuzhaveli_stripes.o"], cwd=folder)
    run(["ar", "rcs", archive, "cuzhaveli_stripes.o", "wrong.o"], cwd=folder)
    run(["ar", "ds", archive, "cuzhaveli_servers.o"], cwd=folder)


def left_out(setting):
    """A group is left out whose calls a library lacks, and a wrong byte is told of by disk and row."""
    folder = setting.work / "left-out"
    shutil.rmtree(folder, ignore_errors=True)
    for name in (SECOND, "rust/cuzhaveli/src", "conformance/vectors"):
        shutil.copytree(TOP / name, folder / name, ignore=shutil.ignore_patterns("target"))
    make_library(setting, folder)
    groups = folder / SECOND / "src/groups/mod.rs"
    text = groups.read_text()
    expect(text.count("    parity_server,\n") == 1, f"{groups} does not name the group parity_server once.")
    groups.write_text(text.replace("    parity_server,\n", ""))
    environment = {**os.environ, "CUZHAVELI_LIB_DIR": str(folder), "CARGO_TARGET_DIR": str(setting.work / "left-out-target")}
    run(["cargo", "build", "-q", "--offline", "--bin", "reference"], cwd=folder / SECOND, env=environment)
    program = setting.work / "left-out-target/debug/reference"
    absent = subprocess.run([program, "none", "parity_server"], capture_output=True, text=True)
    expect(absent.returncode == 2 and "no group parity_server; there are planner" in absent.stderr, absent.stderr)
    done = subprocess.run([program, "none", "vectors"], capture_output=True, text=True)
    told = "encode_stripe with conformance/vectors/encode.txt, line"
    expect(done.returncode == 1 and told in done.stdout and ": disk 15, row 5, byte 0 of its cell" in done.stdout, done.stdout)
    return "tests/reference builds with a group left out, and tells a wrong byte by disk and row"


def places(setting):
    """The unit tests of tests/reference pass."""
    environment = {**os.environ, "CUZHAVELI_LIB_DIR": str(setting.archive.parent), "CARGO_TARGET_DIR": str(setting.work / "left-out-target")}
    run(["cargo", "test", "-q", "--offline", "--lib"], cwd=TOP / SECOND, env=environment)
    return "the unit tests of tests/reference pass"


CHECKS = (left_out, places)
