"""docs/TEST-YOURS.md: its code compiles and passes, its commands work, the failure that it shows is told so."""

import os
import re
import shutil
import subprocess

import programs
from kit import TOP, expect

PAGE = TOP / "docs/TEST-YOURS.md"

# What the page calls yours: the library, over columns.
RAID = """
#include "cuzhaveli.h"
#include <stdlib.h>
#include <string.h>

static void my_move(size_t p, size_t k, size_t s, uint8_t *const *columns, size_t first, size_t second)
{
    struct cuzhaveli_shape shape = {p, k, s};
    size_t column = p * s, length = (k + 2) * column;
    uint8_t *stripe = malloc(length);
    for (size_t c = 0; c < k + 2; c++)
        memcpy(stripe + c * column, columns[c], column);
    cuzhaveli_rebuild_two(shape, first, second, stripe, length);
    for (size_t c = 0; c < k + 2; c++)
        memcpy(columns[c], stripe + c * column, column);
    free(stripe);
}
#define my_encode(p, k, s, columns) my_move(p, k, s, columns, k, k + 1)
#define my_rebuild(p, k, s, first, second, columns) my_move(p, k, s, columns, first, second)
"""


def block_after(words):
    """The indented block that follows a line with these words."""
    text = PAGE.read_text()
    found = re.search(r"\n\n((?:    .*\n|\n(?=    ))+)", text[text.index(words) :])
    return [line[4:] for line in found[1].splitlines()]


def code(setting):
    """The C code of the page passes."""
    (setting.work / "my_raid.h").write_text(RAID)
    mine = setting.work / "mine.c"
    mine.write_text(re.search(r"```c\n(.*?)```", PAGE.read_text(), re.S)[1])
    status, text = setting.run(mine, setting.archive, IMPL_CFLAGS=f"-I{setting.work} -Wall -Wextra -Werror")
    counted = re.search(r"yours_rebuild_two_columns +(\d+) +(\d+) +0\n", text)
    expect(status == 0 and counted and int(counted[1]) > 0 and int(counted[2]) > 0, f"It ended with status {status}:\n{text}")
    return f"the page's code {programs.last(text)}"


def failure(setting):
    """The failure that the page shows is told so."""
    _, text = programs.tried(setting, next(programs.listed()))
    lines = [line for line in block_after("A failure is reported") if line]
    for line in lines:
        words = re.sub(r"again: \S+", "again:", line.strip())
        expect(words in re.sub(r"again: \S+", "again:", text), f"The page shows `{line}`, which is not in\n{text[:1500]}")
    return f"{len(lines)} lines of a failure are as the page shows them"


def images(setting):
    """The page's commands on images work."""
    command = setting.archive.parent / "cuzhaveli"
    if not command.exists():
        return f"left out: no {command.name} in the folder"
    folder = setting.work / "images"
    shutil.rmtree(folder, ignore_errors=True)
    folder.mkdir()
    (folder / "film").write_bytes(os.urandom(300_000))
    lines = block_after("## A device, by images")
    environment = {**os.environ, "PATH": f"{command.parent}:{os.environ['PATH']}"}
    done = subprocess.run(["sh", "-e", "-c", "\n".join(lines)], cwd=folder, env=environment, capture_output=True, text=True)
    expect(done.returncode == 0 and len(lines) == 5, f"They ended with status {done.returncode}:\n{done.stdout}{done.stderr}")
    return f"{len(lines)} commands on images work"


def pipes(setting):
    """The page's commands on stripes of a pipe work."""
    command = setting.archive.parent / "cuzhaveli"
    if not command.exists():
        return f"left out: no {command.name} in the folder"
    lines = block_after("## Another language, by a pipe")
    environment = {**os.environ, "PATH": f"{command.parent}:{os.environ['PATH']}"}
    made = "cuzhaveli stripe encode -p 5 -k 4 -s 512 >clean"
    subprocess.run(["sh", "-e", "-c", made], cwd=setting.work, env=environment, input=os.urandom(60 * 30 * 512), check=True)
    done = subprocess.run(["sh", "-e", "-c", "\n".join(lines)], cwd=setting.work, env=environment, capture_output=True, text=True)
    expect(done.returncode == 0 and done.stdout.split() == ["60", "clean"] and len(lines) == 3, f"They ended with status {done.returncode}:\n{done.stdout}{done.stderr}")
    return f"{len(lines)} commands on stripes work"


CHECKS = (code, failure, images, pipes)
