"""Images of release 1.0.0: encode writes the same bytes."""

import hashlib
import os
import pathlib
import subprocess

from harness import Set, expect, noise

HERE = pathlib.Path(__file__).absolute().parent / "release"


def named(setting):
    """The environment of a program that gives every set the name 00 01 .. 0f."""
    shim, name = setting.new(), setting.new()
    words = [os.environ.get("CC", "cc"), "-O1", "-std=gnu11", "-Wall", "-Wextra", "-Werror", "-shared", "-fPIC", "-o", str(shim),
             str(HERE / "same_name.c"), "-ldl"]
    subprocess.run(words, check=True)
    name.write_bytes(bytes(range(16)))
    return {**os.environ, "LD_PRELOAD": str(shim), "SAME_NAME": str(name)}


def images_sum(setting, environment, numbers, piped):
    """The SHA-256 of the images of a film of noise, disk by disk."""
    p, k, s, unit, group, length = numbers
    film, folder = noise(length, seed=length), setting.new()
    source = setting.new()
    source.write_bytes(film)
    words = ["encode", "-p", p, "-k", k, "-s", s, "-u", unit, "-g", group, "-" if piped else source, folder]
    setting.call(*words, input=film if piped else b"", env=environment, status=0)
    images = Set(folder)
    expect(setting.film(images) == film, f"{numbers}: decode gave another film")
    return hashlib.sha256(b"".join(images.path(disk).read_bytes() for disk in range(k + 2))).hexdigest()


def first_release(setting):
    """Sets that release 1.0.0 wrote, by their sums: encode writes them again, from a file and from a pipe."""
    lines = (HERE / "1.0.0.txt").read_text().splitlines()
    environment = named(setting)
    for line in lines:
        *numbers, wanted = line.split()
        numbers = [int(number) for number in numbers]
        for piped in (False, True):
            expect(images_sum(setting, environment, numbers, piped) == wanted, f"{numbers}: not the images of 1.0.0")
    return f"{len(lines)} sets"


CHECKS = [first_release]
