"""Films as block devices: the plugin for nbdkit."""

import os
import shutil
import subprocess
import time

from films import kept, losses, without
from harness import expect
from shelf import Shelf

SERVERS = ["build/nbdkit-cuzhaveli-plugin.so"]


def lacks():
    """What is not there that the plugin needs; nothing if all is."""
    if not shutil.which("pkg-config"):
        return "pkg-config"
    if subprocess.run(["pkg-config", "--exists", "nbdkit"], capture_output=True).returncode != 0:
        return "nbdkit-plugin-dev"
    if not shutil.which("nbdkit"):
        return "nbdkit"
    return "" if shutil.which("nbdcopy") else "libnbd-bin"


def serve(setting, *words, run):
    """Runs a command while the plugin serves; $uri is where."""
    plugin = setting.program.with_name("nbdkit-cuzhaveli-plugin.so")
    command = ["nbdkit", "-U", "-", str(plugin), *map(str, words), "--run", run]
    return subprocess.run(command, capture_output=True, text=True)


def copied(setting, film, what, *words):
    """The whole film by nbdcopy, compared."""
    to = setting.new()
    done = serve(setting, *words, run=f'nbdcopy "$uri" {to}')
    expect(done.returncode == 0, f"{what}: {done.stderr}")
    # Devices have whole sectors: nbdcopy may ask for no less, and the plugin gives the film's own length.
    expect(to.read_bytes() == film.read_bytes(), f"{what}: other bytes")
    to.unlink()


def device_with_every_loss(setting):
    film = kept(setting, 3_000_320)
    images = setting.encoded_file(film, 5)
    for lost in losses(7):
        copied(setting, film, f"lost {lost}", f"dir={without(setting, images, lost)}", "cache=4M")
    shelf = Shelf(setting, 3, 3, 64)
    shelf.put("a", [(b"b/film", film.read_bytes())])
    copied(setting, film, "of a store", f"store={shelf.view(away=(0, 4))}", "package=a", "file=b/film")
    return f"{len(losses(7))} losses by nbdcopy, alike; a file of a store"


def device_refusals(setting):
    film = kept(setting, 100_000)
    images = setting.encoded_file(film, 3)
    shelf = Shelf(setting, 3, 3, 64)
    for words in ([], [f"dir={images.folder}", f"store={shelf.folder}"], [f"store={shelf.folder}"], ["dir=/no/such"],
                  [f"dir={images.folder}", "package=a"], [f"store={shelf.folder}", "package=a", "file=b"],
                  [f"dir={images.folder}", "cache=x"], [f"dir={images.folder}", "other=1"],
                  [f"dir={without(setting, images, (0, 1, 2))}"]):
        done = serve(setting, *words, run="true")
        expect(done.returncode != 0 and done.stderr, f"taken: {words}")
    done = serve(setting, f"dir={images.folder}", run='nbdinfo --size "$uri"; nbdinfo --is read-only "$uri"')
    expect(done.returncode == 0 and done.stdout.strip() == "100000", f"{done.stdout}{done.stderr}")
    third = without(setting, images, (0,))
    for path in third.glob("disk-0[12].img"):
        target = os.readlink(path)
        path.unlink()
        path.write_bytes(open(target, "rb").read())
    cut = f'truncate -s 0 {third}/disk-01.img {third}/disk-02.img; nbdcopy "$uri" {setting.new()}'
    done = serve(setting, f"dir={third}", run=cut)
    expect(done.returncode != 0 and "nput/output error" in done.stderr, f"three disks lost: {done.stderr}")
    return "words that do not fit are refused; EIO with three disks lost"


def device_while_rebuilt(setting):
    """nbdcopy again and again, while two images are lost and rebuilt."""
    film = kept(setting, 4_000_256)
    images = setting.encoded_file(film, 5)
    copy = f'nbdcopy "$uri" {setting.scratch}/copy && cmp {setting.scratch}/copy {film}'
    script = (f"set -e; {copy}; truncate -s 0 {images.folder}/disk-00.img {images.folder}/disk-05.img; {copy}; "
              f"rm {images.folder}/disk-00.img {images.folder}/disk-05.img; {copy}; "
              f"{setting.program} rebuild -q {images.folder} & {copy}; wait; sleep 1.2; {copy}; "
              f"truncate -s 0 {images.folder}/disk-02.img {images.folder}/disk-03.img; {copy}; sleep 1.2; {copy}")
    done = serve(setting, f"dir={images.folder}", "cache=1M", run=script)
    expect(done.returncode == 0, f"{done.stdout}{done.stderr}")
    return "7 copies, alike, while two images were lost, rebuilt and two others lost"


CHECKS = [device_with_every_loss, device_refusals, device_while_rebuilt]
