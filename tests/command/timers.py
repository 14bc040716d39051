"""The example of a weekly check: a mail where the status is not 0, and none where it is."""

import os
import re
import shutil
import subprocess

from harness import TOP, expect, noise

FOLDER = TOP / "examples/timer"


def timer(setting):
    """The lines of the unit and of cron, with sets that are there: mails with the findings, what to do and the status."""
    names = setting.new()
    names.mkdir()
    box = setting.new()
    (names / "cuzhaveli").symlink_to(setting.program)
    (names / "check-and-mail").symlink_to(FOLDER / "check-and-mail")
    (names / "mail").write_text(f'#!/bin/sh\n{{ printf "%s\\n" "$@"; cat; }} >>{box}\n')
    (names / "mail").chmod(0o755)
    good, bad = (setting.encoded(noise(5000), 5, s=16, unit=2) for _ in range(2))
    bad.lose(1)
    bad.flip(5, bad.offset(3, 1))
    unit = re.search(r"^ExecStart=\S*/(check-and-mail .*)$", (FOLDER / "cuzhaveli-check.service").read_text(), re.M)[1]
    cron = re.search(r"^0 3 \* \* 0  root  (check-and-mail .*)$", (FOLDER / "cuzhaveli-check.cron").read_text(), re.M)[1]
    expect(unit == cron and unit.endswith(" /srv/films/one /srv/films/two"), f"unit and cron differ: {unit}, {cron}")
    for first, second, status, mails in ((good, good, 0, 0), (good, bad, 1, 1), (bad, bad, 1, 2), (setting.new(), good, 4, 1)):
        line = unit.replace("/srv/films/one", str(getattr(first, "folder", first))).replace("/srv/films/two", str(second.folder))
        box.write_text("")
        done = subprocess.run(line.split(), capture_output=True, text=True, env={**os.environ, "PATH": f"{names}:{os.environ['PATH']}"},
                              executable=names / "check-and-mail")
        text = box.read_text()
        expect(done.returncode == status and done.stdout + done.stderr == "", f"{line}: {done}")
        expect(text.count("-s\n") == mails, f"{line}: {text}")
        expect(mails == 0 or f": status {status}\nroot\n" in text, f"{line}: {text}")
        expect(status != 1 or "Disk 1 is lost" in text and "Disk P, row 1" in text and "then rebuild disk 1: cuzhaveli rebuild" in text, text)
    done = subprocess.run([FOLDER / "check-and-mail", "root"], capture_output=True, text=True)
    expect(done.returncode == 2 and done.stderr.startswith("usage: "), f"{done}")
    if not shutil.which("systemd-analyze"):
        setting.left_out.append("no systemd-analyze on this machine")
    else:
        copy = setting.new()
        copy.mkdir()
        for name in ("cuzhaveli-check.service", "cuzhaveli-check.timer"):
            (copy / name).write_text((FOLDER / name).read_text().replace("/usr/local/bin/", f"{FOLDER}/"))
        done = subprocess.run(["systemd-analyze", "--man=no", "verify", *copy.iterdir()], capture_output=True, text=True)
        expect(done.returncode == 0, f"systemd says {done.stderr}")
    return "4 weeks"


CHECKS = [timer]
