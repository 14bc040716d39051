"""What the checks of the conformance kit share."""

import os
import pathlib
import subprocess
import sys
import time

sys.path.append(str(pathlib.Path(__file__).resolve().parents[1]))

import skips  # noqa: E402

TOP = pathlib.Path(__file__).resolve().parents[2]


class Wrong(Exception):
    """Something is not as it should be."""


class Setting:
    """The folder of the archive, and a folder in it for what is built."""

    def __init__(self, folder):
        self.archive = folder / "libcuzhaveli.a"
        self.second = folder / "reference"
        self.work = folder / "conformance-kit"
        self.work.mkdir(exist_ok=True)
        self.word = ""
        self.passed, self.whys = 0, []  # checks that held, and why others were not tried

    def run(self, *words, **environment):
        """Builds and runs the runner with an implementation: its status and what it prints."""
        fixed = {"CUZHAVELI_LIB": str(self.archive), "CONFORMANCE_DIR": str(self.work)}
        done = subprocess.run([TOP / "conformance/run", *words], env={**os.environ, **fixed, **environment}, capture_output=True, text=True)
        return done.returncode, done.stdout + done.stderr

    def passes(self, check):
        """Whether a check holds, or cannot be tried here."""
        begun = time.monotonic()
        try:
            told = check(self)
            if told.startswith(skips.LEFT_OUT):
                self.whys.append(told.removeprefix(skips.LEFT_OUT))
                skips.say("conformance", check.__name__, self.whys[-1])
            else:
                self.passed += 1
                print(f"conformance: {told} ({time.monotonic() - begun:.1f} s)", flush=True)
            return True
        except Wrong as what:
            print(f"conformance: FAILED: {check.__doc__} {what}", flush=True)
            return False


def expect(holds, what):
    if not holds:
        raise Wrong(what)
