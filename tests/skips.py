"""How the Python tests count what this machine cannot try; tests/skips.sh does so for those in bash.

A check that cannot be tried returns a line that begins with LEFT_OUT, and a part of one is put on `left_out` of its setting.
Each is said in a line with SKIPPED, which .ci/run gathers, and counted in the last line.
"""

LEFT_OUT = "left out: "


def say(what, name, why):
    print(f"{what}: SKIPPED: {name}: {why}", flush=True)


def ending(what, passed, whys):
    """The last line: 'N passed, M skipped (why)'."""
    reasons = f" ({'; '.join(dict.fromkeys(whys))})" if whys else ""
    return f"{what}: {passed} passed, {len(whys)} skipped{reasons}"
