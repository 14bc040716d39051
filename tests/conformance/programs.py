"""Programs for the runner: right ones, wrong ones, and ones that offer nothing."""

import re
import subprocess
import xml.etree.ElementTree

from kit import TOP, expect

PLAIN = TOP / "conformance/examples/plain.c"
JERASURE = TOP / "conformance/examples/jerasure.c"
OURS = TOP / "tests/conformance/ours.c"


def last(text):
    return text.strip().splitlines()[-1] if text.strip() else "nothing"


def worked_example(setting):
    """The worked example passes."""
    status, text = setting.run(PLAIN)
    expect(status == 0 and last(text).startswith("conformance: passed: 0 of"), f"It ended with status {status}:\n{text}")
    skipped = text.count("skipped: not offered")
    expect(skipped == 14, f"It offers 8 of 22 functions, and {skipped} were said to be skipped:\n{text}")
    return f"the worked example {last(text)}"


def other_forms(setting):
    """The worked example passes as an archive and as a shared library."""
    subprocess.run(["cc", "-O2", "-fPIC", f"-I{TOP / 'conformance'}", "-c", PLAIN, "-o", setting.work / "plain-pic.o"], check=True)
    archive, shared = setting.work / "plain.a", setting.work / "plain.so"
    subprocess.run(["ar", "rcs", archive, setting.work / "plain-pic.o"], check=True)
    subprocess.run(["cc", "-shared", "-o", shared, setting.work / "plain-pic.o"], check=True)
    for path in (archive, shared):
        status, text = setting.run(path, "--width", "5")
        expect(status == 0 and "of 8 functions failed" in text, f"{path.name} ended with status {status}:\n{text}")
    return "the worked example passes as an archive and as a shared library"


def every_function(setting):
    """The library behind yours.h passes, with no function left untried."""
    status, text = setting.run(OURS, setting.archive)
    expect(status == 0 and "skipped" not in text and "of 22 functions failed" in text, f"It ended with status {status}:\n{text}")
    return f"the library in all 22 functions {last(text)}"


def nothing_offered(setting):
    """An archive that offers nothing ends with status 2, as no words do; --help says which there are."""
    empty = setting.work / "empty.a"
    empty.unlink(missing_ok=True)
    subprocess.run(["ar", "rcs", empty], check=True)
    status, text = setting.run(empty)
    expect(status == 2 and "nothing was tried: none of the functions" in last(text), f"It ended with status {status}:\n{text}")
    status, text = setting.run(PLAIN, "--only", "judge")
    expect(status == 2 and "nothing was tried" in last(text), f"A function that is not offered ended with status {status}:\n{text}")
    status, text = setting.run()
    expect(status == 2 and "usage: conformance/run IMPL" in text, f"No words ended with status {status}:\n{text}")
    status, text = setting.run("--help")
    expect(status == 0 and "CUZHAVELI_LIB, where" in text and "set -" not in text, f"--help ended with status {status}:\n{text}")
    return "an empty archive, a function that is not offered and no words end with status 2"


def own_judge(setting):
    """Code that brings a library of our names is judged by ours."""
    source = setting.work / "own_judge.c"
    source.write_text('#include "cuzhaveli.h"\n#include "yours.h"\n'
                      "int yours_encode(size_t p, size_t k, size_t s, uint8_t *stripe)\n"
                      "{\n    (void)p, (void)k, (void)s, (void)stripe;\n    return 0;\n}\n"
                      "struct cuzhaveli_answer cuzhaveli_encode_stripe(struct cuzhaveli_shape shape, uint8_t *stripe, size_t length)\n"
                      "{\n    struct cuzhaveli_answer answer = {0, 0};\n    (void)shape, (void)stripe, (void)length;\n    return answer;\n}\n")
    status, text = setting.run(source, "--width", "3")
    expect(status == 1 and "FAILED: yours_encode" in text, f"It ended with status {status}:\n{text}")
    return "code that has our names is judged by the library"


def jerasure(setting):
    """Jerasure passes where it is installed."""
    flags = ["-fsyntax-only", "-I/usr/include/jerasure", f"-I{TOP / 'conformance'}"]
    if subprocess.run(["cc", *flags, JERASURE], capture_output=True).returncode != 0:
        return "left out: Jerasure is not installed"
    status, text = setting.run(JERASURE, "--width", "7", IMPL_CFLAGS="-I/usr/include/jerasure", IMPL_LIBS="-lJerasure")
    expect(status == 0, f"It ended with status {status}:\n{text}")
    return f"Jerasure at width 7 {last(text)}"


def listed():
    """The wrong programs of mutants.txt."""
    blocks = (TOP / "tests/conformance/mutants.txt").read_text().split("\n\n")
    for block in blocks:
        if not block.startswith("#"):
            yield dict(re.split(r": ?", line, maxsplit=1) for line in block.strip().splitlines())


def variant(setting, one):
    """The file with the one line changed."""
    source = TOP / one["file"]
    old, new = (one[name].replace("\\n", "\n") for name in ("old", "new"))
    text = source.read_text()
    expect(text.count(old) == 1, f"the old line stands {text.count(old)} times in {one['file']}: {one['wrong']}")
    path = setting.work / f"wrong-{source.name}"
    path.write_text(text.replace(old, new))
    return path


def tried(setting, one, *options):
    path = variant(setting, one)
    archive = [setting.archive] if "ours" in path.name else []
    return setting.run(path, *archive, *(options or one["with"].split()))


def wrong_programs(setting):
    """Wrong programs fail, each told of rightly."""
    chosen, missed = [one for one in listed() if setting.word in one["wrong"]], ""
    for one in chosen:
        status, text = tried(setting, one)
        if status != 1 or not re.search(one["told"], text):
            missed += f"\n'{one['wrong']}' ended with status {status}, and is not told of as {one['told']}:\n{text[:1500]}"
    expect(chosen and not missed, missed or f"There is none named {setting.word}.")
    return f"{len(chosen)} wrong programs are told of rightly"


def again(setting):
    """The line that a failure prints repeats that trial alone."""
    one = next(listed())
    _, text = tried(setting, one)
    failure = text[: text.index("again:")]
    words = re.search(r"again: (.*)", text)[1].split()
    done = subprocess.run(words, capture_output=True, text=True)
    expect(done.returncode == 1 and done.stdout.startswith(failure) and "1 of 1 trials" in done.stdout,
           f"{words} ended with status {done.returncode}:\n{done.stdout}\nthe failure was:\n{failure}")
    return "the line of a failure repeats that trial alone"


def test_benches(setting):
    """TAP and JUnit tell the same failures."""
    one = next(listed())
    report = setting.work / "junit.xml"
    status, text = tried(setting, one, "--width", "23", "--tap", "--junit", report)
    results = re.findall(r"^(ok|not ok) (\d+) - (.*)$", text, re.M)
    numbers = [int(number) for _, number, _ in results]
    expect(status == 1 and text.startswith("TAP version 13\n") and f"\n1..{len(results)}\n" in text and numbers == list(range(1, len(results) + 1)),
           f"TAP with status {status}:\n{text[:2000]}")
    failed = {re.match(r"(\S+) (p=\d+)", name).groups() for result, _, name in results if result == "not ok"}
    suites = xml.etree.ElementTree.parse(report).getroot()
    told = {(case.get("classname"), case.get("name")) for case in suites.iter("testcase") if case.find("failure") is not None}
    counted = sum(int(suite.get("failures")) for suite in suites)
    expect(failed == told and len(failed) == counted and ("yours_encode", "p=23") in told, f"TAP has {failed}, JUnit {told}, counted {counted}")
    return f"TAP and JUnit tell the same {len(failed)} failures"


CHECKS = (worked_example, other_forms, every_function, nothing_offered, own_judge, jerasure, wrong_programs, again, test_benches)
