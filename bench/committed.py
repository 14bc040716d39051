"""The commit that results name: benchmarks measure a committed tree alone."""

import subprocess
import sys


def commit(top):
    def git(*words):
        return subprocess.run(["git", "-C", top, *words], capture_output=True, text=True, check=True).stdout.strip()

    if git("status", "--porcelain"):
        sys.exit("bench: the tree has changes that are not committed, so no commit would name what is measured; commit them")
    return git("rev-parse", "--short", "HEAD")
