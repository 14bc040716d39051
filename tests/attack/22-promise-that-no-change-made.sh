#!/bin/bash
# A sealed promise of 2^64 - 1 on one disk would leave no number for a change: the disk is put aside, and changes go on.
. "$(dirname "$0")/common.sh"
store
film 300000 "$W/f"
must "$C" put -q "$W/s" a "$W/f" >/dev/null
command -v python3 >/dev/null || skip "no python3"
promise() { # NUMBER
    python3 - "$W/s/disk-02/disk" "$1" <<'PY'
import sys
M = (1 << 64) - 1
A, B, C, D, E = 11400714785074694791, 14029467366897019727, 1609587929392839161, 9650029242287828579, 2870177450012600261
left = lambda x, n: (x << n | x >> 64 - n) & M
turn = lambda seed, word: left(seed + word * B & M, 31) * A & M
def xxh64(data):
    at, end, h = 0, len(data), E
    if end >= 32:
        v = [A + B & M, B, 0, -A & M]
        while at + 32 <= end:
            for i in range(4):
                v[i] = turn(v[i], int.from_bytes(data[at:at + 8], "little")); at += 8
        h = sum(left(x, n) for x, n in zip(v, (1, 7, 12, 18))) & M
        for x in v: h = ((h ^ turn(0, x)) * A + D) & M
    h = h + end & M
    while at + 8 <= end: h = (left(h ^ turn(0, int.from_bytes(data[at:at + 8], "little")), 27) * A + D) & M; at += 8
    if at + 4 <= end: h = (left(h ^ int.from_bytes(data[at:at + 4], "little") * A & M, 23) * B + C) & M; at += 4
    while at < end: h = left(h ^ data[at] * E & M, 11) * A & M; at += 1
    h = (h ^ h >> 33) * B & M; h = (h ^ h >> 29) * C & M
    return h ^ h >> 32
path, number = sys.argv[1:]
lines = open(path, "rb").read().splitlines(True)
assert lines[-1] == b"sum %016x\n" % xxh64(b"".join(lines[:-1])), "the sum is another"
lines[-2] = b"promise %s\n" % number.encode()
body = b"".join(lines[:-1])
open(path, "wb").write(body + b"sum %016x\n" % xxh64(body))
PY
}
must promise 18446744073709551615
film 100000 "$W/g"
status 0 "$C" put -q --json "$W/s" b "$W/g"
grep -q '"lacks":\[2\]' "$W/out" || bad "wrong account: $(cat "$W/out")"
grep -q 'disk-02 has the promise or generation 18446744073709551615' "$W/err" || bad "the disk is not named: $(cat "$W/err")"
same a "$W/f"
same b "$W/g"
status 1 "$C" check -q "$W/s"
rm "$W"/s/disk-02/*
must "$C" rebuild -q --new 2 "$W/s" >/dev/null 2>&1
must "$C" check -q "$W/s" >/dev/null
must promise 1000000 # what changes that were cut off may leave
must "$C" put -q "$W/s" c "$W/g" >/dev/null
must "$C" check -q "$W/s" >/dev/null
grep -q '^generation 1000001$' "$W/s/disk-01/catalogue" || bad "the promise is not kept"
