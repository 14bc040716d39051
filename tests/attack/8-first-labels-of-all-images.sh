#!/bin/bash
# The first label of every image is bad, as if a partition table had been written over every drive: the set is found by its last labels.
. "$(dirname "$0")/common.sh"
film 1000000 "$W/f"
must "$C" encode -q -p 3 "$W/f" "$W/d" >/dev/null
film 5000 "$W/g"
must "$C" encode -q -p 3 "$W/g" "$W/e" >/dev/null # another set, of another length
try() { # HOW
    rm -rf "$W/film"
    must "$C" decode -q "$W/d" "$W/film" >/dev/null
    cmp -s "$W/film" "$W/f" || bad "$1: wrong film"
    status 1 "$C" check -q "$W/d"
    must "$C" repair -q "$W/d" >/dev/null
    must "$C" check -q "$W/d" >/dev/null
}
for i in "$W"/d/*.img; do printf X | dd of="$i" bs=1 seek=3 conv=notrunc status=none; done
try "one byte"
for i in "$W"/d/*.img; do head -c 4096 /dev/zero | dd of="$i" conv=notrunc status=none; done
try "zeros"
for i in "$W"/d/*.img; do head -c 512 /dev/urandom | dd of="$i" conv=notrunc status=none; done
rm "$W/d/disk-01.img" "$W/d/disk-03.img"
must "$C" rebuild -q "$W/d" >/dev/null
try "with two disks lost"
for i in "$W"/d/*.img; do head -c 512 /dev/urandom | dd of="$i" conv=notrunc status=none; done
cp "$W/e/disk-00.img" "$W/d/disk-00.img" # one of another set, with its first label
status 0 "$C" decode -q "$W/d" "$W/film2"
cmp -s "$W/film2" "$W/f" || bad "wrong film beside an image of another set"
