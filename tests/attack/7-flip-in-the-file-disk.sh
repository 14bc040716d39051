#!/bin/bash
# A flip in the file `disk`: repair and rebuild write it anew, since the images beside it say which disk it is. A folder whose images are of
# another disk, or that has none, stays as it is.
. "$(dirname "$0")/common.sh"
store
film 1000000 "$W/f"
for p in a b; do must "$C" put -q "$W/s" $p "$W/f" >/dev/null; done
flip() { printf X | dd of="$W/s/disk-02/disk" bs=1 seek=3 conv=notrunc status=none; }
right() { # HOW
    must "$C" check -q "$W/s" >/dev/null
    for p in a b; do same $p "$W/f"; done
    must "$C" put -q "$W/s" b "$W/f" >/dev/null
    must "$C" check -q "$W/s" >/dev/null
}
for command in repair rebuild "rebuild --new 2"; do
    flip
    status 1 "$C" check -q "$W/s"
    # shellcheck disable=SC2086 # words
    status 0 "$C" $command -q "$W/s"
    grep -q 'disk-02: its file .disk. was damaged, and is written anew' "$W/err" || bad "$command: $(cat "$W/err")"
    right "$command"
done
flip # and it misses changes, as a disk that was away
must "$C" put -q "$W/s" c "$W/f" >/dev/null 2>&1
must "$C" remove "$W/s" a >/dev/null 2>&1
must "$C" rebuild -q "$W/s" >/dev/null 2>&1
must "$C" check -q "$W/s" >/dev/null
[ "$(find "$W/s/disk-02" -name '*.img' | wc -l)" = 2 ] || bad "other images than those of the catalogue"
must "$C" put -q "$W/s" a "$W/f" >/dev/null
flip
stays() { # HOW
    "$C" repair -q "$W/s" >/dev/null 2>&1 && bad "$1: repair ends with 0"
    [ "$(head -c 4 "$W/s/disk-02/disk" | tail -c 1)" = X ] || bad "$1: the file is written"
    for p in a b; do same $p "$W/f"; done
}
cp -a "$W/s/disk-02" "$W/kept"
rm "$W"/s/disk-02/*.img
cp "$W"/s/disk-03/*.img "$W/s/disk-02"
stays "images of another disk"
rm "$W"/s/disk-02/*.img
stays "no images"
cp "$W"/kept/*.img "$W/s/disk-02"
printf 'cuzhaveli catalogue 2\n' >"$W/s/disk-02/catalogue"
must "$C" repair -q "$W/s" >/dev/null 2>&1 # a catalogue that is not whole is no reason
right "without a catalogue"
