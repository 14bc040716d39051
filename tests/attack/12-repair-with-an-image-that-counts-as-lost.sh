#!/bin/bash
# Both labels of an image of a store are bad, or it is a folder: repair repairs the others, and ends with 1 since this one counts as lost.
. "$(dirname "$0")/common.sh"
store
film 300000 "$W/f"
must "$C" put -q "$W/s" a "$W/f" >/dev/null
image=$W/s/disk-03/$(set_of a).img
for at in 0 $(($(stat -c %s "$image") - 4096)); do
    head -c 512 /dev/urandom | dd of="$image" bs=1 seek="$at" conv=notrunc status=none
done
spoil "$W/s/disk-00/$(set_of a).img"
status 1 "$C" repair -q --json "$W/s"
grep -q '"pieces":1,.*"lost":\[3\]' "$W/out" || bad "wrong account: $(cat "$W/out")"
status 1 "$C" check -q "$W/s"
must "$C" rebuild -q "$W/s" >/dev/null
must "$C" check -q "$W/s" >/dev/null
rm "$image"
mkdir "$image"
status 1 "$C" repair -q --json "$W/s"
grep -q '"lost":\[3\]' "$W/out" || bad "wrong account: $(cat "$W/out")"
