#!/bin/bash
# rebuild --from: an image of the old drive begins with its label and is cut short. Its bytes come from the other disks.
. "$(dirname "$0")/common.sh"
store
film 900000 "$W/f"
for p in a b; do must "$C" put -q "$W/s" $p "$W/f" >/dev/null; done
mv "$W/s/disk-02" "$W/old"
mkdir "$W/s/disk-02"
set -- "$W"/old/*.img
truncate -s 50000 "$1"
must "$C" rebuild -q --new 2 --from "$W/old" "$W/s" >/dev/null
[ "$(find "$W/s/disk-02" -name '*.img' | wc -l)" = 2 ] || bad "status 0, and not all images are there"
must "$C" check -q "$W/s" >/dev/null
for p in a b; do same $p "$W/f"; done
