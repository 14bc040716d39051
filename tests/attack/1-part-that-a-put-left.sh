#!/bin/bash
# A disk fails one write of a put, which goes on without it and leaves no part there. A rebuild refuses what else has that name, and
# neither takes it away nor writes to it; film can be read meanwhile, and once it is taken away by hand the disk is rebuilt.
. "$(dirname "$0")/common.sh"
store
film 3000000 "$W/f"
must faulty FAULT_CALL=pwrite FAULT_PATH=disk-03/ FAULT_NTH=2 FAULT_ERR=5 "$C" put -q "$W/s" a "$W/f" >/dev/null 2>&1
[ -z "$(find "$W/s/disk-03" -name '*.part')" ] || bad "the put leaves its part on the disk that it left out"
must "$C" rebuild -q "$W/s" >/dev/null 2>&1
must "$C" check -q "$W/s" >/dev/null
image=$W/s/disk-03/$(set_of a).img
bytes=$(stat -c %s "$image")
refused() { # HOW
    status 5 "$C" rebuild -q "$W/s"
    [ -e "$image.part" ] && [ ! -e "$image" ] || bad "$1: the part is taken away"
    same a "$W/f"
}
again() {
    must rm "$image.part"
    must "$C" rebuild -q "$W/s" >/dev/null 2>&1
    must "$C" check -q "$W/s" >/dev/null
}
mv "$image" "$image.part"
dd if=/dev/zero of="$image.part" bs=4096 count=1 conv=notrunc status=none # as a power cut leaves the part of a put
cp "$image.part" "$W/kept"
refused "a part without a mark"
cmp -s "$image.part" "$W/kept" || bad "a part without a mark is written to"
again
rm "$image"
head -c "$bytes" /dev/urandom >"$image.part"
refused "a part of other bytes"
again
rm "$image"
echo untouched >"$W/other"
ln -s "$W/other" "$image.part"
refused "a link"
[ "$(cat "$W/other")" = untouched ] || bad "what the link leads to was written"
again
rm "$image"
mkfifo "$image.part"
refused "a pipe"
again
