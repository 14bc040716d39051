#!/bin/bash
# The catalogue of disk 4 is damaged, and disk 4 is read-only: repair does the rest, says that it could not, and counts no catalogue.
. "$(dirname "$0")/common.sh"
ends() { umount "$W/m" 2>/dev/null; }
mkdir "$W/s" "$W/m"
mount -t tmpfs -o size=20m tmpfs "$W/m" 2>/dev/null || skip "no right to mount"
ln -s "$W/m" "$W/s/disk-04"
must "$C" create -p 3 --same-device "$W/s" >/dev/null
film 300000 "$W/f"
must "$C" put -q "$W/s" a "$W/f" >/dev/null
spoil "$W/m/catalogue" 40
spoil "$W/s/disk-00/$(set_of a).img"
mount -o remount,ro "$W/m"
status 1 "$C" repair -q --json "$W/s"
grep -q '"pieces":1,' "$W/out" || bad "the bad piece of disk 0 was not repaired"
grep -q '"lost":\[4\].*"catalogues":0' "$W/out" || bad "wrong account: $(cat "$W/out")"
mount -o remount,rw "$W/m"
must "$C" repair -q --json "$W/s" >"$W/out"
grep -q '"lost":\[\].*"catalogues":1' "$W/out" || bad "wrong account: $(cat "$W/out")"
must "$C" check -q "$W/s" >/dev/null
