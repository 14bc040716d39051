#!/bin/bash
# Pieces of disks 0 and 3 are bad, in two files or in one, and disk 0 cannot be written: disk 3 is repaired. The same of a bare set.
. "$(dirname "$0")/common.sh"
store
film 1000000 "$W/f"
for p in a b; do must "$C" put -q "$W/s" $p "$W/f" >/dev/null; done
spoil "$W/s/disk-00/$(set_of a).img"
spoil "$W/s/disk-03/$(set_of a).img" 60000
spoil "$W/s/disk-03/$(set_of b).img"
status 4 faulty FAULT_CALL=pwrite FAULT_PATH=disk-00/ FAULT_ERR=5 "$C" repair -q --json "$W/s"
grep -q '"pieces":2,' "$W/out" || bad "wrong account: $(cat "$W/out")"
status 1 "$C" check -q "$W/s"
grep -q 'Disk P' "$W/out" && bad "disk 3 was not repaired, since disk 0 cannot be written"
must "$C" repair -q "$W/s" >/dev/null
must "$C" check -q "$W/s" >/dev/null
must "$C" encode -q -p 3 "$W/f" "$W/d" >/dev/null
spoil "$W/d/disk-00.img"
spoil "$W/d/disk-00.img" 10 # its label too
spoil "$W/d/disk-03.img" 60000
status 4 faulty FAULT_CALL=pwrite FAULT_PATH=disk-00.img FAULT_ERR=5 "$C" repair -q --json "$W/d"
grep -q '"pieces":1,.*"labels":0,' "$W/out" || bad "wrong account: $(cat "$W/out")"
must "$C" repair -q "$W/d" >/dev/null
must "$C" check -q "$W/d" >/dev/null
