#!/bin/bash
# Two disks lack their images, and one of them cannot be written, at once or after some of it, or is full: the other is rebuilt.
. "$(dirname "$0")/common.sh"
store
film 1000000 "$W/f"
for p in a b; do must "$C" put -q "$W/s" $p "$W/f" >/dev/null; done
try() { # STATUS FAULT..
    local want=$1
    shift
    rm -f "$W"/s/disk-0[03]/*.img*
    status "$want" faulty FAULT_PATH=disk-00/ "$@" "$C" rebuild -q --json "$W/s"
    grep -q '"lacks":\[0\]' "$W/out" || bad "wrong account: $(cat "$W/out")"
    [ "$(find "$W/s/disk-03" -name '*.img' | wc -l)" = 2 ] || bad "disk 3 is not rebuilt, since disk 0 cannot be written: $*"
    status 1 "$C" check -q "$W/s"
    must "$C" rebuild -q "$W/s" >/dev/null
    must "$C" check -q "$W/s" >/dev/null
}
try 4 FAULT_CALL=pwrite FAULT_ERR=5
try 4 FAULT_CALL=pwrite FAULT_NTH=3 FAULT_ALL=1 FAULT_ERR=5
try 1 FAULT_CALL=fallocate FAULT_ERR=28
for p in a b; do same $p "$W/f"; done
