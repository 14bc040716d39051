#!/bin/bash
# Two folders of links to the same disks, and a put by each at the same time: the second waits, since each disk's own folder is
# locked, and both packages are there. A delay of 2 s before the first catalogue makes the race certain.
. "$(dirname "$0")/common.sh"
mkdir "$W/one" "$W/two"
$C create -p 3 --same-device "$W/one" >/dev/null || exit 1
for d in 0 1 2 3 4; do ln -s ../one/disk-0$d "$W/two/disk-0$d"; done
film 200000 "$W/f"
FAULT_CALL=rename FAULT_PATH=catalogue.new FAULT_NTH=1 FAULT_MS=2000 LD_PRELOAD=$SHIM $C put -q "$W/one" first "$W/f" >"$W/a1" 2>"$W/e1" &
sleep 0.7
$C put -q "$W/two" second "$W/f" >"$W/a2" 2>"$W/e2" || bad "the second put: $(cat "$W/e2")"
wait $! || bad "the first put: $(cat "$W/e1")"
grep -q 'this one waits' "$W/e2" || bad "the second did not wait: $(cat "$W/e2")"
for p in first second; do
    $C get -q "$W/one" $p f - 2>"$W/err" | cmp -s - "$W/f" || bad "acknowledged and gone: $p: $(tail -n 1 "$W/err")"
done
$C check -q "$W/two" >/dev/null || bad 'the store is not whole'
# By places that differ: in order of the places the two would wait for each other.
mkdir "$W/turned"
for d in 0 1 2 3 4; do ln -s ../one/disk-0$((4 - d)) "$W/turned/disk-0$d"; done
for turn in 1 2 3 4 5; do
    timeout 60 $C put -q "$W/one" "a$turn" "$W/f" >/dev/null 2>&1 &
    timeout 60 $C put -q "$W/turned" "b$turn" "$W/f" >/dev/null 2>&1 # refused: all disks but one are in other places
    wait $! || bad "put a$turn"
done
[ "$($C list "$W/one" | wc -l)" = 7 ] || bad 'packages are missing'
# A program that locks no disks has promised another change meanwhile: the put is refused before its first catalogue.
cp -a "$W/one" "$W/before"
$C put -q "$W/one" other "$W/f" >/dev/null || bad 'put other'
cp -a "$W/one" "$W/later"
for d in 0 1 2 3 4; do rm "$W/one/disk-0$d"/*; cp -a "$W/before/disk-0$d"/* "$W/one/disk-0$d"; done
$C put -q "$W/one" once "$W/f" >/dev/null || bad 'put once' # its promise is that of `other`, the next one's is not
for d in 0 1 2 3 4; do cp "$W/one/disk-0$d/catalogue" "$W/c$d"; done
FAULT_CALL=create FAULT_PATH=.img.part FAULT_NTH=5 FAULT_MS=1500 LD_PRELOAD=$SHIM $C put -q "$W/one" mine "$W/f" >"$W/a1" 2>"$W/e1" &
sleep 0.7
for d in 0 1 2 3 4; do cp "$W/later/disk-0$d/disk" "$W/one/disk-0$d/disk"; done
wait $!; status=$?
[ $status = 4 ] && grep -q 'another program has changed disk 0' "$W/e1" || bad "put beside another's promise: $status, $(cat "$W/e1")"
for d in 0 1 2 3 4; do cmp -s "$W/one/disk-0$d/catalogue" "$W/c$d" || bad 'a catalogue was written'; done
exit 0
