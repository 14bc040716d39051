#!/bin/bash
# Disks drop off their mount points (umount -l, or a hot-plug script) during a removal: nothing is written to the bare mount
# points, and they do not count as having the change. With one gone the removal is done; with three it is not acknowledged.
. "$(dirname "$0")/common.sh"
mounted() { # SIZE FOLDER
    mount -t tmpfs -o "size=$1" tmpfs "$2" 2>/dev/null || skip 'no right to mount file systems'
}
ends() { for d in 0 1 2 3 4; do umount -l "$W/s/disk-0$d" 2>/dev/null; umount -l "$W/keep$d" 2>/dev/null; done; }
mkdir "$W/s"
for d in 0 1 2 3 4; do
    mkdir "$W/s/disk-0$d" "$W/keep$d"
    mounted 20m "$W/keep$d"
    mount --bind "$W/keep$d" "$W/s/disk-0$d" || exit 1
done
$C create -p 3 "$W/s" >/dev/null || exit 1
film 300000 "$W/f"
# The removal waits 2 s before its first catalogue; meanwhile disks drop off: dropped CALL DISK..
dropped() {
    local call=$1; shift
    $C put -q "$W/s" a "$W/f" >/dev/null || bad 'put'
    FAULT_CALL=$call FAULT_PATH=catalogue.new FAULT_NTH=1 FAULT_MS=2000 LD_PRELOAD=$SHIM $C remove --json "$W/s" a >"$W/told" 2>"$W/err" &
    sleep 0.8
    for d in "$@"; do umount -l "$W/s/disk-0$d"; done
    wait $!; status=$?
    for d in "$@"; do
        [ -z "$(ls "$W/s/disk-0$d")" ] || bad "written to the bare mount point: $(ls "$W/s/disk-0$d")"
        mount --bind "$W/keep$d" "$W/s/disk-0$d"
    done
}
for call in create rename; do
    dropped $call 2 3 4
    [ $status = 7 ] && [ ! -s "$W/told" ] || bad "with two of five disks: status $status, $(cat "$W/told")"
    $C remove "$W/s" a >/dev/null 2>"$W/err"; status=$?
    [ $status = 0 ] || [ $status = 1 ] || bad "the same command once more: status $status, $(cat "$W/err")"
    $C list "$W/s" a >/dev/null 2>&1 && bad 'the package is there again'
    dropped $call 4
    [ $status = 0 ] || bad "with one disk gone: status $status, $(cat "$W/err")"
    grep -q '"lacks":\[4\]' "$W/told" || bad "a disk that dropped off counts: $(cat "$W/told")"
    $C list "$W/s" a >/dev/null 2>&1 && bad 'removed, acknowledged and there again'
    $C rebuild -q "$W/s" >/dev/null 2>"$W/err" || bad "rebuild: $(cat "$W/err")"
    $C check -q "$W/s" >/dev/null || bad 'the store is not whole'
done
exit 0
