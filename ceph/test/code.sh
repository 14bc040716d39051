#!/bin/bash
# code.sh SOURCE LIB [drive]: in the chroot. Builds the plugin and the driver and runs that; then, without the third word,
# installs the plugin for this Ceph and compares its chunks with those of jerasure's liberation, and has Ceph's own tool
# decode losses of one and two.
set -eu
source=$1 lib=$2 tree=/src/tree plugins=/usr/lib/x86_64-linux-gnu/ceph/erasure-code
work=$(mktemp -d); trap 'rm -rf "$work"' EXIT
drive=$work/drive; [ $# = 2 ] || drive=$source/drive # which mutants keep
"$source/ceph/build.sh" $tree "$lib" "$work/libec_cuzhaveli.so"
: >"$work/acconfig.h"
[ -x "$drive" ] || g++ -std=c++20 -O2 -DHAVE_CONFIG_H -D__CEPH__ -D_REENTRANT -I"$work" -isystem $tree/src "$source/ceph/test/drive.cc" \
  $tree/src/osd/ECUtil.cc -rdynamic -L"${plugins%/*}" -l:libceph-common.so.2 -Wl,-rpath,"${plugins%/*}" -ldl -o "$drive"
"$drive" "$work/libec_cuzhaveli.so"
[ $# = 2 ] || exit 0
install -m 644 "$work/libec_cuzhaveli.so" "$plugins/"

cd "$work"
printf '[global]\nlog_to_stderr = false\n' >c.conf; export CEPH_CONF=$work/c.conf
tool() { ceph-erasure-code-tool "$@" 2>>err || { tail -n 3 err; echo "failed: ceph-erasure-code-tool $*"; exit 1; }; }

# compare K W CELL: jerasure's chunk holds several stripes, ours one: the film is put in our order first.
compare() {
  local k=$1 w=$2 s=$3 unit=$(($2 * $3)) all n=0
  all=$(seq -s, 0 $((k + 1)))
  theirs=plugin=jerasure,technique=liberation,k=$k,m=2,w=$w,packetsize=$s ours=plugin=cuzhaveli,k=$k,w=$w,cell=$s
  rm -rf a b; mkdir a b
  junit=$(tool calc-chunk-size $theirs $((unit * k)))
  head -c $((junit * k * 2)) /dev/urandom >b/f
  tool encode $theirs "$junit" "$all" b/f
  python3 - "$k" "$unit" <<'P'
import sys
k, unit = int(sys.argv[1]), int(sys.argv[2])
chunks = [open(f'b/f.{d}', 'rb').read() for d in range(k)]
open('a/f', 'wb').write(b''.join(chunks[d][t:t + unit] for t in range(0, len(chunks[0]), unit) for d in range(k)))
P
  cp a/f film
  tool encode $ours $unit "$all" a/f
  for d in $(seq 0 $((k + 1))); do cmp a/f.$d b/f.$d; done
  for x in $(seq 0 $((k + 1))); do for y in $(seq $x $((k + 1))); do
    [ $k -le 7 ] || [ $(((x * 5 + y) % 7)) = 0 ] || continue # a seventh of the pairs of wide ones; the driver has all
    rm -rf c; mkdir c; cp a/f.* c/; rm -f c/f.$x c/f.$y
    tool decode $ours $unit "$(cd c && ls f.* | sed 's/f\.//' | sort -n | paste -sd,)" c/f
    cmp c/f film; n=$((n + 1))
  done; done
  echo "k $k, w $w, cell $s: all $((k + 2)) chunks are those of jerasure's liberation; $n losses decoded"
}
compare 2 3 4096; compare 5 5 4096; compare 5 7 64; compare 7 7 4096; compare 11 11 1024; compare 17 17 64
