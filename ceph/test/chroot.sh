#!/bin/bash
# chroot.sh ROOT: makes a Debian 13 root with its Ceph, a compiler, and the headers of that very Ceph in ROOT/src/tree.
# As root. The mirror is the one that apt is configured with, or MIRROR=URL. What is made is complete exactly if ROOT/made
# stands. Mounts are made in namespaces of their own, so none stays.
set -eu
here=$(cd "$(dirname "$0")" && pwd) root=$1 suite=trixie
[ ! -f "$root/made" ] || exit 0
[ "$(id -u)" = 0 ] || { echo "chroot.sh: must be root, to make a chroot" >&2; exit 1; }
[ ! -e "$root" ] || { echo "chroot.sh: $root is there and is not whole; remove it first" >&2; exit 1; }
mirror=${MIRROR:-$(cat /etc/apt/sources.list /etc/apt/sources.list.d/*.sources /etc/apt/sources.list.d/*.list 2>/dev/null |
  sed -nE 's/^URIs: *([^ ]+).*/\1/p; s/^deb +(\[[^]]*\] +)?([^ ]+).*/\2/p' | grep -m1 '/debian/\?$' || true)}
mirror=${mirror:-http://deb.debian.org/debian}
mkdir -p "$root"; root=$(cd "$root" && pwd) log=$root.log
failed() { tail -n 5 "$log" >&2; echo "chroot.sh: $1 failed; $log has all" >&2; exit 1; }
step() { local what=$1; shift; "$@" >>"$log" 2>&1 || failed "$what"; echo "chroot: $what, ${SECONDS} s"; }
inside() { "$here/enter.sh" "$root" "$@"; }

bootstrap() {
  if ! command -v debootstrap >/dev/null; then # taken from its package, not installed
    mkdir -p "$root.debootstrap"
    (cd "$root.debootstrap" && apt-get -q download debootstrap && dpkg-deb -x debootstrap_*.deb .)
    export DEBOOTSTRAP_DIR=$root.debootstrap/usr/share/debootstrap PATH=$root.debootstrap/usr/sbin:$PATH
  fi
  debootstrap --variant=minbase "$suite" "$root" "$mirror"
}
sources() {
  cp /etc/resolv.conf /etc/hosts "$root/etc/"
  printf 'deb %s %s main\ndeb-src %s %s main\n' "$mirror" $suite "$mirror" $suite >"$root/etc/apt/sources.list"
  echo force-unsafe-io >"$root/etc/dpkg/dpkg.cfg.d/unsafe" # a power cut may cost the chroot, and saves minutes
  printf '#!/bin/sh\nexit 101\n' >"$root/usr/sbin/policy-rc.d"; chmod 755 "$root/usr/sbin/policy-rc.d" # starts no daemon
  inside apt-get -q update
}
install() { inside apt-get -qy --no-install-recommends install "$@" && inside apt-get clean; }
# apt's signed index has the sums of the two archives; nothing else of the source package is needed.
fetch_source() {
  version=$(inside dpkg-query -W -f '${Version}' ceph-osd)
  mkdir -p "$root/src/tree"
  inside apt-get source -q --print-uris "ceph=$version" |
    sed -nE "s/^'([^']+)' ([^ ]+tar[^ ]+) [0-9]+ SHA256:([0-9a-f]+)$/\1 \2 \3/p" >"$root/src/list"
  [ "$(wc -l <"$root/src/list")" = 2 ] || { echo "no source of ceph $version in $mirror"; return 1; }
  while read -r url file sum; do
    curl -sSfo "$root/src/$file" "$url" && echo "$sum  $root/src/$file" | sha256sum -c --quiet || return 1
  done <"$root/src/list"
}
headers() {
  cd "$root/src"
  tar -xf ceph_*.orig.tar.* -C tree --strip-components=1 --wildcards '*/src/erasure-code/*' '*/src/include/*' \
    '*/src/common/*.h' '*/src/crush/*.h' '*/src/osd/*.h' '*/src/osd/EC*' '*/src/ceph_ver.h.in.cmake' \
    '*/src/.git_version' 'ceph*/COPYING*'
  tar -xf ceph_*.debian.tar.*
  for one in $(grep -v '^#' debian/patches/series); do # Debian's patches, for the files that are here
    patch -d tree -p1 -f -s -r - <"debian/patches/$one" || true
  done
  find tree -name '*.orig' -delete; rm -f ceph_*.tar.*
}
step debootstrap bootstrap
step 'package lists' sources
step ceph install ceph-osd ceph-mon ceph-mgr ceph-common
step compiler install g++ libboost-dev patch xz-utils
step 'source of ceph' fetch_source
step headers headers
rm -rf "$root.debootstrap"
touch "$root/made"
