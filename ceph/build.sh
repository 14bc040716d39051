#!/bin/bash
# build.sh TREE LIB OUT: builds the plugin OUT (libec_cuzhaveli.so) over the archive LIB (libcuzhaveli.a, or
# libcuzhaveli_fast.a) and Ceph's source TREE, whose version must be that of the ceph on PATH: a plugin is loaded only by
# the very version that it names.
set -eu
here=$(cd "$(dirname "$0")" && pwd) tree=$1 lib=$2 out=$3
gen=$(mktemp -d); trap 'rm -rf "$gen"' EXIT
: >"$gen/acconfig.h" # made by Ceph's cmake; nothing that is used here depends on it
hash=$(sed -n 1p "$tree/src/.git_version") version=$(sed -n 2p "$tree/src/.git_version")
runs=$(ceph --version | cut -d' ' -f3)
[ "$runs" = "$version" ] || { echo "build.sh: the source is Ceph $version, the ceph that runs is $runs" >&2; exit 1; }
sed -e "s/@CEPH_GIT_VER@/$hash/; s/@CEPH_GIT_NICE_VER@/$version/; /CEPH_RELEASE/d" "$tree/src/ceph_ver.h.in.cmake" \
  >"$gen/ceph_ver.h"
flags="-std=c++20 ${CXXFLAGS:--O2} -fPIC -DHAVE_CONFIG_H -D__CEPH__ -D_REENTRANT -D_THREAD_SAFE -D__STDC_FORMAT_MACROS"
g++ $flags -Wall -Wextra -Werror -shared -fvisibility=hidden -I"$gen" -isystem "$tree/src" -I"$here/../include" \
  "$here/ErasureCodeCuzhaveli.cc" "$lib" -Wl,--exclude-libs,ALL -o "$out"
