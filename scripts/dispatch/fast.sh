#!/bin/sh
# Puts two compilations of the proved modules, for x86-64 and for x86-64-v3, into
# libcuzhaveli_fast.a; pick.c chooses between them when a program is loaded.
# Usage: scripts/dispatch/fast.sh PLAIN V3 FOLDER [LEVEL]
#   PLAIN, V3: libcuzhaveli.a as archive.sh writes it, and as it writes it for x86-64-v3
#   FOLDER:    where the archive goes; its members stay in FOLDER/fast
#   LEVEL:     x86-64 or x86-64-v3: an archive for tests, which takes that compilation on any
#              processor
# The members of the two archives are taken as they are, but for the names of their calls:
# cuzhaveli_NAME becomes cuzhaveli_NAME_x86_64 or cuzhaveli_NAME_x86_64_v3.
set -eu
usage() { echo "usage: scripts/dispatch/fast.sh PLAIN V3 FOLDER [LEVEL], two archives and a folder" >&2; exit 2; }
die() { echo "fast.sh: $1" >&2; exit 1; }
{ [ $# -eq 3 ] || [ $# -eq 4 ]; } && [ -f "$1" ] && [ -f "$2" ] || usage
case ${4:-} in
'') level= ;;
x86-64) level=-DTAKES_V3=0 ;;
x86-64-v3) level=-DTAKES_V3=1 ;;
*) usage ;;
esac
mkdir -p "$3"
folder=$(cd "$3" && pwd)
plain=$(realpath "$1") v3=$(realpath "$2") here=$(cd "$(dirname "$0")" && pwd)
[ "$(ar t "$plain")" = "$(ar t "$v3")" ] || die "$1 and $2 have other members: build both from one source"
rm -rf "$folder/fast" "$folder/libcuzhaveli_fast.a"
mkdir "$folder/fast"
cd "$folder/fast"

calls() { nm -g --defined-only "$1" | sed 's/.* //' | LC_ALL=C sort; }

renamed() { # ARCHIVE NAME LEVEL
    ar p "$1" "$2.o" >"$2-$3.o"
    suffix=_$(echo "$3" | tr - _)
    calls "$2-$3.o" | sed "s/.*/& &$suffix/" >"$2-$3.names"
    objcopy -D --redefine-syms="$2-$3.names" "$2-$3.o"
    echo "$2-$3.o" >>members
}

# No flags of the caller: what instruments a program, or protects its stack, is not for resolvers.
picked() { # NAME
    mkdir "$1"
    sed 's/\(.*\) .*/PICK(\1)/' "$1-x86-64.names" >"$1/calls.h"
    # shellcheck disable=SC2086 # no level is no word
    ${CC:-cc} -std=c99 -Wall -Wextra -pedantic -O2 -fPIC -ffunction-sections -fno-stack-protector -U_FORTIFY_SOURCE \
        -fno-asynchronous-unwind-tables $level -I"$here/../../include" -I"$1" -c "$here/pick.c" -o "$1.o"
    echo "$1.o" >>members
}

for name in $(ar t "$plain" | sed 's/\.o$//'); do
    renamed "$plain" "$name" x86-64
    renamed "$v3" "$name" x86-64-v3
    picked "$name"
done
xargs ar rcsD ../libcuzhaveli_fast.a <members
