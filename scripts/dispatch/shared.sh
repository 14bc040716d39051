#!/bin/sh
# Links libcuzhaveli.so.1, in which the calls of the header alone are visible, and makes
# libcuzhaveli.so a link to it.
# Usage: scripts/dispatch/shared.sh ARCHIVE FOLDER
#   ARCHIVE: libcuzhaveli_fast.a, or libcuzhaveli.a for a library of one compilation
# No start files: the library has nothing to set up, and no data of its own.
set -eu
[ $# -eq 2 ] && [ -f "$1" ] || { echo "usage: scripts/dispatch/shared.sh ARCHIVE FOLDER, an archive and a folder" >&2; exit 2; }
mkdir -p "$2"
header=$(dirname "$0")/../../include/cuzhaveli.h
calls=$(sed -n '/^static/d; s/^[a-z].* \(cuzhaveli_[a-z_]*\)(.*/\1;/p' "$header")
printf 'CUZHAVELI_1 {\nglobal:\n%s\nlocal:\n*;\n};\n' "$calls" >"$2/libcuzhaveli.map"
${CC:-cc} -shared -nostartfiles -Wl,-soname,libcuzhaveli.so.1 -Wl,--version-script="$2/libcuzhaveli.map" -Wl,-z,defs \
    -Wl,-z,noexecstack -Wl,-z,relro -Wl,-z,now -Wl,--build-id=sha1 -Wl,--whole-archive "$1" -Wl,--no-whole-archive \
    -o "$2/libcuzhaveli.so.1"
ln -sf libcuzhaveli.so.1 "$2/libcuzhaveli.so"
