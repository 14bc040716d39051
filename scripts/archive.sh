#!/bin/sh
# Compiles the archives that users link, libcuzhaveli.a and libcuzhaveli_plans.a, from crates that are proved.
# Usage: scripts/archive.sh FOLDER [ARCH]
#   FOLDER: where they go; the members stay in FOLDER/members
#   ARCH:   the processors that it compiles for: x86-64, all of them, as it does without ARCH; x86-64-v3, those with AVX2, for
#           scripts/dispatch/fast.sh. With ARCH no library is proved: run it without ARCH first
# The exports are the crates cuzhaveli_* of crates.txt. Each becomes a member of libcuzhaveli.a, so that a program takes only
# the members that it calls. libcuzhaveli_plans.a is the member on plans alone.
# `rt lib` proves each library below the exports, where it changed, and leaves it in its crate's out/rlib. AFTER_CI=1 says that
# `rt ci` has just proved all: what it left there is then taken, if no other command of rt, which would have put a stamp beside
# it, has put back its own.
# `rattle check` proves an export over these for the processors of ARCH, and keeps what it read and proved in its out/checked;
# `rattle build --crate-checked` compiles that. It compares files, libraries and code with what was checked, and refuses where
# anything differs; for ARCH that is also asked of what was checked without it, so that both compilations are of one source.
# Lines that begin with archive.sh: are for scripts/progress.sh.
set -eu
die() { echo "archive.sh: $1" >&2; exit 1; }
[ $# -eq 1 ] || [ $# -eq 2 ] || { echo "usage: scripts/archive.sh FOLDER [ARCH]" >&2; exit 2; }
arch=${2:-x86-64}
case $arch in
x86-64 | x86-64-v3) ;;
*) echo "archive.sh: ARCH is $arch, and x86-64 and x86-64-v3 are known" >&2; exit 2 ;;
esac
command -v rt >/dev/null || die "the library is built by the Rattle kit, whose command rt is not on PATH"
mkdir -p "$1"
folder=$(cd "$1" && pwd)
cd "$(dirname "$0")/.."
kit=$(dirname "$(rt doc)")
[ -x "$kit/bin/rattle" ] && [ -x "$kit/toolchain/bin/clang" ] || die "the kit at $kit is not laid out as expected"
members=$folder/members
crates=$PWD/crates

uses() { sed -n "s/^$1\( staticlib\)\{0,1\}://p" crates.txt; } # NAME

# What the given crates use, at whatever remove; in crates.txt each crate is below what it uses.
below() { # NAME..
    awk -F '[ :]' -v wanted="$*" '/^[a-z_0-9]+( staticlib)?:/ { names[++n] = $1; all = $0; sub(/.*:/, "", all); uses[$1] = all }
        END {
            split(wanted, first, " "); for (j in first) used[first[j]] = 1
            for (i = n; i > 0; i--) if (names[i] in used) { split(uses[names[i]], words, " "); for (j in words) used[words[j]] = 2 }
            for (i = 1; i <= n; i++) if (used[names[i]] == 2) print names[i]
        }' crates.txt
}

as_ci_left_them() { # NAME..
    for name in "$@"; do [ -f "crates/$name/out/rlib/$name.rlib/format" ] && [ ! -e "crates/$name/out/rlib/stamp" ] || return 1; done
}

libraries() { # NAME..
    if [ -n "${AFTER_CI:-}" ] && as_ci_left_them "$@"; then echo "the libraries are those that rt ci left"; return; fi
    count=0
    for name in "$@"; do
        echo "archive.sh: proving $name, after $count of $#"
        (cd "crates/$name" && rt lib) || die "$name is not proved"
        count=$((count + 1))
    done
}

rattle() { # check|build NAME WORD.., in the folder of that crate
    way=$1 name=$2
    shift 2
    for crate in $(uses "$name"); do set -- "$@" --extern "$crate=$crates/$crate/out/rlib/$crate.rlib"; done
    for crate in $(below "$name"); do set -- "$@" -L "dependency=$crates/$crate/out/rlib"; done
    (cd "crates/$name" && "$kit/bin/rattle" "$way" --crate-name "$name" src/lib.rt --crate-type staticlib --extern "std=$kit/rlibs/std.rlib" \
        -L "dependency=$kit/rlibs" --antt-project "$kit/rattle/logic/antt-project.json" --links "$name=" "$@")
}

# What declares C functions of its own is proved of their contracts alone, so it is refused.
proved() { # NAME
    rm -rf "crates/$1/out/checked/$arch"
    mkdir -p "crates/$1/out/checked"
    rattle check "$1" --logic-built "$kit/logic_built" "--cpu=$arch" -o "out/checked/$arch" >"$members/$1.say" 2>&1 || { cat "$members/$1.say"; return 1; }
    cat "$members/$1.say"
    ! grep -q '^logic=proved .*foreign=' "$members/$1.say" || { rm -rf "crates/$1/out/checked/$arch"; echo "$1 declares C functions of its own"; return 1; }
}

compiled() { # NAME
    rattle build "$1" --crate-checked "out/checked/$arch" "--cpu=$arch" --toolchain "$kit/toolchain" --backend llvm -o "$members/$1.a"
}

# Is an export the one that was checked for all processors?
is_plain() { # NAME
    rattle check "$1" --crate-checked out/checked/x86-64 --cpu=x86-64 >"$members/$1.say" 2>&1 || { cat "$members/$1.say"; return 1; }
}

made() { # NAME
    [ "$arch" = x86-64 ] || is_plain "$1" || return 1
    if [ -d "crates/$1/out/checked/$arch" ] && compiled "$1" >"$members/$1.say" 2>&1; then cat "$members/$1.say"; return; fi
    proved "$1" && compiled "$1"
}

# No member writes what another reads: as many at a time as there are processors.
all() { # NAME..
    running=
    for name in "$@"; do
        echo "archive.sh: compiling $name"
        (made "$name") >"$members/$name.log" 2>&1 &
        running="$running $!:$name"
        # shellcheck disable=SC2086 # the numbers are words
        set -- $running
        if [ $# -ge "${RT_JOBS:-$(nproc)}" ]; then ended "$1" && shift && running=$*; fi
    done
    for one in $running; do ended "$one"; done
}

ended() { # NUMBER:NAME
    wait "${1%%:*}" || { cat "$members/${1#*:}.log"; die "${1#*:} was not compiled for $arch"; }
    cat "$members/${1#*:}.log"
}

rm -rf "$members" "$folder/libcuzhaveli.a" "$folder/libcuzhaveli_plans.a"
mkdir "$members"
exports=$(sed -n 's/^\(cuzhaveli_[a-z]*\) staticlib:.*/\1/p' crates.txt | LC_ALL=C sort)
# shellcheck disable=SC2046,SC2086 # the names are words
if [ $# -eq 1 ]; then
    libraries $(below $exports)
else
    for export in $exports; do [ -d "crates/$export/out/checked/x86-64" ] || die "$export is not proved yet; run scripts/archive.sh FOLDER without ARCH first"; done
fi
# shellcheck disable=SC2086 # the names are words
all $exports
for export in $exports; do (cd "$members" && ar x "$export.a" "$export.o"); done
(cd "$members" && for export in $exports; do echo "$export.o"; done | xargs ar rcsD ../libcuzhaveli.a)
cp "$members/cuzhaveli_plans.a" "$folder/libcuzhaveli_plans.a"
