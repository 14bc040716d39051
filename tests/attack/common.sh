# shellcheck shell=bash disable=SC2034 # the scripts use what is set here
# Sourced by the scripts, which tests/attack/run starts with BUILD, the folder of the command, and SHIM, shim.c compiled. A script
# ends with 0 if all holds, with 1 and what does not, or with 77 and what this machine cannot try.
C=${BUILD:?}/cuzhaveli
W=$(mktemp -d /dev/shm/attack.XXXXXX)
ends() { :; }
trap 'ends; rm -rf "$W"' EXIT
bad() { # WORDS
    echo "$*"
    exit 1
}
skip() { # WORDS
    echo "$*"
    exit 77
}
film() { # BYTES FILE
    head -c "$1" /dev/urandom >"$2"
}
# What is healthy must succeed.
must() { # WORD..
    local status=0
    "$@" || status=$?
    [ "$status" = 0 ] || bad "status $status of $*"
}
# A command that must end with this status; what it says is in $W/out and $W/err.
status() { # STATUS WORD..
    local want=$1 got=0
    shift
    "$@" >"$W/out" 2>"$W/err" || got=$?
    [ "$got" = "$want" ] || bad "status $got, not $want, of $*: $(cat "$W/out" "$W/err")"
}
# A command in which faults are injected: FAULT_... as shim.c says. They must have struck.
faulty() { # NAME=VALUE.. WORD..
    local set=()
    while [[ $1 = FAULT_* ]]; do
        set+=("$1")
        shift
    done
    rm -f "$W/struck"
    local got=0
    env "${set[@]}" FAULT_COUNT="$W/struck" LD_PRELOAD="$SHIM" "$@" || got=$?
    [ -s "$W/struck" ] || bad "no fault was injected: ${set[*]}"
    return "$got"
}
# A store of five disks in $W/s, p = 3.
store() {
    mkdir "$W/s"
    must "$C" create -p 3 --same-device "$W/s" >/dev/null
}
# The name of the set of a package's first file.
set_of() { # PACKAGE
    sed -n "/^package $1\$/,\$s/^file \([0-9a-f]*\) .*/\1/p" "$W/s/disk-01/catalogue" | head -1
}
# Spoils some bytes of a file.
spoil() { # FILE [OFFSET]
    printf spoilt | dd of="$1" bs=1 seek="${2:-9000}" conv=notrunc status=none
}
# A package must be the film.
same() { # PACKAGE FILM
    "$C" get -q "$W/s" "$1" "$(basename "$2")" - | cmp -s - "$2" || bad "package $1 is not its film"
}
