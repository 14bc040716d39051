# shellcheck shell=bash
# For the scripts of this folder: words that say what fails, a copy of the repository, a root folder to run in.

top=$(cd "$(dirname "$0")/../.." && pwd)
part=$(basename "$0")
unset MAKEFLAGS MAKELEVEL MFLAGS
fail() { printf '%s: FAILED: %s\n' "$part" "$1"; exit 1; }

# The files of the repository, what is not added yet too.
copy() { # FOLDER
    mkdir -p "$1" && (cd "$top" && git ls-files -z --cached --others --exclude-standard | xargs -0 cp --parents -t "$1") ||
        fail 'no copy of the repository'
}

# Runs a command in a root folder with namespaces of its own, so that nothing of it is left: no processes, no mounts. With NETWORK
# set it has the machine's network.
inside() { # ROOT WORD..
    local apart=(--mount --pid --fork --ipc --uts)
    [ -n "${NETWORK:-}" ] || apart+=(--net)
    unshare "${apart[@]}" --mount-proc="$1/proc" chroot "$1" \
        env -i PATH=/usr/sbin:/usr/bin:/sbin:/bin HOME=/root LC_ALL=C.UTF-8 DEBIAN_FRONTEND=noninteractive "${@:2}"
}

# What the gate left in a folder, copied to another in the order of its making, so that make takes it as it is.
taken() { # FROM TO NAME.., files beside the libraries
    mkdir -p "$2/x86-64-v3" || fail "no folder $2"
    for one in libcuzhaveli.a libcuzhaveli_plans.a x86-64-v3/libcuzhaveli.a libcuzhaveli_fast.a libcuzhaveli.so.1 "${@:3}"; do
        sleep 0.02
        if [ ! -f "$1/$one" ] && [ "$one" = x86-64-v3/libcuzhaveli.a ]; then : >"$2/$one"; continue; fi # only its date counts
        cp "$1/$one" "$2/$one" || fail "no $1/$one"
    done
}
