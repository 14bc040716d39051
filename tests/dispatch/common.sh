# shellcheck shell=bash disable=SC2154
# What tests/dispatch/run and tests/dispatch/masks share; both set `work`, a folder for what is built.

fail() { printf 'dispatch: FAILED: %s\n' "$1"; exit 1; }

# Compiles the programs of this folder; the choice is tested without calls.
build_programs() {
    local strict="-std=c99 -O2 -Wall -Wextra -pedantic -Werror"
    : >"$work/calls.h"
    # shellcheck disable=SC2086 # the flags are words
    ${CC:-cc} $strict -Iinclude -I"$work" tests/dispatch/level.c -o "$work/level" &&
        ${CC:-cc} $strict tests/dispatch/chosen.c -ldl -o "$work/chosen" || fail 'tests/dispatch does not compile'
}

# The level that a shared library takes for all its calls, on the processor that the words before
# the program emulate.
chosen_level() { # LIBRARY [WORD..]
    local library=$1 calls places
    shift
    places=$(mktemp "$work/chosen.XXXXXX") || fail "no file in $work" # several are asked at a time
    calls=$(nm -D --defined-only "$library" | sed -n 's/.* i \([^@]*\).*/\1/p')
    [ -n "$calls" ] || { echo "no call of $library is chosen at load"; return; }
    # shellcheck disable=SC2086 # the calls are words
    "$@" "$work/chosen" "$library" $calls >"$places" || { echo "the loader fails on $library"; return; }
    nm "$library" | awk '
        NR == FNR { place[$1] = $2; next }
        { sub(/^0+/, "", $1) }
        $2 == "t" && match($3, /_x86_64(_v3)?$/) && place[substr($3, 1, RSTART - 1)] == $1 {
            level[substr($3, RSTART + 1)]; found++
        }
        END {
            for (one in level) levels = levels " " one
            gsub(/_/, "-", levels); sub(/x86-64/, "x86-64", levels)
            print found == length(place) ? substr(levels, 2) : found + 0 " of " length(place) " calls led to a compilation"
        }' "$places" -
}
