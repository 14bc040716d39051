# shellcheck shell=bash disable=SC2154
# How the tests in bash count what they went through and what this machine cannot try; tests/skips.py does so for those in
# Python. A run sets `what`, its name, and `work`, a folder; jobs beside it may count too. The last line is that of `ending`;
# .ci/run gathers the lines with SKIPPED.

# A step that held, and what it says.
passed() { # WORDS
    printf '%s: %s\n' "$what" "$1"
    echo "$1" >>"$work/passed.txt"
}

# What is not tried, and why.
skipped() { # WORDS
    printf '%s: SKIPPED: %s\n' "$what" "$1"
    echo "$1" >>"$work/skipped.txt"
}

# A program that must end with status 0: a step, unless it says itself what it skipped.
held() { # WHY WORD..
    local why=$1
    shift
    "$@" 2>&1 | tee "$work/step.txt"
    [ "${PIPESTATUS[0]}" -eq 0 ] || fail "$why"
    sed -n 's/^[a-z]*: SKIPPED: //p' "$work/step.txt" >>"$work/skipped.txt"
    echo "$*" >>"$work/passed.txt"
}

# 'N passed, M skipped (why)'
ending() {
    touch "$work/passed.txt" "$work/skipped.txt"
    local count why
    count=$(wc -l <"$work/skipped.txt")
    why=$(paste -s -d ';' "$work/skipped.txt" | sed 's/;/; /g')
    printf '%s: %s passed, %s skipped%s\n' "$what" "$(wc -l <"$work/passed.txt")" "$count" "${why:+ ($why)}"
}
