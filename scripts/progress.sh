#!/bin/sh
# Runs archive.sh with its output in a log, and says meanwhile which crate of how many is being proved or compiled.
# Usage: scripts/progress.sh LOG WORD.., the command; WHY= the sentence that comes first
# archive.sh prints a line archive.sh: .. as it begins a crate.
set -u
[ $# -ge 2 ] || { echo "usage: scripts/progress.sh LOG WORD.., a command that calls archive.sh" >&2; exit 2; }
log=$1
shift
say() { echo "make: $1" >&2; }

# What crates.txt says above a crate.
heading() { awk -F '[ :]' -v name="$1" '/^# / { heading = substr($0, 3) } $1 == name { print heading }' crates.txt; }

look() {
    compiling=$(sed -n 's/^archive.sh: compiling //p' "$log")
    if [ -n "$compiling" ]; then
        # shellcheck disable=SC2086 # the names are words
        set -- $compiling
        echo "$# of $(grep -c '^cuzhaveli_[a-z]* staticlib:' crates.txt) crates of calls: $(echo "$compiling" | tail -n 1) is proved and compiled"
        return
    fi
    proving=$(sed -n 's/^archive.sh: proving //p' "$log" | tail -n 1)
    [ -z "$proving" ] || echo "${proving#*, after } crates are proved, at work on ${proving%%,*} ($(heading "${proving%%,*}"))"
}

watch() {
    last=
    while kill -0 $$ 2>/dev/null; do
        line=$(look 2>/dev/null)
        [ -z "$line" ] || [ "$line" = "$last" ] || say "$line"
        last=$line
        sleep 1
    done
}

[ -z "${WHY:-}" ] || say "$WHY"
: >"$log" && : >"$log.began" || exit 1
watch &
watcher=$!
trap 'kill $watcher 2>/dev/null; rm -f "$log.began"' EXIT
trap 'exit 130' INT
trap 'exit 143' TERM
"$@" >"$log" 2>&1 && exit 0
tail -n 20 "$log" >&2
say "the lines above are the end of $log"
exit 1
