#!/bin/bash
# judge, --plan and encode wait for what is written to a pipe: they say so, and go on once it comes.
. "$(dirname "$0")/common.sh"
film 100000 "$W/f"
must "$C" encode -q -p 3 "$W/f" "$W/d" >/dev/null
rm "$W/d/disk-00.img"
mkfifo "$W/pipe"
waits() { # WORD..
    local got=0
    timeout 1 "$@" >/dev/null 2>"$W/err" || got=$?
    [ $got = 124 ] || bad "it did not wait: status $got of $*"
    grep -q "$W/pipe is a pipe: waiting" "$W/err" || bad "it waits without a word: $*"
}
waits "$C" judge -p 3 -d 0 "$W/pipe"
waits "$C" rebuild -q -n --plan "$W/pipe" "$W/d"
waits "$C" encode -q -p 3 "$W/pipe" "$W/e"
cat "$W/f" >"$W/pipe" &
must "$C" encode -q -p 3 "$W/pipe" "$W/e" >/dev/null 2>&1
must "$C" decode -q "$W/e" "$W/o" >/dev/null
cmp -s "$W/o" "$W/f" || bad "wrong film"
