#!/bin/bash
# Too few files may be open at once: the command raises the limit as far as it may, and where that is not enough it says so. No disk counts
# as lost by it, and nothing is changed.
. "$(dirname "$0")/common.sh"
[ "$(ulimit -Hn)" = unlimited ] || [ "$(ulimit -Hn)" -ge 256 ] || skip "at most $(ulimit -Hn) files may be open"
mkdir "$W/s"
must "$C" create -p 31 --same-device "$W/s" >/dev/null
film 1000000 "$W/f"
soft() { (ulimit -Sn "$1" && shift && "$@"); }
hard() { (ulimit -n "$1" && shift && "$@"); }
status 0 soft 70 "$C" put -q --json "$W/s" a "$W/f"
grep -q '"lacks":\[\]' "$W/out" || bad "put left disks out: $(cat "$W/out")"
must "$C" encode -q -p 31 "$W/f" "$W/d" >/dev/null
for command in check rebuild repair; do status 0 soft 37 "$C" $command -q "$W/d"; done
for limit in 10 20 30 36 37 38 39 40 50 60 65 68 70 72 80; do
    for words in "put -q $W/s b $W/f" "check -q $W/s" "rebuild -q $W/s" "repair -q $W/s" "get -q $W/s a f $W/o" "board $W/s" \
        "check -q $W/d" "rebuild -q $W/d" "repair -q $W/d" "decode -q $W/d $W/o"; do
        got=0
        # shellcheck disable=SC2086 # words
        hard $limit "$C" $words >"$W/out" 2>"$W/err" || got=$?
        rm -rf "$W/o"
        case $got in
        0) ;;
        4) grep -q 'Too many open files' "$W/err" || bad "limit $limit, $words: $(cat "$W/err")" ;;
        *) bad "limit $limit, $words: status $got: $(cat "$W/out" "$W/err")" ;;
        esac
        grep -q 'lost\|left out\|lacks\|stale' "$W/err" && bad "limit $limit, $words: $(cat "$W/err")"
        if [ "$got" = 0 ] && [[ $words = put* ]]; then
            grep -q lacks "$W/out" && bad "limit $limit: put left disks out: $(cat "$W/out")"
            must "$C" remove "$W/s" b >/dev/null
        fi
    done
done
must "$C" check -q "$W/s" >/dev/null
same a "$W/f"
