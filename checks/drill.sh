#!/bin/sh
# `trau drill`: its texts against those of another program (checks/README.md); the default drill with several workers,
# slices and batches; that it uses no file; and its statuses if the system fails.
set -eu
# shellcheck source=checks/program
. "$(dirname "$0")/program"
mkdir "$work/empty"
cd "$work/empty"

# drill WORDS..: the text and the status of a drill; orders on standard input aren't read
drill() {
    status=0
    echo 'no orders' | "$top/trau" drill "$@" >"$work/text" || status=$?
}

# recorded NUMBER WORDS..: the text is the recorded one, or has its sum
recorded() {
    number=$1
    shift
    # The first word is the command's.
    shift
    drill "$@"
    if [ "$status" != 0 ]; then
        fail "drill $*: status $status"
    elif [ -e "$top/checks/drill/$number.txt" ]; then
        cmp "$top/checks/drill/$number.txt" "$work/text" || fail "drill $*"
    else
        [ "$(cksum <"$work/text")" = "$(cat "$top/checks/drill/$number.cksum")" ] || fail "drill $*: another sum"
    fi
}

number=0
while read -r words; do
    # shellcheck disable=SC2086
    recorded "$number" $words
    number=$((number + 1))
done <"$top/checks/drill/words.txt"
[ "$failed" = 0 ] && echo "ok $number recorded drills"

# The default drill with several workers, slices and batches.
drill
cp "$work/text" "$work/first"
[ "$(cksum <"$work/first")" = "$(cat "$top/checks/drill/1.cksum")" ] || fail "the default drill"
for words in '--workers 1 --slice 1' '--workers 1 --slice 9' '--workers 5 --slice 1' '--workers 5 --slice 9' '--batch 250' '--batch=7'; do
    # shellcheck disable=SC2086
    drill $words
    [ "$status" = 0 ] && cmp "$work/first" "$work/text" || fail "the default drill with $words"
done
[ "$failed" = 0 ] && echo "ok the default drill, six times"

[ -z "$(ls -A)" ] || fail "a drill left a file"

# A text that can't be written, and running out of memory.
status=0
"$top/trau" drill --calls 2 --periods 4 >/dev/full || status=$?
[ "$status" = 4 ] || fail "a full device: status $status"
status=0
(ulimit -v 60000 && exec "$TRAU_PROGRAM" drill --calls 256 --periods 1000) >"$work/text" 2>"$work/log" || status=$?
[ "$status" = 5 ] && [ "$(cat "$work/text")" = "no memory" ] || fail "60,000 blocks of memory: status $status, $(head -n 1 "$work/text")"
for words in '--calls 0' '--calls 257' '--periods 0' '--periods 1001' '--seed -1' '--seed=4294967296' '7' '--calls 2 --calls 2'; do
    # shellcheck disable=SC2086
    drill $words
    [ "$status" = 1 ] && [ "$(cat "$work/text")" = usage ] || fail "drill $words: status $status"
done
[ "$failed" = 0 ] && echo "ok statuses"
exit "$failed"
