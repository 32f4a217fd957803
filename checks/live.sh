#!/bin/sh
# `trau live`: its texts against those of another program (checks/README.md); the default live drill with several callers
# and inboxes; that it uses no file; and its statuses if the system fails.
set -eu
# shellcheck source=checks/program
. "$(dirname "$0")/program"
mkdir "$work/empty"
cd "$work/empty"

# live WORDS..: the text and the status of a live drill; nothing is read of standard input
echo 'no orders' >"$work/in"
live() {
    status=0
    {
        "$top/trau" live "$@" >"$work/text" || status=$?
        cat >"$work/rest"
    } <"$work/in"
    cmp -s "$work/in" "$work/rest" || fail "live $*: standard input was read"
}

number=0
while read -r words; do
    # The first word is the command's.
    # shellcheck disable=SC2086
    live ${words#live}
    [ "$status" = 0 ] || fail "$words: status $status"
    cmp "$top/checks/live/$number.txt" "$work/text" || fail "$words"
    number=$((number + 1))
done <"$top/checks/live/words.txt"
[ "$failed" = 0 ] && echo "ok $number recorded live drills"

# The default live drill with several callers and inboxes.
live
for words in '' '--callers 1' '--callers 5' '--callers 64 --inbox 1' '--inbox=1024'; do
    # shellcheck disable=SC2086
    live $words
    [ "$status" = 0 ] && cmp "$top/checks/live/1.txt" "$work/text" || fail "the default live drill with $words"
done
[ "$failed" = 0 ] && echo "ok the default live drill, five times"

[ -z "$(ls -A)" ] || fail "a live drill left a file"

# A text that can't be written, and running out of memory.
status=0
"$top/trau" live --calls 2 --periods 1 >/dev/full || status=$?
[ "$status" = 4 ] || fail "a full device: status $status"
status=0
(ulimit -v 60000 && exec "$TRAU_PROGRAM" live --calls 256 --periods 1000 --callers 1) >"$work/text" 2>"$work/log" || status=$?
[ "$status" = 5 ] && [ "$(cat "$work/text")" = "no memory" ] || fail "60,000 blocks of memory: status $status, $(head -n 1 "$work/text")"
for words in '--calls 0' '--calls 257' '--periods 0' '--periods 1001' '--callers 0' '--callers 65' '--inbox 0' '--inbox 1025' '--seed -1' \
    '--workers 1' '7' '--calls 2 --calls 2'; do
    # shellcheck disable=SC2086
    live $words
    [ "$status" = 1 ] && [ "$(cat "$work/text")" = usage ] || fail "live $words: status $status"
done
[ "$failed" = 0 ] && echo "ok statuses"
exit "$failed"
