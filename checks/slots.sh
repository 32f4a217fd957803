#!/bin/sh
# `trau split` and `trau merge` on recorded lines: what they write and print against the answers of another program, and that
# merging undoes splitting.
set -eu
# shellcheck source=checks/program
. "$(dirname "$0")/program"
data=$top/checks/slots
cd "$work"
# shellcheck source=checks/expect
. "$top/checks/expect"

cp "$data/5.pcm" "$data"/*.up .
trau split 5
expect "split" 0 "$(cat "$data/split.txt")"
for call in 5 6 7 8; do
    cmp "$call.down" "$data/$call.down" || failed=1
done
trau merge 5
expect "merge" 0 "$(cat "$data/merge.txt")"
cmp 5.out "$data/5.out" || failed=1

# What was split is merged again, in whole groups of four octets.
for call in 5 6 7 8; do
    mv "$call.down" "$call.up"
done
trau merge 5
expect "merged again" 0 "merge octets 4000 left 0 0 0 0"
head -c 4000 5.pcm | cmp - 5.out || failed=1

trau split 9
expect "a missing slot" 6 "line 9 pcm failed"
trau merge 6
expect "a missing channel" 6 "line 9 up failed"
mkdir 6.down
trau split 5
expect "a channel that can't be written" 6 "line 6 down failed"
trau split 4094
expect "a call without three behind it" 1 "usage"

exit "$failed"
