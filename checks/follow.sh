#!/bin/sh
# `trau follow` on recorded downlinks: what it prints and sends up against the answers of another program; lines that fail; and
# words that no command takes.
set -eu
# shellcheck source=checks/program
. "$(dirname "$0")/program"
data=$top/checks/follow
harsh=$top/checks/farms/harsh/1.down
vectors=$top/checks/vectors
cd "$work"
# shellcheck source=checks/expect
. "$top/checks/expect"

# followed DOWNLINK WANT TEXT ANSWERS
followed() {
    cp "$1" 7.up
    rm -f 7.down
    trau follow 7 "$2"
    expect "$(basename "$3")" 0 "$(cat "$3")"
    cmp 7.down "$4" || failed=1
}

followed "$harsh" 0 "$data/harsh-1-0.txt" "$data/harsh-1-0.down"
followed "$top/examples/farm/wanted/1.down" 316 "$data/mixed-1-316.txt" "$data/mixed-1-316.down"
followed "$vectors/follow-100.down" 100 "$data/harsh-3-100.txt" "$vectors/follow-100.up"
followed "$vectors/follow-4.down" 4 "$data/mixed-2-4.txt" "$vectors/follow-4.up"

# Octets that make no whole period are left.
head -c 119 "$harsh" >7.up
trau follow 7 0
expect "a rest of 39 octets" 0 "320 speech
follow frames 1 left 39"
head -c 80 "$data/harsh-1-0.down" | cmp - 7.down || failed=1

# No frame, no line of text.
rm 7.down
: >7.up
trau follow 7 0
expect "an empty line" 0 "follow frames 0 left 0"
[ ! -e 7.down ] || failed=1

trau follow 8 0
expect "a missing line" 6 "line 8 up failed"
cp "$harsh" 9.up
mkdir 9.down
trau follow 9 0
expect "answers that can't be written" 6 "line 9 down failed"

# Standard output is full: the answer of the first period with a frame is the last that is sent up.
cp "$harsh" 10.up
status=0
text=
"$top/trau" follow 10 0 >/dev/full </dev/null || status=$?
expect "a full standard output" 4 ""
head -c 80 "$data/harsh-1-0.down" | cmp - 10.down || failed=1

trau follow 4096 0
expect "the last call" 6 "line 4096 up failed"
for words in "7" "7 0 0" "4097 0" "0 0" "7 6" "7 320" "7 04" "07 4" "7 x"; do
    # shellcheck disable=SC2086
    trau follow $words
    expect "follow $words" 1 "usage"
done

exit "$failed"
