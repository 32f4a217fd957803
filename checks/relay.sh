#!/bin/sh
# `trau relay` on files: the octets that it writes, and its texts and statuses if the system fails.
set -eu
# shellcheck source=checks/program
. "$(dirname "$0")/program"
cd "$work"
# shellcheck source=checks/expect
. "$top/checks/expect"

cp "$top/examples/7.up" 7.up
trau relay 7
expect "speech of 312 frames" 0 "relay frames 312"
python3 "$top/checks/relay.py" 7.up 7.down || failed=1

# The downlink frame of silence, made by hand from the tables, and the uplink frame with the same data bits. Decoded from the
# reset state, it begins with the samples 8, 0, 0, 8, 8, 8, 16.
silence=$top/checks/vectors/silence.down
{
    printf '\000\000\210\000'
    tail -c +5 "$silence" | head -c 34
    printf '\246\377'
} >1.up
cat 1.up 1.up >2.up
trau relay 2
expect "silence" 0 "relay frames 2"
cat "$silence" "$silence" | cmp - 2.down || failed=1
head -c 79 2.up >3.up
trau relay 3
expect "a frame without its last octet" 8 "relay refused 1"
cmp "$silence" 3.down || failed=1
trau decode 1
expect "silence decoded" 0 "decode frames 1"
[ "$(wc -c <1.out)" -eq 160 ] || fail "1.out"
printf '\325\325\325\325\325\325\324' >front
head -c 7 1.out | cmp - front || failed=1

trau relay 8
expect "a missing line" 6 "line 8 up failed"
[ ! -e 8.down ] || fail "8.down was made"

: >9.up
echo old >9.down
trau relay 9
expect "an empty line" 0 "relay frames 0"
[ "$(cat 9.down)" = old ] || fail "9.down was written"

head -c 119 7.up >10.up
trau relay 10
expect "a line that ends inside a block" 8 "relay refused 2"
head -c 80 7.down | cmp - 10.down || failed=1

cp 7.up 11.up
mkdir 11.down
trau relay 11
expect "a downlink that can't be written" 6 "line 11 down failed"

trau relay 07
expect "a leading zero" 1 "usage"
trau "$(printf 'relay\377')" 7
expect "a word that isn't UTF-8" 1 "usage"
trau
expect "no words" 1 "usage"

for words in 'relay' 'relay 0' 'encode 4097' 'relay 7 7' 'Relay 7' 'decoder 7'; do
    # shellcheck disable=SC2086
    trau $words
    expect "words $words" 1 "usage"
done

# broken NAME PLACE OCTET: the second of two frames has this octet at PLACE, and is refused
broken() {
    head -c 80 7.up >12.up
    printf '%b' "$3" | dd of=12.up bs=1 seek="$2" conv=notrunc 2>/dev/null
    trau relay 12
    expect "$1" 8 "relay refused 1"
    head -c 40 7.down | cmp - 12.down || failed=1
}
broken "no sync pattern" 42 '\010'
broken "a bad frame" 43 '\010'
broken "an idle frame" 42 '\0300'

# Of four frames and three octets the second and the third have lost a bit of their sync pattern.
head -c 163 7.up >13.up
for place in 44 84; do
    printf '\002' | dd of=13.up bs=1 seek=$place conv=notrunc 2>/dev/null
done
trau frames 13
expect "a list of frames" 0 "0 good
320 miss
640 miss
960 good
frames 4 left 3"

status=0
text=
"$top/trau" relay 7 >/dev/full </dev/null || status=$?
expect "a full standard output" 4 ""

out_of_memory "relay frames 312" /dev/null relay 7
exit "$failed"
