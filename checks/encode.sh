#!/bin/sh
# `trau encode` on recorded Pcm lines: its downlinks against those of libgsm (checks/vectors/README.md).
set -eu
# shellcheck source=checks/program
. "$(dirname "$0")/program"
data=$top/checks/vectors
cd "$work"
# shellcheck source=checks/expect
. "$top/checks/expect"

for name in speech-en-m3 speech-loud-m7 harsh; do
    cp "$data/$name.pcm" 7.pcm
    rm -f 7.down
    trau encode 7
    expect "encode of $name" 0 "encode frames $(($(wc -c <7.pcm) / 160)) left 0"
    cmp 7.down "$data/$name.down" || failed=1
done

# Octets that make no whole period are left, and a line of such octets alone gives nothing.
head -c 330 "$data/harsh.pcm" >8.pcm
trau encode 8
expect "a rest of ten octets" 0 "encode frames 2 left 10"
head -c 80 "$data/harsh.down" | cmp - 8.down || failed=1
head -c 159 "$data/harsh.pcm" >9.pcm
trau encode 9
expect "a rest alone" 0 "encode frames 0 left 159"
[ ! -e 9.down ] || fail "9.down was made"

trau encode 10
expect "a missing line" 6 "line 10 pcm failed"
cp 8.pcm 11.pcm
mkdir 11.down
trau encode 11
expect "a downlink that can't be written" 6 "line 11 down failed"

exit "$failed"
