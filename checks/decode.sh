#!/bin/sh
# `trau decode` on recorded uplinks: its Out lines against those of libgsm (checks/vectors/README.md).
set -eu
# shellcheck source=checks/program
. "$(dirname "$0")/program"
data=$top/checks/vectors
cd "$work"
# shellcheck source=checks/expect
. "$top/checks/expect"

for name in speech-en-m3 speech-loud-m7 harsh; do
    cp "$data/$name.up" 7.up
    rm -f 7.out
    trau decode 7
    expect "decode of $name" 0 "decode frames $(($(wc -c <7.up) / 40))"
    cmp 7.out "$data/$name.out" || failed=1
done

# A block that isn't a good speech frame: all frames before it are written.
head -c 80 "$data/harsh.up" >8.up
head -c 40 /dev/zero >>8.up
trau decode 8
expect "a refused block" 8 "decode refused 2"
head -c 320 "$data/harsh.out" | cmp - 8.out || failed=1

exit "$failed"
