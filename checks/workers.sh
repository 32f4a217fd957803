#!/bin/sh
# `trau run` of eight calls by 500 periods, with speech, silence, losses, slips, DTX and three bridges: whatever the batch, the
# workers and the slices, each line and the report are the same, octet for octet.
set -eu
# shellcheck source=checks/program
. "$(dirname "$0")/program"

mkdir "$work/given"
cd "$work/given"
# lay CALL UP: the recorded uplink and a Pcm line of speech, each repeated up to 500 periods
lay() {
    for i in 1 2 3 4 5 6 7; do cat "$2"; done | head -c 20000 >"$1.up"
    for i in 1 2; do cat "$top/checks/vectors/speech-en-m3.pcm"; done | head -c 80000 >"$1.pcm"
}
for call in 1 2 3 4 5; do
    lay "$call" "$top/checks/vectors/farm-$call.up"
done
for call in 6 7 8; do
    lay "$call" "$top/examples/farm/$((call - 5)).up"
done
cat >orders.txt <<'END'
0 open 1
0 open 2
0 open 3
0 open 4
0 open 5
0 dtx 1 on
3 open 6
3 open 7
11 open 8
20 bridge 1 7
57 level 2 4000
101 bridge 8 3
160 unbridge 7
250 dtx 5 on
301 bridge 7 1
333 unbridge 3
END

# compare WORDS..: runs the calls in a folder of its own
compare() {
    rm -rf "$work/run"
    cp -r "$work/given" "$work/run"
    status=0
    (cd "$work/run" && "$top/trau" run "$@" <orders.txt >report.txt) || status=$?
    if [ "$status" = 0 ] && [ ! -e "$work/first" ]; then
        mv "$work/run" "$work/first"
    elif [ "$status" != 0 ] || ! diff -r "$work/first" "$work/run" >/dev/null; then
        fail "$*: status $status, or other lines"
    fi
}

for batch in 1 7 50; do
    for workers in 1 2 5; do
        for slice in 1 9; do
            compare --batch $batch --workers $workers --slice $slice
        done
    done
done
[ "$(grep -c '^bridge ' "$work/first/report.txt")" = 3 ] || failed=1
[ "$(tail -n 1 "$work/first/report.txt")" = "end period 511 calls 8 left 0" ] || failed=1
[ "$failed" = 0 ] && echo "ok 18 runs of eight calls"
exit "$failed"
