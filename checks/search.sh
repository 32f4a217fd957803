#!/bin/sh
# `trau frames` on lines with a frame at each of 320 places, and on lines with many frames, patterns between them and gaps: the answers were
# worked by hand.
set -eu
# shellcheck source=checks/program
. "$(dirname "$0")/program"
cd "$work"
python3 "$top/checks/search.py" "$top/checks/vectors" "$top/examples/7.up"
for number in $(seq 323); do
    "$TRAU_PROGRAM" frames "$number" </dev/null >found.txt || fail "frames $number: status $?"
    cmp found.txt "$number.txt" || fail "frames $number"
done
[ "$failed" != 0 ] || echo "ok frames of $number lines"
exit "$failed"
