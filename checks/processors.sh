#!/bin/sh
# The program for x86-64-v3, which the script `trau` starts on such a processor. It is proved and built over what the gate has just
# proved, and compared with all recordings by the scripts that compare the program for x86-64-v2.
set -eu
# shellcheck source=checks/program
. "$(dirname "$0")/program"
kind=x86-64-v3
program=$top/crates/trau_program/out/trau_program.$kind
unset TRAU_CPU

if ! TRAU_IS_BUILT=$kind "$top/trau"; then
    status=0
    python3 "$top/tools/build.py" --both --over-kept >"$work/said" 2>&1 || status=$?
    tail -n 1 "$work/said"
    # Status 2 has many reasons, as a full disk. Only that the toolchain keeps nothing is no failure.
    if [ "$status" = 2 ] && grep -q '^trau: nothing is kept, since ' "$work/said"; then
        echo "skipped $kind: all would be proved anew for it"
        exit
    fi
    TRAU_IS_BUILT=$kind "$top/trau" || { cat "$work/said"; echo "FAILED the program for $kind isn't proved or not built"; exit 1; }
fi

# The program itself first tests what the processor can do.
status=0
echo 'no orders' | "$program" run >"$work/text" 2>"$work/said" || status=$?
if [ "$status" = 127 ]; then
    echo "skipped $kind: this processor isn't one"
    exit
fi
[ "$status" = 2 ] || { echo "FAILED status $status"; exit 1; }

export TRAU_PROGRAM="$program"
for check in farms drill live save decode encode; do
    (bash "$top/checks/$check.sh" >"$work/$check" 2>&1 || echo "FAILED $check" >"$work/$check.failed") &
done
wait
for check in farms drill live save decode encode; do
    if [ -e "$work/$check.failed" ]; then
        cat "$work/$check" "$work/$check.failed"
        failed=1
    else
        echo "ok $check.sh with the program for $kind"
    fi
done
exit "$failed"
