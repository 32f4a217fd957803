#!/bin/sh
# The conformance suite (docs/CONFORMANCE.md): its tests; the program and the C library held to all rules; a sample of the edits of the model
# that its cases must catch; boxes that tools/check.py has to judge. `checks/suite.sh --long` tries all edits and all boxes.
set -eu
case ${1:-} in
'' | --long) ;;
*)
    echo "usage: checks/suite.sh [--long]" >&2
    exit 2
    ;;
esac
# shellcheck source=checks/program
. "$(dirname "$0")/program"

unit_tests "$top/suite/tests"
if [ "${1:-}" = --long ]; then
    for each in test_check test_unsure; do
        if python3 "$top/suite/tests/$each.py" --long >"$work/said" 2>&1; then
            echo "ok $each: all of it"
        else
            fail "$each, all of it:"
            cat "$work/said"
        fi
    done
fi

# held NAME: whether a peer keeps all rules that its operations exercise
held() {
    if python3 "$top/suite/run" --peer "$1" >"$work/said" 2>&1; then
        echo "ok the suite: $(tail -n 1 "$work/said")"
    else
        fail "the suite, $1:"
        cat "$work/said"
    fi
}

if [ "$TRAU_PROGRAM" -ef "$top/model/trau" ]; then held model; else held trau; fi
if python3 -c 'from trau import trau_fr' 2>/dev/null; then
    held clib
else
    echo "skipped the suite: the C library isn't built (1)"
fi

if python3 "$top/suite/edits" "$@" >"$work/said" 2>&1; then
    echo "ok edits of the model: $(tail -n 1 "$work/said")"
else
    fail "edits of the model:"
    cat "$work/said"
fi
exit "$failed"
