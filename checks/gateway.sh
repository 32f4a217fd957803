#!/bin/sh
# The live gateway: its tests, with sockets on the loopback interface alone. What is compared is a recording with its replay, so a slow machine
# changes no result. `checks/gateway.sh --long` runs the tests that take minutes, and those with other programs, as far as these are installed.
# TRAU_CLIB names a C library to use in place of clib/out.
set -eu
# shellcheck source=checks/program
. "$(dirname "$0")/program"

case ${1:-} in
'' | --long) ;;
*)
    echo "usage: checks/gateway.sh [--long]" >&2
    exit 2
    ;;
esac
if [ -z "${TRAU_CLIB:-}" ]; then
    TRAU_CLIB=$top/clib/out
    if ! TRAU_IS_BUILT=ask "$top/clib/build"; then
        if ! command -v cc >/dev/null; then
            echo "skipped gateway: gcc isn't installed"
            exit 0
        fi
        # In a folder of its own: checks/clib.sh may be building clib/out just now.
        TRAU_CLIB=$work/clib
        "$top/clib/build" "$TRAU_CLIB"
    fi
fi
export TRAU_CLIB

unit_tests "$top/gateway/tests"
[ "${1:-}" != --long ] || long_tests "$top/gateway/tests"
exit "$failed"
