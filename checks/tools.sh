#!/bin/sh
# The tests of tools/. (The commands that tools/README.md shows: checks/documents.sh.) `checks/tools.sh --long` runs those alone that want a
# browser.
set -eu
# shellcheck source=checks/program
. "$(dirname "$0")/program"

case ${1:-} in
'') unit_tests "$top/tools/tests" "$(nproc)" ;;
--long) long_tests "$top/tools/tests" ;;
*)
    echo "usage: checks/tools.sh [--long]" >&2
    exit 2
    ;;
esac
exit "$failed"
