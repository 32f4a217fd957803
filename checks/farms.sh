#!/bin/sh
# `trau run` on four recorded farms (checks/README.md), with each of the command lines of checks/farms/words.txt: each outgoing
# line and the report, octet for octet, and that the incoming lines are unchanged.
set -eu
# shellcheck source=checks/program
. "$(dirname "$0")/program"

# lay NAME: puts the farm's incoming lines and orders into $work/given, and these with the expected results into $work/wanted
lay() {
    rm -rf "$work/given" "$work/wanted"
    mkdir "$work/given" "$work/wanted"
    lay_farm "$1" "$work/given"
    case $1 in
    mixed) cp "$top"/examples/farm/wanted/* "$work/wanted" ;;
    clean | mulaw) cp "$top/checks/farms/$1"/*.down "$top/checks/farms/$1"/*.out "$top/checks/farms/$1/report.txt" "$work/wanted" ;;
    harsh)
        cp "$top"/checks/farms/harsh/*.down "$top"/checks/farms/harsh/*.out "$work/wanted"
        cp "$top/checks/vectors/farm-report.txt" "$work/wanted/report.txt"
        ;;
    esac
    cp "$work"/given/* "$work/wanted"
}

# compare NAME WORDS..: runs the farm in a folder of its own
compare() {
    name=$1
    shift
    rm -rf "$work/run"
    cp -r "$work/given" "$work/run"
    status=0
    (cd "$work/run" && "$top/trau" "$@" <orders.txt >report.txt) || status=$?
    if [ "$status" = 0 ] && diff -r "$work/wanted" "$work/run" >"$work/differences"; then
        echo "ok $name: $*"
    else
        fail "$name: $*, status $status"
        cat "$work/differences"
    fi
}

for name in mixed clean harsh mulaw; do
    lay "$name"
    while read -r words; do
        # shellcheck disable=SC2086
        compare "$name" $words
    done <"$top/checks/farms/words.txt"
done

exit "$failed"
