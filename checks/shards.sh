#!/bin/sh
# Four recorded farms (checks/README.md), each cut by tools/shard.py into parts that run apart: outgoing lines, joined
# report and status are those of one run, octet for octet. Then the same with fewer periods, lines that fail, copies of the
# lines, and parts that fail or are run with other words.
set -eu
# shellcheck source=checks/program
. "$(dirname "$0")/program"

shard() {
    python3 "$top/tools/shard.py" "$@"
}

# one FOLDER WORDS..: one run, its report and status beside the folder
one() {
    folder=$1
    shift
    status=0
    (cd "$folder" && "$top/trau" run "$@" <orders.txt >"$folder.report") || status=$?
    echo "$status" >"$folder.status"
}

# parts CUT: runs the parts one after another
parts() {
    for part in "$1"/[0-9]*; do
        sh "$part/run.sh"
    done
}

# joined CUT: joins the reports, and leaves report and status beside the cut
joined() {
    status=0
    shard join "$1" >"$1.report" 2>"$1.said" || status=$?
    echo "$status" >"$1.status"
}

# same ONE FARM CUT WHAT: the cut farm is as the one run
same() {
    if cmp "$1.report" "$3.report" && cmp "$1.status" "$3.status" && diff -r "$1" "$2" >"$work/differences"; then
        echo "ok $4: status $(cat "$3.status"), $(tail -n 1 "$3.report")"
    else
        fail "$4"
        cat "$3.said" "$work/differences" || true
    fi
}

# compare NAME PARTS SPLIT-OPTION OPTION..: one run by the options against its parts
compare() {
    what="$*"
    name=$1 count=$2 copy=$3
    shift 3
    rm -rf "$work/one"* "$work/farm"* "$work/cut"*
    mkdir "$work/one"
    lay_farm "$name" "$work/one"
    trouble "$work/one"
    cp -r "$work/one" "$work/farm"
    one "$work/one" "$@"
    shard cut "$work/farm" "$work/cut" --parts "$count" $copy "$@" >/dev/null
    parts "$work/cut"
    joined "$work/cut"
    same "$work/one" "$work/farm" "$work/cut" "$what"
}

trouble() {
    :
}
for name in mixed clean mulaw harsh; do
    compare "$name" 9 ""
done
# The last of the runs is what is recorded, too.
cmp "$work/one.report" "$top/checks/vectors/farm-report.txt" || failed=1
for name in mixed harsh; do
    compare "$name" 2 --copy
    compare "$name" 2 "" --periods 100
done

# A refused bridge that names a bridged call: its line of the report needs that call's part.
trouble() {
    sed '/^20 bridge 2 2$/a 20 bridge 3 1' "$1/orders.txt" >"$1/orders"
    mv "$1/orders" "$1/orders.txt"
}
compare clean 9 ""
grep -q '^order 10 refused 3 call 1 partner 2$' "$work/cut.report" || {
    fail "no refusal for a bridged call"
}

# Lines that fail: a missing one, a folder instead of an outgoing one; an older outgoing line, and orders without a last LF.
trouble() {
    rm "$1/3.pcm"
    mkdir "$1/1.down"
    echo old >"$1/3.out"
    head -c $(($(wc -c <"$1/orders.txt") - 1)) "$1/orders.txt" >"$1/orders"
    mv "$1/orders" "$1/orders.txt"
}
for name in mixed clean harsh; do
    compare "$name" 3 ""
done
trouble() {
    rm "$1/3.pcm"
}
compare harsh 3 --copy

# expect STATUS TEXT: the status and the text of joining the last cut
expect() {
    joined "$work/cut"
    if [ "$(cat "$work/cut.status")" = "$1" ] && grep -q "$2" "$work/cut.said"; then
        echo "ok told: $2"
    else
        fail "wanted status $1 and '$2'"
        cat "$work/cut.status" "$work/cut.said"
    fi
}

# A part that fails, here because the program is missing, is reported and run again alone; so is one that was run with other words. (A name
# that a shell wouldn't take as it is stands in quotes.)
status=0
TRAU=$work/none sh "$work/cut/1/run.sh" 2>/dev/null || status=$?
[ "$status" = 127 ] || {
    fail "a part without a program ended with $status"
}
expect 2 "no whole report of part 1; run again: sh '*$work/cut/1/run.sh"
(cd "$work/cut/1" && "$top/trau" run --periods 90 <orders.txt >report.txt) || true
echo 0 >"$work/cut/1/status"
expect 2 "was this part run by other words? run it again: sh '*$work/cut/1/run.sh"
sh "$work/cut/1/run.sh"
joined "$work/cut"
same "$work/one" "$work/farm" "$work/cut" "a part run again alone"

# The tool takes exactly the orders that the program takes, and reports the same line for others.
while read -r orders; do
    # shellcheck disable=SC2059
    printf "$orders" >"$work/orders.txt"
    rm -rf "$work/cut" "$work/none"
    mkdir "$work/none"
    said=$(cd "$work/none" && "$top/trau" run --periods 1 <"$work/orders.txt") || true
    told=$(shard cut "$work/none" "$work/cut" --parts 1 --orders "$work/orders.txt" 2>&1) || true
    case $said in
    "orders line"*) wanted="line ${said#orders line } " ;;
    *) wanted="shard parts" ;;
    esac
    case $told in
    *"$wanted"*) ;;
    *)
        fail "of '$orders' the program says '$said', and shard.py '$told'"
        ;;
    esac
done <<'END'

0 open 1
0 open 1\n\n
0 open 1\n0 open 02\n
0 open 4096\n0 open 4097\n
0 open 4096 mulaw
0 open 1 alaw
0 open 1\n0 close 1 mulaw
4294967294 open 1
4294967295 open 1
7 open 1\n6 open 2
0 level 1 32767\n0 level 1 32768
0 dtx 1 uplink\n0 dtx 1 Off
0 bridge 1 2\n0 bridge 1
0 unbridge 1\n0 close 1 2
0  open 1
0 open 1\r
END
[ "$failed" = 1 ] || echo "ok the grammar of orders"
exit "$failed"
