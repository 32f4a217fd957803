#!/bin/sh
# `trau run` if lines fail: first with some recorded lines missing (checks/README.md); then, with the lines of examples/farm,
# if outgoing files may not grow past a size or the device is full. There each outgoing line has to be a prefix of the expected one,
# and the report names exactly those that aren't whole. Then lines that share a file through links: the line that comes second fails,
# and nothing that was recorded is lost. Last, the reasons on standard error.
set -eu
# shellcheck source=checks/program
. "$(dirname "$0")/program"
mounted=
# A device that somebody looks into just now is unmounted once nobody does.
unmount() {
    umount "$work/small" 2>/dev/null || umount -l "$work/small"
    mounted=
}
finish() {
    [ -z "$mounted" ] || unmount
    rm -rf "$work"
}
trap finish EXIT

# recorded NAME: each line, the report and the status
recorded() {
    rm -rf "$work/run"
    mkdir "$work/run"
    for file in "$top/checks/faults/$1"/*; do
        case $file in
        *.up | *.pcm | */orders.txt) cp "$file" "$work/run" ;;
        esac
    done
    status=0
    (cd "$work/run" && "$top/trau" run <orders.txt >report.txt 2>/dev/null) || status=$?
    echo "$status" >"$work/run/status"
    if diff -r "$top/checks/faults/$1" "$work/run" >"$work/differences"; then
        echo "ok recorded: $1"
    else
        fail "recorded: $1"
        cat "$work/differences"
    fi
}

for folder in "$top"/checks/faults/*/; do
    recorded "$(basename "$folder")"
done

# lay FOLDER: links to the incoming lines of examples/farm, so that the folder, one in $work, has no other files than outgoing lines.
# Wherever the repository is, the links are short: a long one takes room on a small device.
ln -s "$top/examples/farm" "$work/farm"
lay() {
    for file in "$top"/examples/farm/*.up "$top"/examples/farm/*.pcm; do
        ln -s "../farm/${file##*/}" "$1"
    done
}

# is_told LINE: whether the report names the line as failed
is_told() {
    grep -qx "line $1 failed" "$work/text"
}

# fronts NAME FOLDER: the run's status is 6, each outgoing line is a prefix of the expected one, and the report names exactly those that
# aren't whole
fronts() {
    good=yes
    [ "$status" = 6 ] || good="status $status"
    for wanted in "$top"/examples/farm/wanted/*.down "$top"/examples/farm/wanted/*.out; do
        file=$(basename "$wanted")
        size=0
        [ ! -f "$2/$file" ] || size=$(wc -c <"$2/$file")
        if [ "$size" -gt 0 ]; then
            head -c "$size" "$wanted" | cmp -s - "$2/$file" || good="$file is no front"
        fi
        if [ "$size" -lt "$(wc -c <"$wanted")" ]; then
            is_told "${file%.*} ${file#*.}" || good="$file isn't whole, and isn't told"
        elif is_told "${file%.*} ${file#*.}"; then
            good="$file is whole, and told"
        fi
    done
    grep -v '^line ' "$work/text" | cmp -s - "$top/examples/farm/wanted/report.txt" || good="report"
    if [ "$good" = yes ]; then
        echo "ok $1 ($(grep -c '^line ' "$work/text") lines)"
    else
        fail "$1: $good, text:"
        cat "$work/text"
    fi
}

# A limit on the size of files: a write past it writes what fits, and the next one fails.
for words in '--batch 1' '--batch 7' '--batch 250'; do
    for limit in 1 3 6 12 20; do
        rm -rf "$work/run"
        mkdir "$work/run"
        lay "$work/run"
        status=0
        # The report goes through a pipe, to which the limit doesn't apply.
        # shellcheck disable=SC2086
        {
            (
                trap '' XFSZ
                ulimit -f "$limit"
                cd "$work/run"
                told=0
                "$top/trau" run $words <"$top/examples/farm/orders.txt" 2>/dev/null || told=$?
                echo "status $told"
            ) | cat
        } >"$work/told"
        status=$(sed -n 's/^status //p' "$work/told")
        grep -v '^status ' "$work/told" >"$work/text" || true
        fronts "files of at most $limit blocks: $words" "$work/run"
    done
done

# Lines that stand for a full device.
rm -rf "$work/run"
mkdir "$work/run"
lay "$work/run"
ln -s /dev/full "$work/run/1.out"
ln -s /dev/full "$work/run/4.down"
status=0
(cd "$work/run" && "$top/trau" run <"$top/examples/farm/orders.txt") >"$work/text" 2>/dev/null || status=$?
fronts "two full devices" "$work/run"

# A small device that fills up.
mkdir "$work/small"
for size in 8k 32k 56k; do
    if ! mount -t tmpfs -o "size=$size" tmpfs "$work/small" 2>"$work/refused"; then
        echo "not tried: a device of $size ($(cat "$work/refused"))"
        continue
    fi
    mounted=yes
    lay "$work/small"
    status=0
    (cd "$work/small" && "$top/trau" run --batch 7 <"$top/examples/farm/orders.txt") >"$work/text" 2>/dev/null || status=$?
    fronts "a device of $size" "$work/small"
    unmount
done

# Lines that share a file.

# plain ORDERS: the run of these orders (printf's escapes) over lines without links, to compare with
plain() {
    orders=$1
    rm -rf "$work/plain"
    mkdir "$work/plain"
    cp "$top"/examples/farm/*.up "$top"/examples/farm/*.pcm "$work/plain"
    (cd "$work/plain" && printf "$orders" | "$top/trau" run >report.txt)
}

# linked FAILED REASON WORDS..: the same over lines some of which are links, in $work/run. Only the line FAILED fails, for this
# REASON, or none; incoming lines are unchanged, the other lines and the report are those of the plain run.
linked() {
    wanted=$1
    reason=$2
    shift 2
    good=yes
    status=0
    (cd "$work/run" && printf "$orders" | "$top/trau" run "$@" >report.txt 2>said) || status=$?
    : >"$work/told"
    [ -z "$wanted" ] || echo "line $wanted failed" >"$work/told"
    [ "$status" = "${wanted:+6}" ] || [ "$status$wanted" = 0 ] || good="status $status"
    [ "$(cat "$work/run/said")" = "${wanted:+trau: ${wanted% *}.${wanted#* }: $reason}" ] || good="$(cat "$work/run/said")"
    grep '^line ' "$work/run/report.txt" | cmp -s - "$work/told" || good="lines that failed"
    grep -v '^line ' "$work/run/report.txt" | cmp -s - "$work/plain/report.txt" || good="report"
    for file in "$work"/plain/*.*; do
        name=$(basename "$file")
        case $name in
        report.txt | "${wanted% *}.${wanted#* }") continue ;;
        esac
        [ -p "$work/run/$name" ] || [ -c "$work/run/$name" ] || cmp -s "$file" "$work/run/$name" || good="$name"
    done
    if [ "$good" = yes ]; then
        echo "ok $what, $*"
    else
        fail "$what, $*: $good"
        cat "$work/run/report.txt" "$work/run/said"
    fi
}

# unmade WORDS..: 1.down fails, since its link leads to 2.up, a line that doesn't exist. It makes no file there, and the link stays.
# 1.out, a link to another new file, is whole.
unmade() {
    status=0
    (cd "$work/run" && printf '0 open 1\n' | "$top/trau" run "$@" >report.txt 2>said) || status=$?
    if [ "$status" = 6 ] && [ "$(grep '^line ' "$work/run/report.txt")" = "line 1 down failed" ] && [ ! -e "$work/run/2.up" ] &&
        [ -L "$work/run/1.down" ] && [ "$(cat "$work/run/said")" = "trau: 1.down: this is the file of 2.up" ] &&
        cmp -s "$work/run/new" "$work/plain/1.out"; then
        echo "ok $what, $*"
    else
        fail "$what, $*"
        cat "$work/run/report.txt" "$work/run/said"
    fi
}

# both_unmade WORDS..: both outgoing lines of call 1 fail, since their links lead to lines that don't exist. No file is made for either.
both_unmade() {
    status=0
    (cd "$work/run" && printf '0 open 1\n' | "$top/trau" run "$@" >report.txt 2>said) || status=$?
    printf 'line 1 down failed\nline 1 out failed\n' >"$work/told"
    printf 'trau: 1.down: this is the file of 2.up\ntrau: 1.out: this is the file of 2.pcm\n' >"$work/reasons"
    if [ "$status" = 6 ] && grep '^line ' "$work/run/report.txt" | cmp -s - "$work/told" && cmp -s "$work/run/said" "$work/reasons" &&
        [ ! -e "$work/run/2.up" ] && [ ! -e "$work/run/2.pcm" ] && [ -L "$work/run/1.down" ] && [ -L "$work/run/1.out" ]; then
        echo "ok $what, $*"
    else
        fail "$what, $*"
        cat "$work/run/report.txt" "$work/run/said"
    fi
}

# begin WHAT: a folder with only the incoming lines
begin() {
    what=$1
    rm -rf "$work/run"
    mkdir "$work/run"
    cp "$top"/examples/farm/*.up "$top"/examples/farm/*.pcm "$work/run"
    cd "$work/run"
}

for batch in 1 7 250; do
    plain '0 open 1\n0 open 2\n'
    begin "an outgoing line that leads to its call's incoming one"
    ln -s 1.pcm 1.out
    linked "1 out" "this is the file of 1.pcm" --batch "$batch"
    begin "the same by a second name"
    ln 1.up 1.out
    linked "1 out" "this is the file of 1.up" --batch "$batch"
    begin "the same through another folder"
    mkdir there
    mv 2.up there/up
    ln -s there/up 2.up
    ln there/up there/down
    ln -s there/down 1.down
    linked "1 down" "this is the file of 2.up" --batch "$batch"
    begin "two outgoing lines in one file"
    ln -s 1.out 2.out
    linked "2 out" "this is the file of 1.out" --batch "$batch"

    begin "an incoming line that leads to an outgoing one of before"
    cp 2.pcm 1.out
    ln -sf 1.out 2.pcm
    linked "1 out" "this is the file of 2.pcm" --batch "$batch"

    begin "two incoming lines in one file"
    cp 2.up 1.up
    cp 1.up "$work/plain"
    (cd "$work/plain" && printf "$orders" | "$top/trau" run >report.txt)
    ln -sf 1.up 2.up
    linked "" "" --batch "$batch"

    plain '0 open 1\n100 open 2\n'
    begin "an outgoing line that leads to an incoming one whose call is opened later"
    ln -s 2.pcm 1.out
    linked "1 out" "this is the file of 2.pcm" --batch "$batch"
    begin "the same by a second name"
    ln 2.up 1.down
    linked "1 down" "this is the file of 2.up" --batch "$batch"
    begin "an outgoing line that leads to an incoming one that doesn't exist"
    rm 2.up
    ln -s 2.up 1.down
    ln -s new 1.out
    unmade --batch "$batch"
    begin "two outgoing lines that lead to incoming ones that don't exist"
    rm 2.up 2.pcm
    ln -s 2.up 1.down
    ln -s 2.pcm 1.out
    both_unmade --batch "$batch"
    begin "an outgoing line that leads to a recording of no call of the run"
    ln -s 4.pcm 2.down
    linked "2 down" "this is the file of 4.pcm" --batch "$batch"
done

# Two calls in which 2.pcm is a link to what call 1 sends. That file doesn't exist before.
plain '0 open 1\n100 open 2\n'
begin "an incoming line that leads to an outgoing one that is written"
ln -sf 1.out 2.pcm
status=0
printf "$orders" | "$top/trau" run >report.txt 2>said || status=$?
if [ "$status" = 6 ] && [ "$(grep '^line ' report.txt)" = "line 2 pcm failed" ] && cmp -s 1.out ../plain/1.out &&
    [ "$(cat said)" = "trau: 2.pcm: this is the file of 1.out" ]; then
    echo "ok $what"
else
    fail "$what"
    cat report.txt said
fi

# A chain of two commands: 2.pcm is a link to 1.out, which is of a run before. The first command writes 1.out anew; the second reads it.
plain '0 open 1\n'
begin "a chain of two commands"
echo before >1.out
ln -sf 1.out 2.pcm
printf '0 open 1\n' | "$top/trau" run >report.txt || echo failed >1.out
printf '0 open 2\n' | "$top/trau" run >report.txt || echo failed >2.down
cp ../plain/1.out ../plain/2.pcm
(cd ../plain && printf '0 open 2\n' | "$top/trau" run >report.txt)
if cmp -s 1.out ../plain/1.out && cmp -s 2.down ../plain/2.down; then
    echo "ok $what"
else
    fail "$what"
fi

# Devices, pipes, and files in other folders may be lines.
plain '0 open 1\n0 open 2\n'
begin "outgoing lines that are one device"
ln -s /dev/null 1.out
ln -s /dev/null 2.out
linked "" ""
begin "outgoing lines that lie elsewhere, and one that is a pipe"
mkdir "$work/run/there" "$work/elsewhere"
ln -s "$work/elsewhere/here" 1.out
ln -s there/down 2.down
echo before >there/down
mkfifo 2.out
cat 2.out >"$work/heard" &
linked "" ""
wait
cmp "$work/heard" "$work/plain/2.out" || fail "what a pipe took"

# The tools of one call.
begin "decode, to its own uplink"
cp "$top/examples/7.up" .
ln 7.up 7.out
status=0
text=$("$top/trau" decode 7 2>said) || status=$?
if [ "$status $text" = "6 line 7 out failed" ] && cmp -s 7.up "$top/examples/7.up"; then
    echo "ok $what"
else
    fail "$what: status $status, $text"
fi

# Reasons, for at most twenty lines, in the order in which a round uses them.
rm -rf "$work/run"
mkdir "$work/run"
cd "$work/run"
status=0
seq 25 | sed 's/^/0 open /' | "$top/trau" run >report.txt 2>said || status=$?
{
    seq 10 | sed 's/.*/&.up\n&.pcm/' | sed 's/.*/trau: &: No such file or directory (os error 2)/'
    echo "trau: lines failed beside these: 30"
} >reasons
if [ "$status" = 6 ] && [ "$(grep -c '^line ' report.txt)" = 50 ] && cmp reasons said; then
    echo "ok reasons of twenty lines"
else
    fail "reasons: status $status"
    cat said
fi
status=0
echo '0 open 1' | "$top/trau" run >/dev/full 2>said || status=$?
if [ "$status" = 4 ] && grep -q '^trau: standard output: No space left on device' said; then
    echo "ok standard output that fails"
else
    fail "standard output that fails: status $status"
    cat said
fi
status=0
"$top/trau" run <. >text 2>said || status=$?
if [ "$status $(cat text)" = "3 orders unread" ] && grep -q '^trau: standard input: Is a directory' said; then
    echo "ok standard input that fails"
else
    fail "standard input that fails: status $status"
    cat said
fi
cd "$top"
exit "$failed"
