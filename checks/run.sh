#!/bin/sh
# `trau run` at the limits of the system and of its orders: texts, statuses, and what the lines hold.
set -eu
# shellcheck source=checks/program
. "$(dirname "$0")/program"
cd "$work"

# run ORDERS WORDS..: runs the orders (printf's escapes) over the lines of this folder
run() {
    orders=$1
    shift
    status=0
    printf "$orders" | "$top/trau" run "$@" >text || status=$?
}

# expect NAME STATUS: the last run's status, and its text as standard input has it
expect() {
    cat >wanted
    if [ "$status" = "$2" ] && cmp -s wanted text; then
        echo "ok $1"
    else
        fail "$1: status $status, text:"
        cat text
    fi
}

# size NAME FILE OCTETS
size() {
    [ "$(wc -c <"$2")" = "$3" ] || fail "$1: $2 has $(wc -c <"$2") octets"
}

ones() {
    head -c "$1" /dev/zero | tr '\0' '\377'
}

# An idle frame of a downlink.
idle() {
    printf '\000\000\270\017'
    ones 36
}

# Lines of call 1: an uplink without a frame, an idle Pcm line, three periods each.
head -c 120 /dev/zero >1.up
head -c 480 /dev/zero | tr '\0' '\325' >1.pcm

run '0 open 1'
expect "one call" 0 <<'TEXT'
order 1 ok
call 1 from 0 to 3 end up 0
counts 1 good 0 sid 0 invalid 0 bad 0 idle 0 other 0 miss 0 none 3 made 3
end period 3 calls 1 left 0
TEXT
cmp 1.out 1.pcm || fail "one call: Out"
{
    ones 40
    idle
    idle
} | cmp - 1.down || fail "one call: Down"

# The same of the last call number, with mu-law: an idle line has the octet 0xFF.
cp 1.up 4096.up
ones 480 >4096.pcm
run '0 open 4096 mulaw'
expect "one call of mu-law" 0 <<'TEXT'
order 1 ok
call 4096 from 0 to 3 end up 0
counts 4096 good 0 sid 0 invalid 0 bad 0 idle 0 other 0 miss 0 none 3 made 3
end period 3 calls 1 left 0
TEXT
cmp 4096.out 4096.pcm || fail "one call of mu-law: Out"
cmp 4096.down 1.down || fail "one call of mu-law: Down"
run '0 open 4097'
expect "a call number past the last" 2 <<'TEXT'
orders line 1
TEXT
run '0 open 4096\n0 close 4096 mulaw'
expect "a law where none stands" 2 <<'TEXT'
orders line 2
TEXT

run ''
expect "no orders" 0 <<'TEXT'
end period 0 calls 0 left 0
TEXT

run '5 open 1\n4 open 2\n'
expect "a stamp that falls" 2 <<'TEXT'
orders line 2
TEXT
run '0 open 01\n'
expect "a number with a leading zero" 2 <<'TEXT'
orders line 1
TEXT

# The limits of the orders: 65,536 lines are run, one more is too many; so is one octet more than a mebibyte.
: >2.up
: >2.pcm
i=0
rm -f many
while [ $i -lt 16 ]; do
    printf '0 open 2\n0 open 2\n0 open 2\n0 open 2\n' >>many
    i=$((i + 1))
done
i=0
while [ $i -lt 10 ]; do
    cat many many >more
    mv more many
    i=$((i + 1))
done
[ "$(wc -l <many)" = 65536 ] || fail "65,536 lines"
status=0
"$top/trau" run <many >text || status=$?
if [ "$status" = 0 ] && [ "$(wc -l <text)" = 65539 ] && [ "$(sed -n 65536p text)" = "order 65536 refused 1 call 2" ]; then
    echo "ok 65,536 orders"
else
    fail "65,536 orders: status $status"
fi
echo '0 open 2' >>many
status=0
"$top/trau" run <many >text || status=$?
expect "65,537 orders" 7 <<'TEXT'
orders too long
TEXT
status=0
head -c 1048577 /dev/zero | "$top/trau" run >text || status=$?
expect "an octet past a mebibyte" 7 <<'TEXT'
orders too long
TEXT

run '4000000000 open 2\n'
expect "a clock that jumps" 0 <<'TEXT'
order 1 ok
call 2 from 4000000000 to 4000000000 end up 0
counts 2 good 0 sid 0 invalid 0 bad 0 idle 0 other 0 miss 0 none 0 made 0
end period 4000000000 calls 1 left 0
TEXT

head -c 400 /dev/zero >3.up
head -c 1600 /dev/zero >3.pcm
run '0 open 3\n9 close 3\n' --periods 3
expect "an end before the orders'" 0 <<'TEXT'
order 1 ok
call 3 from 0 to 3 limit
counts 3 good 0 sid 0 invalid 0 bad 0 idle 0 other 0 miss 0 none 3 made 3
end period 3 calls 1 left 1
TEXT
size "an end before the orders'" 3.out 480

# Words. (The script answers --help.)
for words in '--workers 0' '--batch 2 --batch 3' '--slice 251' '--periods' '--workers 1 x'; do
    # shellcheck disable=SC2086
    run '0 open 1' $words 2>/dev/null
    expect "words $words" 1 <<'TEXT'
usage
TEXT
done

# A missing line is a fault, and both faults are reported; Pcm is read even if Up has ended.
run '0 open 4\n'
expect "missing lines" 6 <<'TEXT'
order 1 ok
call 4 from 0 to 0 fault up
counts 4 good 0 sid 0 invalid 0 bad 0 idle 0 other 0 miss 0 none 0 made 0
line 4 up failed
line 4 pcm failed
end period 0 calls 1 left 0
TEXT
: >5.up
run '0 open 5\n'
expect "an empty uplink and no Pcm line" 6 <<'TEXT'
order 1 ok
call 5 from 0 to 0 end up 0
counts 5 good 0 sid 0 invalid 0 bad 0 idle 0 other 0 miss 0 none 0 made 0
line 5 pcm failed
end period 0 calls 1 left 0
TEXT

# A call that is closed at its opening, or opened past the run's end, reads nothing.
run '0 open 6\n0 close 6\n'
expect "a call that is closed at once" 0 <<'TEXT'
order 1 ok
order 2 ok
call 6 from 0 to 0 closed
counts 6 good 0 sid 0 invalid 0 bad 0 idle 0 other 0 miss 0 none 0 made 0
end period 0 calls 1 left 0
TEXT
run '3 open 6\n' --periods 3
expect "a call past the run's end" 0 <<'TEXT'
end period 0 calls 0 left 1
TEXT

# An outgoing line that fails doesn't end its call.
cp 1.up 7.up
cp 1.pcm 7.pcm
mkdir 7.down
run '0 open 7\n' --batch 1
expect "a downlink that can't be written" 6 <<'TEXT'
order 1 ok
call 7 from 0 to 3 end up 0
counts 7 good 0 sid 0 invalid 0 bad 0 idle 0 other 0 miss 0 none 3 made 3
line 7 down failed
end period 3 calls 1 left 0
TEXT
size "a downlink that can't be written" 7.out 480

# Two calls of twelve good frames each are bridged for six periods. Before that, call 9's fourth frame asks for a shift of 156
# octets, so call 8's first frame waits for one period, and its last goes out in the period in which the bridge ends. Octet 5 of
# a frame, which has eight of its data bits, is its number; call 9 begins with 16.
python3 - <<'END'
def frame(head, octet, tail):
    data = f"82{octet:02X}BA1AE4288012A492A492A2808124C924C924A8009249924992458002A492A492"
    return bytes.fromhex(head + data + tail)

def up(octet, head="00008800"):
    return frame(head, octet, "A6FF")

def down(octet):
    return frame("0000F00F", octet, "A7FF")

open("8.up", "wb").write(b"".join(up(k) for k in range(12)))
open("9.up", "wb").write(b"".join(up(16 + k, "00008A70" if k == 3 else "00008800") for k in range(12)))
open("of8", "wb").write(b"".join(down(k) for k in range(4, 10)))
open("of9", "wb").write(b"".join(down(16 + k) for k in range(4, 10)))
# 33 frames of silence.
open("silence.up", "wb").write(up(9) * 33)
for call in (8, 9):
    open(f"{call}.pcm", "wb").write(b"\xd5" * 1920)
END
# bridged NAME ORDERS LINE: the report has the bridge's line. Call 8 is opened with the law that $law names.
law=
bridged() {
    run "0 open 8$law\n0 open 9\n$2"
    if [ "$status" = 0 ] && grep -qx "$3" text; then
        echo "ok $1"
    else
        fail "$1: status $status, text:"
        cat text
    fi
}
# handed NAME IDLE: the frames went across, and within the bridge each Out line is idle, call 8's with the octet IDLE. Call 8
# sends a frame in each period, after 40 octets of ones. Call 9 sends none in period 4: its first four frames, in octets 40 to
# 199, are followed by two ones for each of the 156 octets, and then by the frames of call 8.
handed() {
    tail -c +201 8.down | head -c 240 | cmp - of9 || fail "$1: Down of call 8"
    {
        ones 39
        cat of8
    } >wanted
    tail -c +201 9.down | head -c 279 | cmp - wanted || fail "$1: Down of call 9"
    [ "$(tail -c +641 8.out | head -c 960 | tr -d "$2" | wc -c)" = 0 ] || fail "$1: Out of call 8"
    [ "$(tail -c +641 9.out | head -c 960 | tr -d '\325' | wc -c)" = 0 ] || fail "$1: Out of call 9"
}
bridged "a bridge" '4 bridge 8 9\n10 unbridge 8\n' 'bridge 8 9 from 4 to 10 sent 6 6 lost 0 0'
handed "a bridge" '\325'
law=' mulaw'
bridged "a bridge between laws" '4 bridge 8 9\n10 unbridge 8\n' 'bridge 8 9 from 4 to 10 sent 6 6 lost 0 0'
handed "a bridge between laws" '\377'
law=
bridged "a call that ends with its bridge" '4 bridge 8 9\n10 unbridge 8\n10 close 9\n' 'bridge 8 9 from 4 to 10 sent 5 6 lost 1 0'
bridged "a bridge of no period" '4 bridge 8 9\n4 unbridge 8\n' 'bridge 8 9 from 4 to 4 sent 0 0 lost 0 0'

# Each reply to an order, in a run of two periods.
mkdir replies
cd replies
for call in 1 2 3; do
    head -c 80 ../8.up >$call.up
    head -c 320 ../8.pcm >$call.pcm
done
run '0 open 1\n0 open 2\n0 open 3\n0 open 1\n0 bridge 1 1\n0 bridge 1 2\n0 bridge 3 2\n0 unbridge 3\n1 unbridge 2\n1 bridge 3 1\n1 close 3\n1 open 3\n1 level 9 0\n'
head -n 13 text >first
mv first text
expect "each reply" 0 <<'TEXT'
order 1 ok
order 2 ok
order 3 ok
order 4 refused 1 call 1
order 5 refused 5 call 1
order 6 ok
order 7 refused 3 call 2 partner 1
order 8 refused 4 call 3
order 9 ok
order 10 refused 6 call 1 partner 2
order 11 ok
order 12 refused 7 call 3
order 13 refused 2 call 9
TEXT
cd ..

# If the uplink of a call ends, its bridge ends too. Its partner goes on with its own codecs, from their reset state: a frame of
# silence gives the samples 8, 0, 0, 8, 8, 8, 16.
mkdir alone
cd alone
head -c 1213 /dev/zero >7.up
cp ../silence.up 9.up
cat ../8.pcm ../8.pcm ../8.pcm | head -c 5280 >7.pcm
cp 7.pcm 9.pcm
run '0 open 7\n0 open 9\n0 bridge 7 9'
if [ "$status" = 0 ] && grep -q '^call 7 from 0 to 30 end up 13$' text && grep -q '^bridge 7 9 from 0 to 30 sent ' text; then
    echo "ok a bridged call that ends"
else
    fail "a bridged call that ends: status $status, text:"
    cat text
fi
size "a bridged call that ends" 9.out 5280
[ "$(head -c 4800 9.out | tr -d '\325' | wc -c)" = 0 ] || fail "a bridged call that ends: Out in the bridge"
printf '\325\325\325\325\325\325\324' >wanted
tail -c +4801 9.out | head -c 7 | cmp -s - wanted || fail "a bridged call that ends: Out after the bridge"
cd ..

# Frames that begin within an octet: the first ends in period 1, so nothing is heard in period 0.
python3 - <<'END'
frame = open("silence.up", "rb").read(40)
bits = "00000" + "".join(f"{octet:08b}" for octet in frame * 3) + "000"
open("10.up", "wb").write(bytes(int(bits[i : i + 8], 2) for i in range(0, len(bits), 8)))
open("10.pcm", "wb").write(b"\xd5" * 640)
END
run '0 open 10\n'
expect "frames within octets" 0 <<'TEXT'
order 1 ok
call 10 from 0 to 3 end up 1
counts 10 good 2 sid 0 invalid 0 bad 0 idle 0 other 0 miss 0 none 1 made 3
end period 3 calls 1 left 0
TEXT
[ "$(head -c 160 10.out | tr -d '\325' | wc -c)" = 0 ] || fail "frames within octets: Out"

# Standard input and standard output.
status=0
"$top/trau" run </ >text 2>/dev/null || status=$?
expect "orders that can't be read" 3 <<'TEXT'
orders unread
TEXT
status=0
printf '0 open 1' | "$top/trau" run >/dev/full || status=$?
: >text
expect "a full standard output" 4 </dev/null

# Lines that grow past the limit on the size of files, here 512 octets. Without the script, the signal SIGXFSZ ends the program.
mkdir large
cd large
head -c 600 /dev/zero >3.up
head -c 2400 /dev/zero >3.pcm
status=0
echo '0 open 3' | sh -c 'ulimit -f 1 && exec "$0" run' "$top/trau" >text || status=$?
expect "a limit of the size of files" 6 <<'TEXT'
order 1 ok
call 3 from 0 to 15 end up 0
counts 3 good 0 sid 0 invalid 0 bad 0 idle 0 other 0 miss 0 none 15 made 15
line 3 down failed
line 3 out failed
end period 15 calls 1 left 0
TEXT
size "a limit of the size of files" 3.down 512
size "a limit of the size of files" 3.out 512
cd ..

echo '0 open 1' >one
out_of_memory "order 1 ok*end period 3 calls 1 left 0" one run

# With 8 descriptors, five of them for the 48 lines of twelve calls, report and lines are the same as without that limit. (What whoever
# started this left open is closed.)
mkdir descriptors
cd descriptors
for call in 1 2 3 4 5 6 7 8 9 10 11 12; do
    cp ../1.up $call.up
    cp ../1.pcm $call.pcm
    echo "0 open $call"
done >orders
"$top/trau" run --batch 1 <orders >report
mkdir free
mv report ./*.down ./*.out free
status=0
(exec 3>&- 4>&- 5>&- 6>&- 7>&- && ulimit -n 8 && exec "$TRAU_PROGRAM" run --batch 1) <orders >report || status=$?
same=0
for file in report *.down *.out; do
    if cmp "$file" "free/$file"; then same=$((same + 1)); fi
done
cd ..
if [ "$status" = 0 ] && [ "$same" = 25 ]; then echo "ok 8 descriptors"; else fail "8 descriptors: status $status, $same files the same"; fi

# All 4,096 calls, three periods of silence each, every second call with mu-law: all end with their lines, and calls of the same
# law send the same. Silence is the samples 8, 0, 0, 8, 8, 8, 16.
mkdir all
cd all
python3 - <<'END'
up = open("../silence.up", "rb").read()[:120]
for call in range(1, 4097):
    open(f"{call}.up", "wb").write(up)
    open(f"{call}.pcm", "wb").write((b"\xff" if call % 2 == 0 else b"\xd5") * 480)
END
seq 4096 | sed 's/.*/0 open &/; n; s/.*/0 open & mulaw/' >orders
status=0
"$top/trau" run <orders >text || status=$?
if [ "$status" = 0 ] && [ "$(grep -c '^call [0-9]* from 0 to 3 end up 0$' text)" = 4096 ] && [ "$(tail -n 1 text)" = "end period 3 calls 4096 left 0" ]; then
    echo "ok 4,096 calls"
else
    fail "4,096 calls: status $status"
fi
printf '\325\325\325\325\325\325\324' >alaw
printf '\376\377\377\376\376\376\375' >mulaw
head -c 7 1.out | cmp - alaw || fail "4,096 calls: Out of A-law"
head -c 7 2.out | cmp - mulaw || fail "4,096 calls: Out of mu-law"
size "4,096 calls" 1.out 480
size "4,096 calls" 2.out 480
size "4,096 calls" 1.down 120
python3 - <<'END' || fail "4,096 calls: lines that differ"
def lines(side):
    return [open(f"{call}.{side}", "rb").read() for call in range(1, 4097)]

out, down = lines("out"), lines("down")
assert out == out[:2] * 2048 and down == down[:2] * 2048
END
cd ..

exit "$failed"
