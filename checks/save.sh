#!/bin/sh
# `trau save` and `trau resume`: a recorded farm in two parts (checks/README.md), each outgoing line, mark and report octet
# for octet, with several command lines; and one call whose mark is another, isn't a mark, or can't be printed.
set -eu
# shellcheck source=checks/program
. "$(dirname "$0")/program"
cd "$work"

# same NAME WANTED FILE
same() {
    cmp "$2" "$3" || fail "$1"
}

# The farm's incoming lines, and what a whole run writes.
mkdir given whole
lay_farm harsh given
cp "$top"/checks/farms/harsh/*.down "$top"/checks/farms/harsh/*.out whole
orders=$top/checks/farms/harsh/orders.txt
report=$top/checks/vectors/farm-report.txt

# parted NAME OCTETS: each part of a line is in its folder, and no file is made for a line that gets nothing
parted() {
    head -c "$2" "whole/$1" >front
    tail -c +"$(($2 + 1))" "whole/$1" >rest
    for part in front rest; do
        case $part in
        front) file=first/$1 ;;
        rest) file=second/$1 ;;
        esac
        if [ -s "$part" ]; then
            same "$file" "$part" "$file"
        elif [ -e "$file" ]; then
            fail "$file: it is there"
        fi
    done
    cat front rest | cmp - "whole/$1" || fail "$1: both parts"
}

# two_parts PERIOD WORDS..: saves and resumes in folders of their own, both with these words
two_parts() {
    period=$1
    shift
    rm -rf first second
    cp -r given first
    cp -r given second
    status=0
    (cd first && "$top/trau" save --periods "$period" "$@" <"$orders" >../mark) || status=$?
    [ "$status" = 0 ] || fail "save $period: status $status"
    same "mark $period" "$top/checks/save/$period.mark" mark
    cat mark "$orders" >marked
    status=0
    (cd second && "$top/trau" resume "$@" <../marked >../told) || status=$?
    [ "$status" = 0 ] || fail "resume $period: status $status"
    same "report $period" "$report" told
    while read -r at name octets; do
        [ "$at" != "$period" ] || parted "$name" "$octets"
    done <"$top/checks/save/octets.txt"
    echo "done: $period $*"
}

for period in 1 60 101; do
    two_parts "$period"
    two_parts "$period" --workers 1 --batch 1 --slice 1
    two_parts "$period" --workers 3 --batch 250 --slice 250
done

# run_part COMMAND TEXT WORDS..: runs a part (the text in printf's escapes) over the lines of this folder
run_part() {
    command=$1
    text=$2
    shift 2
    status=0
    printf "$text" | "$top/trau" "$command" "$@" >told || status=$?
}

# expect NAME STATUS: the last command's status, and its text as standard input has it
expect() {
    cat >wanted
    if [ "$status" = "$2" ] && cmp -s wanted told; then
        echo "ok $1"
    else
        fail "$1: status $status, text:"
        cat told
    fi
}

unwritten() {
    for file in ./*.down ./*.out; do
        [ ! -e "$file" ] || fail "$1: $file was written"
    done
}

# One call: an uplink without a frame, an idle Pcm line, three periods of each.
rm -rf given whole first second
mkdir call
cd call
head -c 120 /dev/zero >1.up
head -c 480 /dev/zero | tr '\0' '\325' >1.pcm
run_part save '0 open 1\n' --periods 3
expect "three periods" 0 <<'TEXT'
save 3
call 1 from 0 out 102240 down 28958
orders
TEXT
run_part save '0 open 1\n'
expect "no period named" 1 <<'TEXT'
usage
TEXT
run_part save '' --periods 7
expect "a mark without calls" 0 <<'TEXT'
save 7
orders
TEXT
rm 1.down 1.out

# A fourth period.
head -c 160 /dev/zero >1.up
head -c 640 /dev/zero | tr '\0' '\325' >1.pcm
run_part resume 'save 3\ncall 1 from 0 out 102240 down 28957\norders\n0 open 1\n'
expect "another sum" 9 <<'TEXT'
save differs 1
TEXT
unwritten "another sum"
run_part resume 'save 3\ncall 1 from 0 out 102240 down 28958\ncall 9 from 2 out 0 down 0\norders\n0 open 1\n'
expect "a call more" 9 <<'TEXT'
save differs 9
TEXT
run_part resume 'save 3\norders\n0 open 1\n'
expect "a call less" 9 <<'TEXT'
save differs 1
TEXT
unwritten "a call less"
run_part resume 'save 03\ncall 1 from 0 out 102240 down 28958\norders\n0 open 1\n'
expect "a number with a leading zero" 2 <<'TEXT'
save line 1
TEXT
run_part resume 'save 3\ncall 1 from 0 out 102240 down 28958\norders'
expect "a last line without its end" 2 <<'TEXT'
save line 3
TEXT
run_part resume 'save 3\norders\n0 open 1\n0 open 01\n'
expect "a bad order" 2 <<'TEXT'
orders line 2
TEXT
{
    printf 'save 3\norders\n'
    head -c 1310707 /dev/zero
} >long
[ "$(wc -c <long)" = 1310721 ] || fail "1,310,721 octets"
status=0
"$top/trau" resume <long >told || status=$?
expect "a text too long" 7 <<'TEXT'
orders too long
TEXT
rm long
unwritten "what isn't taken"

# Without its uplink the call differs at the mark; with the uplink again, only the fourth period is written.
mv 1.up kept
run_part resume 'save 3\ncall 1 from 0 out 102240 down 28958\norders\n0 open 1\n'
expect "a missing line" 9 <<'TEXT'
save differs 1
TEXT
unwritten "a missing line"
mv kept 1.up
run_part resume 'save 3\ncall 1 from 0 out 102240 down 28958\norders\n0 open 1\n'
expect "the fourth period" 0 <<'TEXT'
order 1 ok
call 1 from 0 to 4 end up 0
counts 1 good 0 sid 0 invalid 0 bad 0 idle 0 other 0 miss 0 none 4 made 4
end period 4 calls 1 left 0
TEXT
head -c 160 1.pcm | cmp - 1.out || fail "the fourth period: Out"
{
    printf '\000\000\270\017'
    head -c 36 /dev/zero | tr '\0' '\377'
} | cmp - 1.down || fail "the fourth period: Down"
exit "$failed"
