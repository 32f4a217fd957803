#!/bin/sh
# The C libraries, built from what is proved: their C and Python tests against recorded answers of libgsm and of Python's audioop; hard signals
# against libgsm built with integers; random calls by both sides against the model; the hosts of clib/examples; and if sox, toast, ffmpeg and
# GStreamer are installed, what they write for recorded speech on the system's libgsm and on this library. `checks/clib.sh --long` also plays
# in real time. TRAU_CLIB names a library to use in place of clib/out, which isn't built then.
set -eu
case ${1:-} in
'' | --long) ;;
*)
    echo "usage: checks/clib.sh [--long]" >&2
    exit 2
    ;;
esac
top=$(cd "$(dirname "$0")/.." && pwd)
vectors=$top/checks/vectors
tests=$top/clib/tests
work=$(mktemp -d)
trap 'rm -rf "$work"' EXIT
trap 'exit 130' HUP INT TERM
failed=0
# shellcheck source=checks/path
. "$top/checks/path"

if ! command -v cc >/dev/null; then
    echo "skipped clib: gcc isn't installed"
    exit 0
fi
if [ -z "${TRAU_CLIB:-}" ]; then
    "$top/clib/build"
    TRAU_IS_BUILT=ask "$top/clib/build"
    TRAU_CLIB=$top/clib/out
fi
export TRAU_CLIB
lib=$TRAU_CLIB/lib
cd "$work"

# said NAME COMMAND ..: the status of the command, and if it fails what it printed
said() {
    name=$1
    shift
    if "$@" >said.txt 2>&1; then
        echo "ok $name"
    else
        echo "FAILED $name"
        cat said.txt
        failed=$((failed + 1))
    fi
}

for kind in . glibc-hwcaps/x86-64-v3; do
    if [ $kind != . ] && ! grep -q '^flags.* avx2 ' /proc/cpuinfo; then
        echo "skipped x86-64-v3: this processor isn't one"
        continue
    fi
    cc -O2 -Wall -Wextra -I"$TRAU_CLIB/include" -o test_trau_fr "$tests/test_trau_fr.c" "$lib/$kind/libtrau_fr.so.1"
    said "test_trau_fr of $kind" env LD_LIBRARY_PATH="$lib/$kind" ./test_trau_fr "$vectors" "$tests/data"
    for program in says hard; do
        cc -O2 -Wall -Wextra -o $program "$tests/libgsm_$program.c" "$lib/trau-gsm/$kind/libgsm.so.1" -lm
        env LD_LIBRARY_PATH="$lib/trau-gsm/$kind" ./$program >$program.txt
        said "libgsm_$program of $kind" cmp $program.txt "$tests/data/libgsm_$program.txt"
    done
done
cc -O2 -I"$TRAU_CLIB/include" -o test_static "$tests/test_trau_fr.c" "$lib/libtrau_fr.a"
said "test_trau_fr of libtrau_fr.a" ./test_static "$vectors" "$tests/data"
if command -v c++ >/dev/null; then
    for name in trau_fr trau_call; do
        echo "#include <$name.h>" >header.cc
        said "$name.h as C++" c++ -Wall -Wextra -I"$TRAU_CLIB/include" -c header.cc
    done
else
    echo "skipped the headers as C++: g++ isn't installed"
fi

# Live calls: the shared library for each kind of processor, and the archive, whose malloc is made to fail.
cc -O2 -Wall -Wextra -I"$TRAU_CLIB/include" -Wl,--wrap=malloc -o test_trau_call "$tests/test_trau_call.c" "$lib/libtrau_call.a" "$lib/libtrau_fr.a"
said "test_trau_call of libtrau_call.a" ./test_trau_call

# libgsm's interface: behind the system's header, and without leaks.
gsm_interface="-std=gnu11 -Wall -Wextra -Werror -I$TRAU_CLIB/include $top/clib/libgsm.c"
if echo '#include <gsm.h>' | cc -E -x c - >/dev/null 2>&1; then
    # shellcheck disable=SC2086
    said "libgsm.c behind gsm.h" cc -include gsm.h -fsyntax-only $gsm_interface
else
    echo "skipped gsm.h: libgsm1-dev isn't installed"
fi
echo 'int main(void) { return 0; }' >nothing.c
if cc -fsanitize=address,undefined -o nothing nothing.c 2>/dev/null && ./nothing; then
    # shellcheck disable=SC2086
    cc -g -fsanitize=address,undefined -fno-sanitize-recover=all -o leaks $gsm_interface "$tests/libgsm_says.c" "$lib/libtrau_fr.a"
    said "libgsm_says without leaks" ./leaks
    cc -g -fsanitize=address,undefined -fno-sanitize-recover=all -Wl,--wrap=malloc -I"$TRAU_CLIB/include" -o call_leaks \
        "$tests/test_trau_call.c" "$lib/libtrau_call.a" "$lib/libtrau_fr.a"
    said "test_trau_call without leaks" ./call_leaks
else
    echo "skipped leaks: the compiler has no address sanitizer that runs here"
fi

said "the Python module" python3 "$tests/test_trau_fr.py" -v
say_skipped "the Python module" said.txt

# 10,000 periods of each side from a fixed seed, and some from the day's.
said "random calls" python3 "$tests/random_sides.py"
said "random calls of the day" python3 "$tests/random_sides.py" --seed "$(date -u +%Y%m%d)" --calls 8

# hosts CLASS: tests of hosts in clib/examples
hosts() {
    said "examples: $1" env PYTHONPATH="$PYTHONPATH:$top/clib/examples" python3 "$tests/test_examples.py" -v "$1"
    say_skipped "$1" said.txt
}

hosts Header
hosts Heard
hosts Call
hosts Conform
hosts Ecu
hosts GStreamer
[ "${1:-}" != --long ] || said "a port" env PYTHONPATH="$PYTHONPATH:$top/clib/examples" python3 "$tests/long_port.py"

# The system's libgsm may compute in floats. Then it differs from the standard on hard signals, which is no failure of this library.
if cc -O2 -o hard_of_system "$tests/libgsm_hard.c" -l:libgsm.so.1 -lm 2>/dev/null && ./hard_of_system >of_system.txt; then
    differ=$(diff of_system.txt "$tests/data/libgsm_hard.txt" | grep -c '^<' || true)
    echo "note libgsm of the system: $differ of $(wc -l <of_system.txt) runs of hard signals aren't those of libgsm built with integers"
fi

# is_loaded: whether the program that ran last has loaded this library
is_loaded() {
    grep -q "calling init: $lib/trau-gsm/.*libgsm.so.1" loaded.*
}

# ends STATUS COMMAND ..: the status of a command
ends() {
    wanted=$1
    shift
    status=0
    "$@" >ended.txt 2>&1 || status=$?
    said "status $wanted: $(echo "$*" | sed "s:$top/::g")" [ "$status" = "$wanted" ]
}

ends 0 "$top/clib/build" --help
ends 2 "$top/clib/build" --what
ends 2 "$top/clib/build" one two
ends 2 "$top/clib/with"
ends 2 env TRAU_CLIB=/nowhere "$top/clib/with" true
ends 7 "$top/clib/with" sh -c "exit 7"

# compared NAME COMMAND: a shell command that writes standard output, on the system's libgsm and on this library
compared() {
    rm -f loaded.*
    sh -c "$2" >on.system 2>/dev/null
    LD_DEBUG=libs LD_DEBUG_OUTPUT="$work/loaded" "$top/clib/with" sh -c "$2" >on.library 2>/dev/null
    [ -s on.system ] || { echo "FAILED $1: nothing written"; failed=$((failed + 1)); }
    is_loaded || { echo "FAILED $1: the library isn't loaded"; failed=$((failed + 1)); }
    said "$1" cmp on.system on.library
}

cp "$vectors/speech-en-m3.pcm" speech.al
if command -v sox >/dev/null; then
    sox -t al -r 8000 -c 1 speech.al -e signed -b 16 speech.wav
    compared "sox to gsm" "sox -D speech.wav -t gsm -"
    cp on.system speech.gsm
    compared "sox from gsm" "sox -D speech.gsm -t raw -e signed -b 16 -"
    compared "sox to WAV49" "sox -D speech.wav -e gsm-full-rate -t wav -"
    cp on.system speech49.wav
    compared "sox from WAV49" "sox -D speech49.wav -t raw -e signed -b 16 -"
else
    echo "skipped sox: sox isn't installed"
fi
if command -v toast >/dev/null; then
    compared "toast" "toast -c -a speech.al"
    cp on.system toasted.gsm
    compared "untoast" "untoast -c -l toasted.gsm"
    compared "toast, of mu-law" "toast -c -u speech.al"
else
    echo "skipped toast: libgsm-tools isn't installed"
fi
if command -v ffmpeg >/dev/null && ffmpeg -v quiet -encoders </dev/null | grep -q libgsm_ms; then
    from="ffmpeg -v error -f alaw -ar 8000 -i speech.al -bitexact"
    compared "ffmpeg to gsm" "$from -c:a libgsm -f gsm - </dev/null"
    cp on.system ffmpeg.gsm
    compared "ffmpeg from gsm" "ffmpeg -v error -c:a libgsm -f gsm -i ffmpeg.gsm -f s16le - </dev/null"
    compared "ffmpeg to WAV49" "$from -c:a libgsm_ms -f wav - </dev/null"
    cp on.system ffmpeg49.wav
    compared "ffmpeg from WAV49" "ffmpeg -v error -c:a libgsm_ms -i ffmpeg49.wav -f s16le - </dev/null"
else
    echo "skipped ffmpeg: ffmpeg isn't installed, or has no libgsm"
fi
# GStreamer keeps what it learns of its plugins in a file, which the first command writes.
export GST_REGISTRY="$work/registry"
if command -v gst-launch-1.0 >/dev/null && gst-inspect-1.0 gsmenc >/dev/null 2>&1; then
    raw="rawaudioparse format=alaw sample-rate=8000 num-channels=1"
    from="gst-launch-1.0 -q filesrc location=speech.al ! $raw ! alawdec ! gsmenc"
    if gst-inspect-1.0 rawaudioparse >/dev/null 2>&1 && gst-inspect-1.0 alawdec >/dev/null 2>&1; then
        compared "GStreamer gsmenc" "$from ! fdsink </dev/null"
        compared "GStreamer gsmenc and gsmdec" "$from ! gsmdec ! fdsink </dev/null"
    else
        echo "skipped GStreamer: gstreamer1.0-plugins-base isn't installed"
    fi
else
    echo "skipped GStreamer: gstreamer1.0-tools or gstreamer1.0-plugins-bad isn't installed"
fi

[ "$failed" = 0 ]
