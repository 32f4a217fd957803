#!/bin/sh
# The package python/trau and the Python programs: laid out as black does it, and with types that mypy accepts (pyproject.toml).
# `checks/python.sh --write` has black lay them out.
set -eu
cd "$(dirname "$0")/.."
top=$PWD
work=$(mktemp -d)
trap 'rm -rf "$work"' EXIT
trap 'exit 130' HUP INT TERM
# shellcheck source=checks/path
. "$top/checks/path"
failed=0

# programs: the files outside of the package, in git's list, that Python runs, but for the benchmarks'
programs() {
    echo setup.py
    echo "$listed" | while read -r file; do
        case $file in
        */tests/*) ;;
        *) ! head -n 1 "$file" 2>/dev/null | grep -q '^#!.*python3' || echo "$file" ;;
        esac
    done
}

# of_debian COMMAND: the command of Debian's package, whose layout counts, or else the one on the path
of_debian() {
    [ -x "/usr/bin/$1" ] && echo "/usr/bin/$1" || command -v "$1" || true
}

# said NAME COMMAND ..: whether a command's status is 0; otherwise what it printed
said() {
    name=$1
    shift
    if "$@" >"$work/said" 2>&1; then
        echo "ok $name"
    else
        echo "FAILED $name:"
        cat "$work/said"
        failed=1
    fi
}

if [ ! -d python/trau ]; then
    echo "note: there is no package python/trau to look at"
    exit
fi
# (Apart, so that this script fails where git does, as in a clone of another user.)
listed=$(git ls-files -- tools gateway model clib checks suite)
programs=$(programs)
black=$(of_debian black)
mypy=$(of_debian mypy)
case ${1:-} in
'') ;;
--write)
    # shellcheck disable=SC2086
    exec "$black" --quiet python/trau $programs
    ;;
*)
    echo "usage: checks/python.sh [--write]" >&2
    exit 2
    ;;
esac
if [ -n "$black" ]; then
    # shellcheck disable=SC2086
    said "black: python/trau and $(echo "$programs" | wc -w) programs" "$black" --check --diff --quiet python/trau $programs
else
    echo "skipped black: black isn't installed"
fi
if [ -n "$mypy" ]; then
    export MYPY_CACHE_DIR="$work/cache"
    said "mypy: python/trau" "$mypy" -p trau
    # Each by itself: all of them are the module __main__.
    for program in $programs; do
        said "mypy: $program" env MYPYPATH="$(dirname "$program")" "$mypy" "$program"
    done
else
    echo "skipped mypy: mypy isn't installed"
fi
exit "$failed"
