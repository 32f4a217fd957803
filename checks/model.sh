#!/bin/sh
# The program against the model (model/README.md): random farms of a fixed seed and of the day's. The model alone: its own tests, and the
# commands that the documents show, except drills, which take it too long.
# `model/random_farms --seed SEED --count 1` repeats a farm that differs.
set -eu
# shellcheck source=checks/program
. "$(dirname "$0")/program"

unit_tests "$top/model/tests" "$(nproc)"

# The documents' sessions start `trau`, which is the model here.
set -- docs/FILES.md docs/OPERATORS.md docs/COMMANDS.md
for page in "$top"/docs/commands/*.md; do
    case $(basename "$page") in
    drill.md | live.md) ;;
    *) set -- "$@" "docs/commands/$(basename "$page")" ;;
    esac
done
if TRAU_PROGRAM=$top/model/trau python3 "$top/checks/documents.py" "$top" "$work" --no-reasons "$@" >"$work/said" 2>&1; then
    echo "ok the documents: $(grep -c '^ok' "$work/said")"
else
    fail "the documents:"
    cat "$work/said"
fi

# Without a program there is nothing to compare random farms with.
if [ "$TRAU_PROGRAM" -ef "$top/model/trau" ]; then
    exit "$failed"
fi

# farms SEED: up to thirty farms from this seed on, for fifty seconds at most
farms() {
    if "$top/model/random_farms" --seed "$1" --count 30 --seconds 50 --jobs 2 >"$work/said" 2>&1; then
        echo "ok random farms from seed $1 on: $(tail -n 1 "$work/said")"
    else
        fail "random farms from seed $1 on:"
        cat "$work/said"
    fi
}

farms 1
farms "$(date -u +%Y%m%d)"
exit "$failed"
