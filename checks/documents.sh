#!/bin/sh
# The documents against the program: each command that they show is run again, and its output compared.
# `checks/documents.sh --write` puts the real outputs into the documents instead.
set -eu
# shellcheck source=checks/program
. "$(dirname "$0")/program"
python3 "$top/checks/documents.py" "$top" "$work" "$@"
