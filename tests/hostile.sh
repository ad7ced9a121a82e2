#!/usr/bin/env bash
# Hostile texts through the program (tests/hostile.py).
set -uo pipefail
tests=$(dirname "$0")
"$tests/need" --for hostile || exit 77
SAGAS=${SAGAS:-$("$tests/program" --dynamic)} || exit
export SAGAS
exec python3 "$tests/hostile.py"
