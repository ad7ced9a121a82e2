#!/usr/bin/env bash
# The Python package: its types, and its tests side by side, over the program that ./sagas starts.
set -uo pipefail
cd "$(dirname "$0")/.." || exit 1
tests/need --for python || exit 77
program=${SAGAS:-$(tests/program)} || exit 1
room=$(mktemp -d)
trap 'rm -rf "$room"' EXIT
cd python || exit 1
export MYPY_CACHE_DIR="$room/types"
/usr/bin/python3 -m mypy --strict src || exit 1
# Compiled modules are kept in a folder of this run: tests start the package some hundred times, and workers find what is collected here. The tests of a
# file share their servers, and are one worker's. Many tests wait: there are four workers, also on two processors. A test that hangs has its own limit.
export SAGAS_PROGRAM=$program PYTHONDONTWRITEBYTECODE='' PYTHONPYCACHEPREFIX="$room/compiled" HYPOTHESIS_STORAGE_DIRECTORY="$room/hypothesis"
pytest=(/usr/bin/python3 -m pytest -q -p no:cacheprovider)
"${pytest[@]}" --collect-only tests >"$room/collected" || { tail -n 50 "$room/collected"; exit 1; }
timeout --kill-after=10 2700 "${pytest[@]}" -n 4 --dist loadfile tests
