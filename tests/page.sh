#!/usr/bin/env bash
# The page of dist/ in real browsers, whose pictures go to out/page, and its module in Node. Takes no kit.
set -uo pipefail
cd "$(dirname "$0")/.." || exit 1
tests/need --for page || exit 77
export SAGAS_PROGRAM PYTHONDONTWRITEBYTECODE=1
SAGAS_PROGRAM=$(tests/program) || exit 1
timeout --kill-after=10 1800 /usr/bin/python3 -m pytest -q -s -p no:cacheprovider --rootdir=tests/page tests/page
