#!/usr/bin/env bash
# The mutants of crates, as texts: each can be applied, each twin too, the ledger crates/mutants.csv can be read; and the tests of what runs
# them (tests/gate/test_*.py). It proves nothing, but for the mutants of one small crate where the toolchain is there.
set -uo pipefail
cd "$(dirname "$0")/.." || exit 1
tests/need --for mutants || exit 77
PYTHONDONTWRITEBYTECODE=1 /usr/bin/python3 tests/gate --read || exit 1
PYTHONDONTWRITEBYTECODE=1 exec /usr/bin/python3 -m pytest -q -p no:cacheprovider --rootdir=tests/gate tests/gate
