#!/usr/bin/env bash
# Drives `sagas drive` (tests/drive.py): conversations, logs at the start, random requests, full logs, kills, power cuts, logs cut and changed at each byte,
# writes and growths of memory refused in turn, the lock, and the booking services of examples/.
#
# SAGAS names another program; further words go to tests/drive.py.
set -uo pipefail
cd "$(dirname "$0")/.."
work=$(mktemp -d)
trap 'rm -rf "$work"' EXIT

tests/need --for drive || exit 77
for library in unwritten power refusing; do
  gcc -O2 -shared -fPIC -o "$work/$library.so" tests/$library.c || { echo "the library $library is not built"; exit 1; }
done
program=${SAGAS:-$(tests/program --dynamic)} || exit
python3 tests/drive.py --program "$program" --libraries "$work" "$@"
