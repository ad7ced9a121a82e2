#!/usr/bin/env bash
# Refuses growths of memory, one after another, to the program and to public calls (tests/memory.py). Ends with 77, behind the program's
# commands, where the trials of the calls cannot be built.
set -uo pipefail
tests=$(dirname "$0")
"$tests/need" --for memory || exit 77
SAGAS=${SAGAS:-$("$tests/program" --dynamic)} || exit
export SAGAS
[ "${1:-}" != commands ] || exec python3 "$tests/memory.py" commands
TRIALS=$("$tests/trials")
status=$?
case $status in
  0) TRIALS=$TRIALS exec python3 "$tests/memory.py" ;;
  77) python3 "$tests/memory.py" commands || exit 1 ;;
esac
exit $status
