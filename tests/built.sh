#!/usr/bin/env bash
# Whether the program that was built here, as by `rt ci`, is the release's object, linked as rt links it, byte for byte, and the release's program that
# object; and, in the gate, whether the libraries for both processors, module, page and C file, made anew of the crates that were built here, are the
# release. (The second proves saga_c: ./test --quick leaves it out. The program for ARM64 is not made anew, since saga_tool would be proved once
# more for it, for minutes: its digest is compared, tests/platforms.sh runs it, and ./release --arm64 makes it anew.)
#
# Another kit of the same logic than the release was made with may link other bytes. Where it does, the program that was built here runs the
# rows of tests/rows instead, as the release did before the proofs; tests/library.sh compares what the library of dist/ says with what it says.
set -uo pipefail
cd "$(dirname "$0")/.." || exit 1
program=crates/saga_tool/out/saga_tool
command -v rt >/dev/null || exit 77
tests/need --for built || exit 77
[ -x "$program" ] || { echo "built: no program was built here"; exit 77; }
[ -z "$(./sources --newer "$program" saga_tool)" ] || { echo "built: the program that was built here is older than its sources"; exit 77; }
status=0
./release --built && { [ -n "${QUICK:-}" ] || ./release --library; } || status=$?
[ "$status" != 77 ] || SAGAS=$PWD/$program exec tests/rows.py
exit "$status"
