#!/usr/bin/env bash
# The program of the C file, over the rows of tests/rows and the conversations of tests/drive.py, byte for byte: tests/library/engine.sh ENGINE [SECTION..]
# Left out is what that program does not do: it reads no certificate from standard input, keeps neither a log nor definitions beside it, and adds no
# definitions while it runs (--fixed-shelf: rows that need `define` give way to those that need a fixed shelf). A log is kept for it by keeping.py. The
# sections are said, random and lines, where none is named.
set -uo pipefail
cd "$(dirname "$0")/../.." || exit 1
[ $# -ge 1 ] || { echo "usage: tests/library/engine.sh ENGINE [SECTION..]" >&2; exit 2; }
work=$(mktemp -d)
trap 'rm -rf "$work"' EXIT
engine=$(realpath "$1")
shift
status=0
printf '#!/bin/sh\nexec %s %s "$@"\n' "$PWD/tests/library/keeping.py" "$engine" >"$work/kept"
chmod +x "$work/kept"

SAGAS=$engine tests/rows.py --fixed-shelf plan check draw audit/changed audit/histories audit/limits audit/logs audit/program || status=1
SAGAS=$work/kept tests/rows.py --fixed-shelf drive/attempts drive/conversations drive/lines drive/many drive/openings drive/questions drive/restarts drive/taking || status=1
[ $# -gt 0 ] || set -- said random lines
for section; do
  python3 tests/drive.py --program "$work/kept" --fixed-shelf --only "$section" || status=1
done
exit "$status"
