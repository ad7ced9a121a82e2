#!/usr/bin/env bash
# Compares the pages in docs/dev/definitions and docs/dev/promises with the crates: tests/definitions.py says how.
set -uo pipefail
exec python3 "$(dirname "$0")/definitions.py"
