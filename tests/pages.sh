#!/usr/bin/env bash
# Runs each command that the README and the pages in docs/ show, and compares what it prints; with --site those of the documentation site.
set -uo pipefail
cd "$(dirname "$0")/.."
exec python3 tests/pages.py "$@"
