#!/usr/bin/env bash
# The models of models/: the functions for which their names stand, and an exhaustive search of the small configurations and of all mutants.
set -uo pipefail
cd "$(dirname "$0")/.." || exit 1
tests/need --for models || exit 77
PYTHONDONTWRITEBYTECODE=1 /usr/bin/python3 tests/models.py || exit 1
exec /usr/bin/python3 models/run quick
