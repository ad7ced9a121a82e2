#!/usr/bin/env bash
# The prose of all pages (docs/lint), and the wording and the layout of all Python (tests/wording.py). The documentation site: its build
# with warnings as errors, links and anchors of it and of all pages in the repository, each command of its pages, and how some pages look
# in Chromium. tests/docs.sh --need only installs what builds it.
set -uo pipefail
cd "$(dirname "$0")/.." || exit 1
tests/need --for docs || exit 77
[ "${1:-}" != --need ] || exit 0
docs/lint || exit 1
PYTHONDONTWRITEBYTECODE=1 /usr/bin/python3 tests/wording.py || exit 1
PYTHONDONTWRITEBYTECODE=1 /usr/bin/python3 tests/docs.py || exit 1
tests/pages.sh --site
