#!/usr/bin/env bash
# Compares the pictures in docs/pictures with what `sagas draw` and Graphviz's `dot` make of the examples, and the plots there with what
# bench/plots.py makes of the results. The picture of the dashboard has its texts in it: they are those that `sagas demo` shows.
set -uo pipefail
cd "$(dirname "$0")/.."
tests/need --for pictures || exit 77
export PYTHONDONTWRITEBYTECODE=1
docs/pictures/make.sh --check && python3 bench/plots.py --check && /usr/bin/python3 docs/pictures/dashboard --check &&
  echo "pictures: $(ls docs/pictures/*.svg docs/pictures/*.png | wc -l), none of them another"
