#!/usr/bin/env bash
# Makes the pictures of the examples, one for each definition with its case and answer, by `sagas draw` and Graphviz's `dot`.
# With the word --check it makes none, and compares those that are there with what it would make: all but the places of things, which
# depend on the fonts and the version of Graphviz.
set -euo pipefail
cd "$(dirname "$0")/../.."

# The picture of an example.
picture() {
  ./sagas draw "examples/$1.toml" "examples/$1.case.json" "examples/$1.answer.json" | dot -Tsvg
}

# What a picture shows: its texts, shapes, colours and outlines, without places and sizes.
shown() {
  sed -E 's/<!--.*-->//; s/ (width|height|viewBox|points|d|x|y|cx|cy|rx|ry|transform|font-size|font-family)="[^"]*"//g' |
    grep -E '<(text|polygon|ellipse|path|polyline|title)'
}

wrong=0
for case in examples/*.case.json; do
  name=$(basename "$case" .case.json)
  file=docs/pictures/$name.svg
  if [ "${1-}" = --check ]; then
    cmp <(shown <"$file") <(picture "$name" | shown) || { echo "another picture: $file"; wrong=$((wrong + 1)); }
  else
    picture "$name" >"$file"
  fi
done
[ "$wrong" = 0 ]
