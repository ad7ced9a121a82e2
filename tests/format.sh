#!/usr/bin/env bash
# Whether each source file is laid out as the kit's formatter does it.
set -uo pipefail
cd "$(dirname "$0")/.."
command -v rt >/dev/null || exit 77
formatter=$(dirname "$(readlink -f "$(command -v rt)")")/rattle
count=0
wrong=0
for crate in crates/*/; do
  mapfile -t files < <(find "$crate"{src,specs,proofs} -name '*.rt' -o -name '*.antt' 2>/dev/null)
  [ ${#files[@]} -gt 0 ] || continue
  count=$((count + ${#files[@]}))
  if ! (cd "$crate" && "$formatter" fmt --check "${files[@]#"$crate"}"); then
    wrong=$((wrong + 1))
    echo "wrong: run 'rt fmt' in $crate"
  fi
done
echo "format: $count files, $wrong crates to be laid out"
[ "$count" -gt 0 ] && [ "$wrong" = 0 ]
