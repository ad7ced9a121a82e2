#!/usr/bin/env bash
# The programs and libraries of dist/ for other machines than this one. Takes no kit.
#
# The programs for x86-64 and ARM64, the latter by qemu: in a root folder that has nothing but the program and the texts that it is given; over the
# rows of tests/rows, and through conversations, random requests and kills of tests/drive.py. The library for ARM64, from C, by qemu.
# And that the objects of the release, linked with another C library, are the program: what the licence of glibc asks for.
set -uo pipefail
cd "$(dirname "$0")/.." || exit 1
top=$PWD
work=$(mktemp -d)
trap 'rm -rf "$work"' EXIT
looked=0
wrong=0

fail() {
  wrong=$((wrong + 1))
  echo "wrong: $*"
}

# runs WHAT COMMAND..: whether it ends with status 0; what it says is shown where it does not.
runs() {
  local what=$1
  shift
  looked=$((looked + 1))
  "$@" >"$work/said" 2>&1 || fail "$what: $(tail -n 20 "$work/said")"
}

# expect WHAT WANTED FOUND: compares.
expect() {
  looked=$((looked + 1))
  [ "$2" = "$3" ] || fail "$1: found '$3', wanted '$2'"
}

tests/need --for platforms || exit 77
# Each program as this machine runs it: by itself, or by qemu.
qemu=$(command -v qemu-aarch64-static)
declare -A programs=([x86_64]="$top/dist/sagas" [aarch64]="$work/aarch64")
printf '#!/bin/sh\nexec %s %s "$@"\n' "$qemu" "$top/dist/aarch64/sagas" >"$work/aarch64"
chmod +x "$work/aarch64"
case $(uname -m) in
  aarch64) programs=([aarch64]="$top/dist/aarch64/sagas") ;;
esac

# alone PROCESSOR: the program in a root folder of its own.
alone() {
  local root=$work/root-$1 run=(/sagas) enter=(chroot)
  [ "$(id -u)" = 0 ] || enter=(unshare -r chroot)
  "${enter[@]}" / true 2>/dev/null || { echo "platforms: no root folder can be entered here, so $1 is not tried alone"; return; }
  mkdir "$root"
  cp examples/trip.* examples/booking.toml "$root"
  if [ "$1" = x86_64 ]; then cp dist/sagas "$root/sagas"; else cp dist/aarch64/sagas "$root/sagas"; fi
  [ "${programs[$1]}" != "$work/aarch64" ] || { cp "$qemu" "$root/qemu"; run=(/qemu /sagas); }
  inside() { (cd "$root" && "${enter[@]}" "$root" "${run[@]}" "$@" 2>&1); }
  expect "$1 alone: check" 'least 38' "$(inside check trip.toml trip.case.json trip.answer.json)"
  expect "$1 alone: plan" "$(cat examples/trip.answer.json)" "$(inside plan trip.toml trip.case.json)"
  # (how many events there are depends on which worker is first)
  last=$(inside run --workers 4 --shards 4 --script trip.script --log run.log trip.toml trip.toml trip.toml trip.toml | tail -n 1)
  expect "$1 alone: a run by four workers" 'sagas 4 ended 4 stuck 0' "${last% events *}"
  expect "$1 alone: its audit" "yes $last" "$(inside audit run.log trip.toml trip.toml trip.toml trip.toml)"
  expect "$1 alone: drive" "$(cat "$work/driven")" "$(inside drive --log drive.log trip.toml <examples/trip.requests)"
  expect "$1 alone: drive again" '{"busy":[{"attempt":1,"name":"car","saga":0,"step":1,"task":"run"}]}' "$(echo '{"do":"busy"}' | inside drive --log drive.log)"
}

"$(tests/program)" drive --log "$work/drive.log" examples/trip.toml <examples/trip.requests >"$work/driven"
for processor in "${!programs[@]}"; do
  program=${programs[$processor]}
  begin=$SECONDS
  expect "$processor: the version" "$("$(tests/program)" --version)" "$("$program" --version)"
  alone "$processor"
  runs "$processor: rows" env SAGAS="$program" tests/rows.py
  for section in said starts random lines kills lock; do
    runs "$processor: drive, $section" python3 tests/drive.py --program "$program" --only "$section" --kills 10
  done
  echo "platforms: the program for $processor, $((SECONDS - begin)) s"
done

# The object of a release, linked anew.
runs 'the object for x86-64, linked dynamically' gcc -o "$work/dynamic" dist/sagas.o dist/runtime.o -lpthread
runs 'the object for x86-64, linked statically' gcc -static-pie -o "$work/static" dist/sagas.o dist/runtime.o
runs 'the object for ARM64, linked statically' aarch64-linux-gnu-gcc -static-pie -o "$work/arm" dist/aarch64/sagas.o dist/aarch64/runtime.o
for made in "$work/dynamic" "$work/static" "$qemu $work/arm"; do
  # shellcheck disable=SC2086 # (words)
  expect "$made" 'least 38' "$($made check examples/trip.toml examples/trip.case.json examples/trip.answer.json 2>&1)"
done

# The library for ARM64.
c=(-std=c99 -Wall -Wextra -Werror -pedantic -O1 -Idist)
runs 'C for ARM64, the archive' aarch64-linux-gnu-gcc "${c[@]}" -static -o "$work/calls" tests/library/calls.c dist/aarch64/libsagas.a -lpthread
runs 'calls of the archive for ARM64' "$qemu" "$work/calls" examples
mkdir "$work/lib"
ln -s "$top/dist/aarch64/libsagas.so" "$work/lib/libsagas.so.1"
runs 'C for ARM64, the shared library' aarch64-linux-gnu-gcc "${c[@]}" -o "$work/shared" tests/library/calls.c dist/aarch64/libsagas.so -lpthread
runs 'calls of the shared library for ARM64' "$qemu" -L /usr/aarch64-linux-gnu -E LD_LIBRARY_PATH="$work/lib" "$work/shared" examples

echo "platforms: $looked looks, $wrong wrong"
[ "$wrong" = 0 ]
