#!/usr/bin/env bash
# The calls as one C file, dist/sagas.c.xz, by several compilers: gcc and clang, gcc for ARM64 (run by qemu), and gcc with sanitizers. Each is called as
# tests/library/calls.c calls the library, with faults, each buffer and threads, and is a program that answers the rows and conversations of the program,
# byte for byte (tests/library/engine.sh), clang's also as on a system that has nothing but C11. The first two are compared with the program over deep texts
# and texts at random. LEVEL=-O0 makes it quick. Takes some 20 minutes; tests/library.sh, a part of `./test`, has the first of them.
set -uo pipefail
cd "$(dirname "$0")/../.." || exit 1
program=$(tests/program) || exit 1
work=$(mktemp -d)
trap 'rm -rf "$work"' EXIT
wrong=0
for it in gcc,gcc clang,clang aarch64-linux-gnu-gcc,gcc-aarch64-linux-gnu qemu-aarch64-static,qemu-user-static xz,xz-utils; do
  tests/need "${it%,*}" "${it#*,}" || exit 1
done
xz -dc dist/sagas.c.xz >"$work/sagas.c"
strict=(-std=c11 -Wall -Wextra -Wno-unused -Wno-unused-parameter "${LEVEL:--O1}" -Idist)

# fail WHAT: says it.
fail() {
  wrong=$((wrong + 1))
  echo "wrong: $*"
}

# called NAME RUNNER COMPILER WORD..: compiles the C file, and builds and runs tests/library/calls.c and the program with it.
called() {
  local name=$1 runner=$2
  shift 2
  "$@" -c -o "$work/$name.o" "$work/sagas.c" || { fail "$name"; return; }
  if "$@" -o "$work/$name" tests/library/calls.c "$work/$name.o" -lm -lpthread && $runner "$work/$name" examples >"$work/said" 2>&1; then
    echo "c_file: $name: $(tail -n 1 "$work/said")"
  else
    fail "$name: $(tail -n 5 "$work/said")"
  fi
  coordinator "$name" "$runner" "$@"
  engine "$name" "$runner" "$@"
}

# coordinator NAME RUNNER COMPILER WORD..: the calls of a coordinator, with buffers of several sizes.
coordinator() {
  local name=$1 runner=$2
  shift 2
  "$@" -o "$work/$name.coordinate" tests/library/coordinate.c "$work/$name.o" -lm || { fail "$name: a coordinator"; return; }
  printf '#!/bin/sh\nexec %s %s "$@"\n' "$runner" "$work/$name.coordinate" >"$work/$name.calls"
  chmod +x "$work/$name.calls"
  if SAGAS=$program /usr/bin/python3 -B tests/library/coordinated.py "$work/$name.calls" 100 >"$work/said" 2>&1; then
    echo "c_file: $name: $(tail -n 1 "$work/said")"
  else
    fail "$name: a coordinator: $(tail -n 5 "$work/said")"
  fi
}

# engine NAME RUNNER COMPILER WORD..: the program over the object that was compiled.
engine() {
  local name=$1 runner=$2
  shift 2
  "$@" -pedantic -o "$work/$name.engine" dist/engine.c "$work/$name.o" -lm || { fail "$name: the program"; return; }
  printf '#!/bin/sh\nexec %s %s "$@"\n' "$runner" "$work/$name.engine" >"$work/$name.run"
  chmod +x "$work/$name.run"
  if tests/library/engine.sh "$work/$name.run" >"$work/said" 2>&1; then
    echo "c_file: $name: $(grep -E '^(rows|drive):' "$work/said" | tr '\n' ';')"
  else
    fail "$name: the program: $(grep -v ', 0 wrong' "$work/said" | head -n 10)"
  fi
}

for compiler in gcc clang; do
  called "$compiler" '' "$compiler" "${strict[@]}" -fPIC
  "$compiler" "${strict[@]}" -shared -o "$work/$compiler.so" "$work/$compiler.o" -lm || exit 1
  SAGAS_LIBRARY=$work/$compiler.so SAGAS_PROGRAM=$program /usr/bin/python3 -B tests/library/same.py "${1:-500}" || fail "$compiler: same.py"
done
engine clang '' clang "${strict[@]}" -U__unix__ -U__APPLE__
called arm64 qemu-aarch64-static aarch64-linux-gnu-gcc "${strict[@]}" -static
# (what the sanitizers add takes more stack than sagas.h asks for)
called sanitized '' gcc "${strict[@]}" -DSTACK=8388608 -fsanitize=address,undefined -fno-sanitize-recover=all
[ "$wrong" = 0 ]
