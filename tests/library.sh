#!/usr/bin/env bash
# Tests the C library of dist/ as programs use it: from C, as archive and as shared library, and with sanitizers; from C++, Rust, Python, Go, and
# JavaScript with the WebAssembly module; and as one C file, compiled here. The tests have invalid inputs, each size of a buffer, allocation
# failures and 16 threads, and compare the bytes of the library with those of the program. They need no toolchain.
set -uo pipefail
cd "$(dirname "$0")/.." || exit 1
top=$PWD
work=$(mktemp -d)
trap 'rm -rf "$work"' EXIT
looked=0
wrong=0

fail() {
  wrong=$((wrong + 1))
  echo "wrong: $*"
}

# runs WHAT COMMAND...: checks that a command exits with status 0, and shows its output if not.
runs() {
  local what=$1
  shift
  looked=$((looked + 1))
  "$@" >"$work/said" 2>&1 || fail "$what: $(tail -n 20 "$work/said")"
}

# answers WHAT COMMAND...: checks that an example plans a trip and a licence, and reports an invalid definition.
answers() {
  local what=$1 name wanted
  shift
  for name in trip licence; do
    looked=$((looked + 1))
    wanted=$([ "$name" = trip ] && echo 0 || echo 1)
    found=$("$@" "$top/examples/$name.toml" "$top/examples/$name.case.json" 2>&1; echo "$?")
    [ "$found" = "$(cat "examples/$name.answer.json")"$'\n'"$wanted" ] || fail "$what, $name: $found"
  done
  looked=$((looked + 1))
  found=$("$@" "$top/examples/trip.case.json" "$top/examples/trip.case.json" 2>&1 >/dev/null; echo "$?")
  [ "$found" = $'sagas: definition: not-toml\n3' ] || fail "$what, no definition: $found"
}

# drives WHAT COMMAND...: checks that a coordinator example replies as the program does, and reports an invalid definition.
drives() {
  local what=$1
  shift
  looked=$((looked + 2))
  "$@" examples/trip.toml <examples/trip.requests >"$work/driven" 2>&1
  "$(tests/program)" drive --lines examples/trip.toml <examples/trip.requests | cmp -s - "$work/driven" || fail "$what: $(head -n 3 "$work/driven")"
  ! "$@" examples/trip.case.json <examples/trip.requests >"$work/driven" 2>&1 || fail "$what, no definition"
}

tests/need --for library || exit 77
c=(-std=c99 -Wall -Wextra -Werror -pedantic -O1 -g -Idist)

runs 'C, the archive' cc "${c[@]}" -o "$work/static" tests/library/calls.c dist/libsagas.a -lpthread
runs 'calls of the archive' "$work/static" examples
# shellcheck disable=SC2046 # (words)
runs 'C, the shared library' cc "${c[@]}" -o "$work/shared" tests/library/calls.c $(PKG_CONFIG_PATH=dist pkg-config --cflags --libs sagas) -lpthread
mkdir "$work/lib"
ln -s "$top/dist/libsagas.so" "$work/lib/libsagas.so.1"
runs 'calls of the shared library' env LD_LIBRARY_PATH="$work/lib" "$work/shared" examples
runs 'C, under sanitizers' cc "${c[@]}" -fsanitize=address,undefined -fno-sanitize-recover=all -o "$work/sanitized" tests/library/calls.c dist/libsagas.a -lpthread
runs 'calls under sanitizers' "$work/sanitized" examples
runs 'C, memory refused' cc "${c[@]}" -o "$work/refusing" tests/library/refusing.c dist/libsagas.a -Wl,--wrap=malloc,--wrap=realloc,--wrap=free
runs 'calls with memory refused' "$work/refusing" examples
cat "$work/said"

# The calls of a coordinator: with the shared library, with sanitizers, and with each allocation refused in turn.
conversations() {
  runs "$1" env PYTHONDONTWRITEBYTECODE=1 LD_LIBRARY_PATH="$work/lib" SAGAS="$(tests/program)" "${@:4}" /usr/bin/python3 tests/library/coordinated.py "$2" "$3"
}
# shellcheck disable=SC2046 # (words)
runs 'C, a coordinator' cc "${c[@]}" -o "$work/coordinate" tests/library/coordinate.c $(PKG_CONFIG_PATH=dist pkg-config --cflags --libs sagas)
conversations 'conversations' "$work/coordinate" 200
runs 'C, a coordinator under sanitizers' cc "${c[@]}" -fsanitize=address,undefined -fno-sanitize-recover=all -o "$work/coordinate-sanitized" \
  tests/library/coordinate.c dist/libsagas.a
conversations 'conversations under sanitizers' "$work/coordinate-sanitized" 20
runs 'C, a coordinator with memory refused' cc "${c[@]}" -DREFUSING -o "$work/coordinate-refusing" tests/library/coordinate.c dist/libsagas.a \
  -Wl,--wrap=malloc,--wrap=realloc,--wrap=free
conversations 'conversations with memory refused' "$work/coordinate-refusing" 3 REFUSE=1

runs 'the example in C' cc "${c[@]}" -o "$work/plan" examples/library/plan.c dist/libsagas.a
answers 'the example in C' "$work/plan"
runs 'the example in C++' c++ -std=c++17 -Wall -Wextra -Werror -Idist -o "$work/plan++" examples/library/plan.cpp dist/libsagas.a
answers 'the example in C++' "$work/plan++"
drives 'a coordinator in Python' env PYTHONDONTWRITEBYTECODE=1 /usr/bin/python3 examples/library/coordinate.py
answers 'the example in Python' env PYTHONDONTWRITEBYTECODE=1 PYTHONPATH=python/src /usr/bin/python3 examples/library/plan.py

xz -dc dist/sagas.c.xz >"$work/sagas.c"
one_file=(cc -std=c11 -Wall -Wextra -Wno-unused -Wno-unused-parameter -Werror -O1 -fPIC -Idist)
runs 'the C file' "${one_file[@]}" -c -o "$work/sagas.o" "$work/sagas.c"
runs 'the calls of the C file' "${one_file[@]}" -o "$work/one-file" tests/library/calls.c "$work/sagas.o" -lm -lpthread
runs 'calls of the C file' "$work/one-file" examples
runs 'a coordinator, by the C file' "${one_file[@]}" -o "$work/coordinate-by-c" tests/library/coordinate.c "$work/sagas.o" -lm
conversations 'conversations, by the C file' "$work/coordinate-by-c" 100
runs 'the example in C, by the C file' "${one_file[@]}" -o "$work/plan-by-c" examples/library/plan.c "$work/sagas.o" -lm
answers 'the example in C, by the C file' "$work/plan-by-c"
runs 'the C file as a program' "${one_file[@]}" -pedantic -o "$work/engine" dist/engine.c "$work/sagas.o" -lm
runs 'the rows and conversations, by the C file' tests/library/engine.sh "$work/engine"
runs 'the C file as a library' "${one_file[@]}" -shared -o "$work/one-file.so" "$work/sagas.o" -lm
runs 'the bytes of the C file' env PYTHONDONTWRITEBYTECODE=1 SAGAS_PROGRAM="$(tests/program)" SAGAS_LIBRARY="$work/one-file.so" /usr/bin/python3 tests/library/same.py 100

cp -r examples/library/rust "$work/rust"
export SAGAS_LIBRARY_DIR=$top/dist CARGO_TARGET_DIR=$work/target
runs 'the crate in Rust' env -C "$work/rust" cargo test --offline -q
runs 'the example in Rust' env -C "$work/rust" cargo build --offline -q --example plan
answers 'the example in Rust' "$work/target/debug/examples/plan"
answers 'the example in JavaScript' node examples/library/plan.mjs
for it in plan coordinate; do
  runs "the example $it in Go" env -C examples/library GOCACHE="$work/go" GOFLAGS=-mod=mod CGO_ENABLED=1 go build -o "$work/$it-go" "$it.go"
done
answers 'the example in Go' "$work/plan-go"
drives 'a coordinator in Go' "$work/coordinate-go"

PYTHONDONTWRITEBYTECODE=1 SAGAS_PROGRAM=$(tests/program) /usr/bin/python3 tests/library/same.py 500 || fail 'the library gives other bytes than the program'
looked=$((looked + 1))
echo "library: $looked looks, $wrong wrong"
[ "$wrong" = 0 ]
