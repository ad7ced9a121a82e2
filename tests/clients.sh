#!/usr/bin/env bash
# The clients of clients/: their layout, types, packages and own tests, and the suite that each of them passes at a real service.
set -uo pipefail
cd "$(dirname "$0")/.." || exit 1
tests/need --for clients || exit 77
export SAGAS_PROGRAM PYTHONDONTWRITEBYTECODE=1
SAGAS_PROGRAM=${SAGAS:-$(tests/program)} || exit 1
room=$(mktemp -d)
trap 'chmod -R u+w "$room"; rm -rf "$room"' EXIT
export GOCACHE=$room/go GOFLAGS=-mod=mod GOPROXY=off npm_config_cache=$room/npm npm_config_update_notifier=false
wrong=0

# expect WHAT COMMAND ..: the command succeeds; otherwise its output is shown.
expect() {
  local what=$1
  shift
  if ! "$@" >"$room/out" 2>&1; then
    wrong=$((wrong + 1))
    echo "wrong: $what"
    cat "$room/out"
  fi
}

laid_out() { [ -z "$(gofmt -l clients/go | tee /dev/stderr)" ]; }

node_package() {
  (cd clients/node && node pack.mjs && tsc --project test && node --test test/) || return
  (cd clients/node && npm pack --dry-run --json --ignore-scripts) >"$room/pack" || return
  python3 - "$room/pack" <<'END'
import json, pathlib, sys
packed = json.load(open(sys.argv[1]))[0]
names = {one["path"] for one in packed["files"]}
wanted = {"LICENSE", "README.md", "index.js", "index.d.ts", "planner.js", "planner.d.ts", "wasm/sagas.mjs", "wasm/sagas.wasm", "package.json"}
lib = {f"lib/{path.name}" for path in pathlib.Path("clients/node/lib").iterdir()}
version = f'"{packed["version"]}"' in pathlib.Path("crates/saga_tool/src/words.rt").read_text()
sys.exit(0 if version and names == wanted | lib else f"the package has {sorted(names ^ (wanted | lib))} too much or too little, or another version than the program")
END
}

go_module() { (cd clients/go && go vet ./... && go test ./...); }

java_jar() {
  clients/java/build "$room/sagas.jar" || return
  jar --list --file "$room/sagas.jar" >"$room/jar" && ! grep -v '^sagas/\|META-INF/\|LICENSE' "$room/jar" | grep '[.]class' || return
  grep -q "$(sed -n 's|^  <version>\(.*\)</version>$|\"\1\"|p' clients/java/pom.xml)" crates/saga_tool/src/words.rt || {
    echo 'clients/java/pom.xml has another version than the program'
    return 1
  }
}

# Each public member has a comment, and no comment has an error. (What a member returns is its first sentence.)
java_documentation() {
  local jackson=/usr/share/java/jackson
  javadoc -quiet -Xdoclint:all -Xmaxwarns 9999 -d "$room/javadoc" -cp "$jackson-annotations.jar:$jackson-core.jar:$jackson-databind.jar" \
    clients/java/src/main/java/sagas/*.java >"$room/doclint" 2>&1 || { cat "$room/doclint"; return 1; }
  ! grep 'error: \|warning: ' "$room/doclint" | grep -v 'warning: no @'
}

(
  expect 'the package of Node' node_package
  if [ -f clients/go/go.mod ]; then
    expect 'gofmt -l clients/go' laid_out
    expect 'the module of Go' go_module
  fi
  expect 'the jar of Java' java_jar
  expect 'the documentation of Java' java_documentation
  exit "$wrong"
) &
others=$!
PYTHONPATH=python/src:python/tests:clients/contract timeout --kill-after=10 900 \
  /usr/bin/python3 -m pytest -q -p no:cacheprovider --tb=short --rootdir=clients/contract -n 2 --dist loadgroup clients/contract || wrong=1
wait "$others" || wrong=1
[ "$wrong" = 0 ]
