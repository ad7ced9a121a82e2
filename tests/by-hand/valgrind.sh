#!/usr/bin/env bash
# Runs the program under valgrind, on the examples and on hostile texts: no access to memory that is not its own, nothing that was
# not written decides anything, and nothing is left unfreed at the end. Takes a minute or two, and is no part of `./test`.
set -uo pipefail
cd "$(dirname "$0")/../.."
work=$(mktemp -d)
trap 'rm -rf "$work"' EXIT
program=$(tests/program) || exit
export work program

tests/need valgrind valgrind || exit 1

# clean WORDS..: whether a run ends by itself, and valgrind finds nothing.
clean() {
  local log input=/dev/null
  log=$(mktemp -p "$work")
  [ "$1" != - ] || { input=$2; shift 2; }
  valgrind --quiet --log-file="$log" --error-exitcode=99 --leak-check=full --show-leak-kinds=all --errors-for-leak-kinds=all \
    "$program" "$@" <"$input" >/dev/null 2>&1
  local status=$?
  [ "$status" -le 4 ] && [ ! -s "$log" ] && return
  echo "wrong: sagas $* <$input: status $status: $(head -n 1 "$log")"
}
export -f clean

# many COUNT CHARACTER: a character so often.
many() {
  head -c "$1" /dev/zero | tr '\0' "$2"
}

# The words of each run, a line each.
runs() {
  local e=examples name bytes place
  for name in order trip server licence; do
    echo "check $e/$name.toml $e/$name.case.json $e/$name.answer.json"
    echo "plan $e/$name.toml $e/$name.case.json"
    echo "draw $e/$name.toml $e/$name.case.json $e/$name.answer.json"
    echo "run $e/$name.toml"
  done
  for name in trip trip.retry order.abort order.undo; do
    echo "run --script $e/$name.script --log $work/$name.log $e/${name%%.*}.toml"
    echo "run --workers 4 --shards 2 --script $e/$name.script $e/${name%%.*}.toml $e/trip.toml $e/order.toml"
  done
  echo "audit $e/trip.log $e/trip.toml"
  echo "audit $e/trip.log $e/order.toml $e/trip.toml"
  echo "- crates/saga_tool/stdin"
  # Requests, on no log, a new one, one of before, one that is cut, and ones that are refused.
  cp $e/trip.log "$work/before.log"
  head -c -9 $e/trip.log >"$work/short.log"
  sed 's/commit/fail/' $e/trip.log >"$work/other.log"
  { cat $e/trip.requests; printf '{"do":"busy"}\n\n{\n{"do":"show","saga":0}\n'; many 70000 x; printf '\n{"do":"abort","saga":0}'; } >"$work/requests"
  echo "- $work/requests drive $e/trip.toml $e/order.toml"
  for name in new before short other; do echo "- $work/requests drive --log $work/$name.log $e/trip.toml"; done
  echo "--help"
  echo "check --help"
  echo "nothing at all"
  # Texts that are cut, or have a byte changed.
  for name in trip.toml trip.case.json trip.answer.json trip.script trip.log; do
    bytes=$(stat -c %s $e/$name)
    for place in $((bytes / 3)) $((bytes - 4)); do
      head -c $place $e/$name >"$work/cut$place.$name"
      { head -c $place $e/$name; printf '\377'; tail -c +$((place + 2)) $e/$name; } >"$work/changed$place.$name"
      for file in "$work/cut$place.$name" "$work/changed$place.$name"; do on_text "$name" "$file"; done
    done
  done
  # Texts that are nested deeply, have long keys or great numbers.
  { printf 'format = 1\nname = "a"\nstep = '; many 50000 '['; } >"$work/lists.toml"
  { printf 'format = 1\n'; many 50000 k; printf ' = 1\n'; } >"$work/key.toml"
  { printf 'format = 1\nname = "a"\nstep = [{ name = "b", run = '; many 1000 7; printf ' }]\n'; } >"$work/digits.toml"
  many 50000 '[' >"$work/lists.json"
  { printf '{"'; many 50000 k; printf '":1}'; } >"$work/key.json"
  { printf '{"kind":"blocked","chain":['; many 1000 7; printf ']}'; } >"$work/digits.json"
  for name in lists key digits; do
    on_text trip.toml "$work/$name.toml"
    for of in trip.case.json trip.answer.json trip.log; do on_text $of "$work/$name.json"; done
  done
}

# on_text NAME FILE: a run on the trip, with a file in place of the example's of that name.
on_text() {
  local e=examples
  case $1 in
    trip.toml) echo "plan $2 $e/trip.case.json" ;;
    trip.case.json) echo "plan $e/trip.toml $2" ;;
    trip.answer.json) echo "check $e/trip.toml $e/trip.case.json $2" ;;
    trip.script) echo "run --script $2 $e/trip.toml" ;;
    trip.log) echo "audit $2 $e/trip.toml" ;;
  esac
}

runs >"$work/runs"
xargs -P "$(nproc)" -I {} bash -c 'clean {}' <"$work/runs" | tee "$work/wrong"
echo "valgrind: $(wc -l <"$work/runs") runs, $(wc -l <"$work/wrong") wrong"
[ ! -s "$work/wrong" ]
