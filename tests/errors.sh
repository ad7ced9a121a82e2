#!/usr/bin/env bash
# Goes through the pages in docs/reference/errors: runs each command, in a folder that has the examples and the program, and compares what it
# prints, and its status, with the page; and looks whether each entry says what it means and what to do, and has a command or says that no
# input gives it; whether each line and word of the program's sources has an entry; and whether the tables of docs/ERRORS.md, one for each
# page, have a row for each entry of that page and no other.
set -uo pipefail
cd "$(dirname "$0")/.."
./sagas --help >/dev/null || { echo "the program is not built"; exit 1; }
pages=(docs/reference/errors/*.md)
work=$(mktemp -d)
trap 'rm -rf "$work"' EXIT
ln -s "$PWD/examples" "$work"
printf '#!/bin/sh\nexec "%s/sagas" "$@"\n' "$PWD" >"$work/sagas"
chmod +x "$work/sagas"

# The commands of the page, each with the status of its part and the lines that it prints:
#   STATUS <tab> COMMAND <tab> LINE <tab> LINE ..
commands() {
  awk '
    /^## / { status = $NF }
    /^```/ { if (open && row != "") print row; open = !open; row = ""; next }
    open && /^\$ / { if (row != "") print row; row = status "\t" substr($0, 3); next }
    open { row = row "\t" $0 }' "${pages[@]}"
}

# The entries of the pages that have neither a command nor the sentence that no input gives them, or that lack their meaning or action.
bare() {
  awk '
    function tell() { if (entry != "" && !(shown && meant && acted)) print entry }
    /^##/ { tell(); entry = ""; shown = meant = acted = 0 }
    /^## / { status = $NF }
    /^### / { entry = $0 }
    /^\*\*Meaning\.\*\*/ { meant = 1 }
    /^\*\*Action\.\*\*/ { acted = 1 }
    /^\$ / || /No input (gives|causes) it/ { shown = 1 }
    END { tell() }' "${pages[@]}"
}

# The rows of the tables, and the entries: page, line and status of each.
rows() {
  awk -F ' [|] ' '
    /^## \[.*\]\(.*\.md\)$/ { page = $0; gsub(/.*\(|\)$/, "", page) }
    /^\| `/ { line = substr($1, 3); status = $2; sub(/ \|$/, "", status); print page "\t" line "\t" status }' docs/ERRORS.md
}
headings() {
  awk '
    /^## / { status = $NF }
    /^### `/ { print substr(FILENAME, 6) "\t" substr($0, 5) "\t" status }' "${pages[@]}"
}

# What the sources of the program print: the words of its refusals and errors, the beginnings of its lines, and the replies of drive.
words() {
  grep -rhoE '=> "[a-z]+(-[a-z0-9]+)*"' crates/saga_*/src/faults.rt crates/saga_*/src/reasons.rt | sed 's/.*"\(.*\)"/\1/'
  grep -rhoE '\\"(refused|fault)\\":\\"[a-z-]+' crates/saga_drive/src | sed 's/\\"//g; s/:/: /'
  grep -rhoE --include='*.rt' '"sagas: [^"\\{]+' crates/saga_c crates/saga_serve crates/saga_texts crates/saga_tool | sed 's/^"//; s/ *$//'
}

runs=0
wrong=0
complain() {
  wrong=$((wrong + 1))
  echo "$*"
}

while IFS= read -r row; do
  IFS=$'\t' read -r -a fields <<<"$row"
  runs=$((runs + 1))
  status=${fields[0]}
  command=${fields[1]}
  wanted=$(printf '%s\n' "${fields[@]:2}")
  found=$(cd "$work" && eval "$command" 2>&1 </dev/null)
  got=$?
  case $wanted in
    *...) wanted=${wanted%...}; [[ $found == "$wanted"* ]] && found=$wanted ;;
  esac
  if [ "$found" != "$wanted" ] || [ "$got" != "$status" ]; then
    complain "wrong: $command: status $got for $status"
    printf '%s\n' "$found" | head -n 3 | sed 's/^/  printed: /'
  fi
done < <(commands)

while IFS= read -r entry; do
  complain "without an input, a meaning or an action: $entry"
done < <(bare)

while IFS= read -r row; do
  complain "a row (<) or an entry (>) alone: $row"
done < <(diff <(rows | sort) <(headings | sort) | grep '^[<>]')
awk '/^## / { close(sort); sort = "LC_ALL=C sort -c" } /^\| `/ { print | sort }' docs/ERRORS.md 2>&1 | grep . && complain "a table is not in order"

entries=$(sed -n 's/^### `\(.*\)`$/\1/p' "${pages[@]}")
while IFS= read -r word; do
  case $word in
    # A request has no list of states and no answer, so these are not replies of drive.
    "fault: kept" | "fault: wrong-length" | "fault: busy") continue ;;
  esac
  grep -qE "(^|: | )$word(\$|:? )" <<<"$entries" || complain "without an entry: $word"
done < <(words | sort -u)

echo "errors: $runs inputs, $(wc -l <<<"$entries") entries, $wrong wrong"
[ "$runs" -gt 0 ] && [ "$wrong" = 0 ]
