#!/usr/bin/env bash
# A thousand kills of `sagas drive` at random moments, or as many as the first word says, from the seed of the second one: what was
# told is in the log, the log is legal, and all sagas end as without kills. Takes some minutes, and is no part of `./test`.
set -uo pipefail
cd "$(dirname "$0")/../.."
exec tests/drive.sh --only kills --kills "${1:-1000}" --seed "${2:-1}"
