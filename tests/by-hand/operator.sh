#!/usr/bin/env bash
# An operator's day over two services and PostgreSQL: stuck sagas, a lost answer, a release that is rolled back, a node that is drained, an outage
# of the database, a restore from a backup, and the erasure of a person's data. Only commands of `sagas` and requests to the service are used.
# It prints each step of the operator, and how many each event took; it fails if one has another effect than the docs say. Takes some minutes,
# on Debian 12, and is no part of `./test`.
#     tests/by-hand/operator.sh [EVENT ...]
set -uo pipefail
cd "$(dirname "$0")/../.."
for it in initdb,postgresql python:psycopg,python3-psycopg python:httpx,python3-httpx python:uvicorn,python3-uvicorn; do
  tests/need "${it%,*}" "${it#*,}" || exit 77
done
exec env PYTHONPATH=python/src:python/tests PYTHONDONTWRITEBYTECODE=1 SAGAS_PROGRAM="$PWD/dist/sagas" /usr/bin/python3 tests/by-hand/operator_day.py "$@"
