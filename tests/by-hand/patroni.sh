#!/usr/bin/env bash
# Two nodes over three PostgreSQL members under Patroni, HAProxy and etcd on loopback, all of Debian's packages: a switchover, a kill of primary
# and Patroni, HAProxy away, etcd away, and the primary's Patroni frozen. A witness outside keeps what callers were told; nothing of it may be
# missing, and the longest pause of each event is printed. Takes some five minutes, as root, on Debian 12, and is no part of `./test`.
#     tests/by-hand/patroni.sh [EVENT ...]
set -uo pipefail
cd "$(dirname "$0")/../.."
for it in initdb,postgresql patroni,patroni haproxy,haproxy etcd,etcd-server python:etcd,python3-etcd python:psycopg,python3-psycopg; do
  tests/need "${it%,*}" "${it#*,}" || exit 77
done
exec env PYTHONPATH=python/src:python/tests PYTHONDONTWRITEBYTECODE=1 SAGAS_PROGRAM="$PWD/dist/sagas" /usr/bin/python3 tests/by-hand/patroni.py "$@"
