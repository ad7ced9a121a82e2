#!/usr/bin/env bash
# What clients do to a service that mean it no good, and what it answers: tests/by-hand/attacks.sh [KIND ...]
# Without a kind, all of them. Takes three minutes, and is no part of `./test`. Small forms of each are tests in
# python/tests: test_service_places.py, test_deep_values.py, test_service_secrets.py and test_service_webhooks.py.
set -uo pipefail
cd "$(dirname "$0")/../.."
export PYTHONPATH=$PWD/python/src SAGAS_PROGRAM=${SAGAS_PROGRAM:-$PWD/dist/sagas}
exec "${PYTHON:-python3}" tests/by-hand/attacks.py "$@"
