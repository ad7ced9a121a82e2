#!/usr/bin/env bash
# A worker in shell, with curl and python3 (for its JSON): the tour.
#
#     examples/service/worker.sh http://127.0.0.1:8080 [TOKEN]
set -uo pipefail
url=${1:?usage: examples/service/worker.sh URL [TOKEN]}
token=${2:-}

post() { # PATH BODY: until it is answered, since the service may be about to start again; status 1 where it is refused
  local answer
  until answer=$(curl --silent --retry 10 --retry-connrefused --retry-delay 1 --fail-with-body ${token:+-H "Authorization: Bearer $token"} \
    -H 'Content-Type: application/json' -d "$2" "$url$1"); do
    [ $? != 22 ] || { echo "$answer" >&2; return 1; }
    echo "$url does not answer: asking again and again" >&2
    sleep 1
  done
  echo "$answer"
}
first() { # the first task's attempt id, lease, idempotency key and input
  python3 -c '
import json, sys
none = dict.fromkeys(("attempt_id", "lease", "idempotency_key"), "none") | {"input": None}
task = (json.load(sys.stdin)["tasks"] or [none])[0]
print(task["attempt_id"], task["lease"], task["idempotency_key"], json.dumps(task["input"]))'
}

while true; do
  took=$(post /v1/tasks/claim '{"steps":["trip/tour"],"worker":"shell","wait":20,"lease":30}') || exit 1
  read -r task lease key input < <(first <<<"$took")
  case $task:$input in # what is done here: hand $key to other services
    none:*) continue ;;
    *'"sold-out"'*) word=fail told='"error":"the tour is sold out"' ;;
    *'"hazy"'*) word=unknown told='"error":"the line went dead"' ;;
    *) word=complete told="\"result\":\"booked under $key\"" ;;
  esac
  post "/v1/tasks/$task/$word" "{\"lease\":\"$lease\",$told}" >/dev/null
done
