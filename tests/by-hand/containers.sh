#!/usr/bin/env bash
# Builds the image of examples/deploy and runs its compose file, without a registry: both base images are made by debootstrap. Then starts a
# saga, kills the containers of the service and of the database, starts them again, and looks whether the saga completes and is kept.
# Takes some three minutes, as root, on Debian 12 with debootstrap, podman, podman-compose, runc, containernetworking-plugins and
# golang-github-containernetworking-plugin-dnsname. It is no part of `./test`.
set -euo pipefail
cd "$(dirname "$0")/../.."
room=$(mktemp -d)
mkdir "$room/bin" "$room/database"

# (runc, and limits that a container may set, where the machine has both versions of control groups)
cat >"$room/bin/podman" <<'END'
#!/bin/sh
case $1 in
  run) shift; exec /usr/bin/podman --runtime runc run --ulimit nofile=1024:1024 --ulimit nproc=1024:1024 "$@" ;;
  *) exec /usr/bin/podman --runtime runc "$@" ;;
esac
END
chmod +x "$room/bin/podman"
export PATH=$room/bin:$PATH
export POSTGRES_IMAGE=localhost/sagas-trial-postgres SAGAS_IMAGE=localhost/sagas-trial

compose() {
  (cd examples/deploy && podman-compose --project-name sagas-trial "$@")
}

end() {
  compose down -v >/dev/null 2>&1 || true
  rm -rf "$room" examples/deploy/.env examples/deploy/tokens.toml
}

[ ! -e examples/deploy/.env ] || { echo "containers: examples/deploy/.env exists already" >&2; exit 1; }
trap end EXIT

echo "== base images"
mirror=$({ cat /etc/apt/sources.list /etc/apt/sources.list.d/*.sources 2>/dev/null || true; } | sed -n 's/^URIs: //p; s/^deb \([^ ]*\) .*/\1/p' | head -n 1)
debootstrap --variant=minbase bookworm "$room/root" "${mirror:-http://deb.debian.org/debian}" >"$room/log" 2>&1
tar -C "$room/root" -c . | podman import --change CMD=/bin/sh - localhost/sagas-trial-base >/dev/null

# A stand-in for the image of PostgreSQL, which reads the same words of its environment.
cat >"$room/database/entry" <<'END'
#!/bin/sh
set -e
data=/var/lib/postgresql/data/inside
if ! [ -d "$data" ]; then
  printf '%s\n' "$POSTGRES_PASSWORD" >/tmp/password
  initdb -D "$data" -U "$POSTGRES_USER" --pwfile=/tmp/password --auth-host=scram-sha-256 >/dev/null
  echo "host all all all scram-sha-256" >>"$data/pg_hba.conf"
  echo "CREATE DATABASE $POSTGRES_DB" | postgres --single -D "$data" postgres >/dev/null
  pg_ctl -D "$data" -w -o "-c listen_addresses= -c unix_socket_directories=/tmp" start >/dev/null
  export PGHOST=/tmp PGPASSWORD=$POSTGRES_PASSWORD
  for script in /docker-entrypoint-initdb.d/*.sh; do sh "$script"; done
  pg_ctl -D "$data" -w stop >/dev/null
fi
exec postgres -D "$data" -c listen_addresses='*' -c unix_socket_directories=/var/run/postgresql
END
chmod +x "$room/database/entry"
cat >"$room/database/Containerfile" <<'END'
FROM localhost/sagas-trial-base
RUN apt-get update && apt-get install -y --no-install-recommends postgresql && pg_dropcluster 15 main
COPY entry /entry
ENV PATH=/usr/lib/postgresql/15/bin:/usr/bin:/bin:/usr/sbin
USER postgres
ENTRYPOINT ["/entry"]
END
podman build --isolation chroot --network host -t "$POSTGRES_IMAGE" "$room/database" >"$room/log" 2>&1

echo "== image"
podman build --isolation chroot --network host --build-arg BASE=localhost/sagas-trial-base -f examples/deploy/Containerfile \
  -t "$SAGAS_IMAGE" . >"$room/log" 2>&1 || { tail -n 20 "$room/log"; exit 1; }
podman run --rm --network none "$SAGAS_IMAGE" --version

echo "== compose"
examples/deploy/setup "$SAGAS_IMAGE" >"$room/tokens"
caller=$(sed -n 's/^caller: *//p' "$room/tokens")
compose up -d >"$room/log" 2>&1

ask() {
  curl -sS -m 15 -H "Authorization: Bearer $caller" -H 'Content-Type: application/json' "$@"
}

# Asks whether the service is ready, once a second for a minute.
ready() {
  local number
  for number in $(seq 60); do
    ! curl -sf -m 2 http://127.0.0.1:8080/health/ready >/dev/null || return 0
    [ "$number" = 60 ] || sleep 1
  done
  echo "containers: the service is not ready" >&2
  exit 1
}

ready
ask -f -d '{"definition":"licence","key":"licence-1","input":{}}' http://127.0.0.1:8080/v1/sagas >/dev/null
for name in service database; do
  podman kill "sagas-trial_${name}_1" >/dev/null
  compose up -d >"$room/log" 2>&1
  ready
done
found=$(ask "http://127.0.0.1:8080/v1/sagas/licence-1/wait?seconds=10" |
  python3 -c 'import json, sys; saga = json.load(sys.stdin); print(saga["phase"], *saga["states"].values())')
echo "the saga behind two kills: $found"
[ "$found" = "completed committed committed" ]
