#!/bin/sh
# Run by the image of PostgreSQL when it makes the database: the role of the service, which owns nothing.
set -eu
psql --set ON_ERROR_STOP=1 --set password="$APP_PASSWORD" --username "$POSTGRES_USER" --dbname "$POSTGRES_DB" <<'END'
CREATE ROLE app LOGIN PASSWORD :'password';
END
