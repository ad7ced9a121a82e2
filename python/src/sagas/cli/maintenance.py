"""`init`, `migrate`, `prune` and `own-blobs`."""

from __future__ import annotations

import argparse
import asyncio
import sys

from sagas.base.options import age, integer_from
from sagas.base.wording import number
from sagas.cli.formatting import CANNOT, GOOD, show_json
from sagas.cli.nodes import check_database
from sagas.definition.payloads import MIN_THRESHOLD, PLAIN, check_blobs
from sagas.runtime import retention
from sagas.storage import admin, store_name
from sagas.storage.admin import Trouble
from sagas.storage.blob_layer import Blobs
from sagas.storage.folder_blobs import blobs_of
from sagas.storage.postgresql.application_name import Purpose
from sagas.storage.sqlite import storage


def add_role_option(part: argparse.ArgumentParser) -> None:
    """Add the option that names the role."""
    part.add_argument(
        "--role", metavar="NAME", help="grant this role what a node and a client need, and no more"
    )


def init(path: str, options: argparse.Namespace) -> int:
    """Create the tables of a PostgreSQL store."""
    print(create_tables(path, options.role))
    return GOOD


def migrate(path: str, options: argparse.Namespace) -> int:
    """Migrate the tables to the version of this release, as opening the store does."""
    print(
        create_tables(path, None)
        if path.startswith(store_name.SCHEMES)
        else storage.migrate_file(path)
    )
    return GOOD


def create_tables(name: str, role: str | None) -> str:
    """Create the tables, and grant a role what a node and a client need."""
    check_database(name)
    try:
        from sagas.storage.postgresql import connections, schema
    except ImportError as error:
        raise Trouble(str(store_name.missing_client(error)), CANNOT) from error
    database = connections.named(name)
    with connections.translate_errors(database):
        link = connections.connect_now(name, Purpose.ADMIN)
        try:
            before = schema.migrate(link, database)
            if role:
                schema.allow(link, role)
        finally:
            link.close()
    now = schema.VERSION
    message = (
        f"tables of version {now}"
        if before == now
        else f"tables of version {now}, {before or 'none'} before"
    )
    return f"{database}: {message}{f'; {role} may use them' if role else ''}"


def add_prune_options(part: argparse.ArgumentParser) -> None:
    """Add the options of `prune`."""
    either = part.add_mutually_exclusive_group(required=True)
    either.add_argument(
        "--older-than",
        type=age,
        metavar="TIME",
        help="delete sagas that ended at least this long ago, for example 30d or 12h",
    )
    either.add_argument(
        "--damaged-shard",
        type=integer_from(0),
        metavar="NUMBER",
        help="delete all sagas of a shard that no program can open, or whose audit failed",
    )
    part.add_argument(
        "--export",
        metavar="DIR",
        help="first write each shard into its own subfolder of DIR, and other sagas into a file",
    )


def prune(path: str, options: argparse.Namespace) -> int:
    """Delete sagas that ended before a cutoff.

    Whole closed shards are deleted first. Of other shards, sagas are deleted together with their
    child sagas, if all of them are due. Their keys can be used again. One run deletes at most
    100,000 sagas.
    """
    try:
        if options.damaged_shard is not None:
            return delete_damaged(path, options)
        deleted = retention.prune(path, options.older_than, options.export)
    except OSError as error:
        raise Trouble(f"cannot write to {options.export}: {error}", CANNOT) from error
    if deleted.other:
        raise Trouble("another program is deleting ended sagas of this store. Try again later")
    if options.json:
        show_json(
            {
                "shards": deleted.logs,
                "sagas": deleted.sagas,
                "families": deleted.families,
                "family_sagas": deleted.family_sagas,
                "refused_starts": deleted.starts,
                "more": deleted.more,
            }
        )
        return GOOD
    starts = f" and {number(deleted.starts, 'refused start')}" if deleted.starts else ""
    destination = f", exported to {options.export}" if options.export and deleted.sagas else ""
    parts = number(len(deleted.logs), "shard")
    if deleted.family_sagas:
        families = number(deleted.families, "family", "families")
        parts += f", and {families} of other shards"
    print(f"deleted {number(deleted.sagas, 'saga')} ({parts}){starts}{destination}")
    if deleted.more:
        print("more sagas are due: run the command again", file=sys.stderr)
    return GOOD


def delete_damaged(path: str, options: argparse.Namespace) -> int:
    """Delete the sagas of a damaged shard."""
    count = retention.delete_damaged(path, options.damaged_shard, options.export)
    if options.json:
        show_json({"shard": options.damaged_shard, "sagas": count})
        return GOOD
    destination = f", exported to {options.export}" if options.export else ""
    print(f"deleted {number(count, 'saga')} of shard {options.damaged_shard}{destination}")
    return GOOD


SECRET = "SELECT value FROM secrets WHERE name = 'leases'"


def add_blobs_option(part: argparse.ArgumentParser) -> argparse.ArgumentParser:
    """Add the option; return the parser."""
    help_text = "where the values are: a directory, or a blob store of a module"
    part.add_argument("--blobs", metavar="DIR|MODULE:NAME", required=True, help=help_text)
    return part


def own_blobs(path: str, options: argparse.Namespace) -> int:
    """Make this store the owner of the values in a blob store.

    Use this for a store that was restored or copied and replaces the original one. First stop
    the original, or give it another blob store. From then on, this store deletes values that
    none of its rows refers to.
    """
    try:
        store = blobs_of(options.blobs)
        check_blobs(store, MIN_THRESHOLD)
    except (ValueError, TypeError) as error:
        raise Trouble(str(error), 2) from error
    with admin.writing(path) as link:
        name, rows = link.name, link.ask(SECRET)
    if not rows:
        raise Trouble(f"{name}: no program has opened this store with a blob store", CANNOT)
    blobs = Blobs(store, MIN_THRESHOLD, PLAIN, name)
    asyncio.run(blobs.mark(path, bytes.fromhex(rows[0][0])).take())
    if options.json:
        show_json({"store": name, "blobs": options.blobs})
    else:
        print(f"{name} owns the values in {options.blobs}")
    return GOOD
