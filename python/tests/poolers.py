"""A real PgBouncer before a server of the tests."""

from __future__ import annotations

import contextlib
import os
import shutil
import socket
import subprocess
from collections.abc import Iterator

from server import Server, free_port


@contextlib.contextmanager
def pooled(server: Server, mode: str, *more: str) -> Iterator[int]:
    """Run PgBouncer before a server, in one of its modes; return its port."""
    port = free_port()
    settings = server.folder.parent / f"pgbouncer-{port}.ini"
    lines = [
        "[databases]",
        f"* = host=127.0.0.1 port={server.port} user=owner",
        "[pgbouncer]",
        "listen_addr = 127.0.0.1",
        f"listen_port = {port}",
        "unix_socket_dir =",
        "auth_type = any",
        f"pool_mode = {mode}",
        *more,
    ]
    settings.write_text("\n".join(lines))
    settings.chmod(0o644)
    command = server._as_other("pgbouncer", str(settings))
    command[-2] = shutil.which("pgbouncer", path=f"{os.environ['PATH']}:/usr/sbin") or "pgbouncer"
    with subprocess.Popen(command, stdout=subprocess.DEVNULL, stderr=subprocess.DEVNULL) as process:
        try:
            reached = False
            while not reached and process.poll() is None:
                with contextlib.suppress(OSError):
                    socket.create_connection(("127.0.0.1", port)).close()
                    reached = True
            assert reached, "PgBouncer did not start"
            yield port
        finally:
            process.terminate()
