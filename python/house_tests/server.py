"""A PostgreSQL server on loopback."""

from __future__ import annotations

import contextlib
import glob
import os
import shutil
import socket
import subprocess
import tempfile
from collections.abc import Iterator
from pathlib import Path
from typing import Any


def free_port() -> int:
    with socket.socket() as probe:
        probe.bind(("127.0.0.1", 0))
        return int(probe.getsockname()[1])


class Server:
    """A PostgreSQL server with a data folder of its own. It does not run as root, so root starts it as `postgres`."""

    def __init__(self, folder: Path) -> None:
        self._folder = folder
        self._port = free_port()
        self._tools = Path(sorted(glob.glob("/usr/lib/postgresql/*/bin"))[-1])
        if os.getuid() == 0:
            shutil.chown(folder, "postgres")
        self._run("initdb", "--auth=trust", "--username=house", "--no-sync", "-D", folder / "data")

    def _run(self, tool: str, *words: object) -> None:
        as_user = ["runuser", "-u", "postgres", "--"] if os.getuid() == 0 else []
        with (self._folder.parent / "postgres.log").open("ab") as log:
            subprocess.run([*as_user, self._tools / tool, *words], cwd="/", stdout=log, stderr=log, check=True)

    @property
    def address(self) -> str:
        return f"postgresql://house@127.0.0.1:{self._port}/postgres"

    def start(self) -> None:
        options = f"-p {self._port} -c listen_addresses=127.0.0.1 -k {self._folder}"
        self._run("pg_ctl", "-D", self._folder / "data", "-l", self._folder / "log", "-w", "-o", options, "start")

    def stop(self, mode: str = "fast") -> None:
        self._run("pg_ctl", "-D", self._folder / "data", "-m", mode, "-w", "stop")

    def ask(self, text: str) -> Any:
        import psycopg2

        connection = psycopg2.connect(self.address)
        try:
            with connection, connection.cursor() as cursor:
                cursor.execute(text)
                return cursor.fetchall() if cursor.description else None
        finally:
            connection.close()

    def processor_seconds(self) -> float:
        """The processor's time of all its processes, those that have ended too."""
        first = int((self._folder / "data" / "postmaster.pid").read_text().split()[0])
        running = Path(f"/proc/{first}/task/{first}/children").read_text().split()
        ticks = sum(_times(first)) + sum(sum(_times(int(child))[:2]) for child in running)
        return ticks / os.sysconf("SC_CLK_TCK")


def _times(process: int) -> list[int]:
    """The ticks of a process, of the system for it, and both of the children that it has waited for."""
    fields = Path(f"/proc/{process}/stat").read_text().rpartition(")")[2].split()
    return [int(field) for field in fields[11:15]]


@contextlib.contextmanager
def running() -> Iterator[Server]:
    """A server in a temporary folder. Sockets have short paths, and `postgres` has to be able to enter the folder."""
    with tempfile.TemporaryDirectory() as folder:
        os.chmod(folder, 0o755)
        data = Path(folder) / "pg"
        data.mkdir()
        server = Server(data)
        server.start()
        try:
            yield server
        finally:
            server.stop()
