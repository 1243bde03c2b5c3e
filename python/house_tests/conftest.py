"""A house of films, a PostgreSQL server, and a Dask cluster of processes, all on loopback and all stopped at the end."""

from __future__ import annotations

import csv
import os
import random
import signal
import subprocess
import sys
import time
from collections.abc import Iterator
from pathlib import Path
from typing import Any, Optional

import pytest
import usm
from server import Server, free_port, running


@pytest.fixture(scope="session")
def running_server() -> Iterator[Server]:
    with running() as server:
        yield server


@pytest.fixture
def server(running_server: Server) -> Server:
    """The server with an empty database."""
    running_server.ask("DROP TABLE IF EXISTS usm_film, usm_streams")
    return running_server


class Cluster:
    """A scheduler and workers, each a process."""

    def __init__(self, folder: Path, workers: int) -> None:
        self._folder = folder
        self.address = f"tcp://127.0.0.1:{free_port()}"
        port = self.address.rsplit(":", 1)[1]
        self._scheduler = self._start("scheduler", "--host", "127.0.0.1", "--port", port, "--no-dashboard")
        self.workers = [self.add_worker() for _ in range(workers)]

    def _start(self, program: str, *words: str) -> subprocess.Popen[bytes]:
        with (self._folder / f"{program}.log").open("ab") as log:
            command = [sys.executable, "-m", f"distributed.cli.dask_{program}", *words]
            return subprocess.Popen(command, cwd=self._folder, stdout=log, stderr=log)

    def add_worker(self) -> subprocess.Popen[bytes]:
        words = ["--nthreads", "1", "--no-nanny", "--no-dashboard", "--host", "127.0.0.1"]
        return self._start("worker", self.address, *words)

    def kill(self, worker: subprocess.Popen[bytes]) -> None:
        worker.send_signal(signal.SIGKILL)
        worker.wait()

    def wait_for(self, workers: int) -> None:
        import distributed

        with distributed.Client(self.address, timeout=60) as client:
            client.wait_for_workers(workers, timeout=60)

    def stop(self) -> None:
        for process in [*self.workers, self._scheduler]:
            process.terminate()
        for process in [*self.workers, self._scheduler]:
            try:
                process.wait(20)
            except subprocess.TimeoutExpired:
                process.kill()
                process.wait()


@pytest.fixture
def cluster(tmp_path: Path) -> Iterator[Cluster]:
    """Three workers."""
    folder = tmp_path / "cluster"
    folder.mkdir()
    made = Cluster(folder, 3)
    made.wait_for(3)
    yield made
    made.stop()


KEYS: list[Optional[int]] = [None, 0, 0x0123456789ABCDEF, 0xFF23456789ABCDEF, 0x0123456789ABCDEE, 5]
TENANTS = [0, 1, 2, 30, 1 << 63, (1 << 64) - 1]


def make_house(folder: Path, films: int, size: int = 3000, seed: int = 1) -> Path:
    """Films and HOLDINGS. Each three films have the same streams under different keys. One film is cut, one is missing."""
    rng = random.Random(seed)
    folder.mkdir(parents=True, exist_ok=True)
    for number in range(films):
        streams = random.Random(number // 3)
        video, audio = streams.randbytes(size), streams.randbytes(size // 4)
        film = usm.pack(str(number), video, audio, video_codec=1, audio_codec=2, key=rng.choice(KEYS))
        (folder / f"{number}.usm").write_bytes(film)
    if films > 2:
        os.truncate(folder / "1.usm", 1000)
        (folder / "2.usm").unlink()
    path = folder / "holdings.csv"
    with path.open("w", newline="") as file:
        writer = csv.writer(file)
        writer.writerow(["tenant", "key", "film"])
        for number in range(films):
            for _ in range(rng.randint(1, 3)):
                key = rng.choice(KEYS)
                writer.writerow([rng.choice(TENANTS), "" if key is None else f"{key:X}", f"{number}.usm"])
    return path


class Run:
    """A run of `python3 -m usm.house`."""

    def __init__(self, *words: object) -> None:
        self._process = subprocess.Popen(
            [sys.executable, "-m", "usm.house", *map(str, words)],
            stdout=subprocess.PIPE,
            stderr=subprocess.PIPE,
            text=True,
            encoding="utf-8",
            start_new_session=True,
        )

    @property
    def is_under_way(self) -> bool:
        return self._process.poll() is None

    def workers(self) -> list[int]:
        """The processes that it has started to scan."""
        own = self._process.pid
        children = Path(f"/proc/{own}/task/{own}/children").read_text().split()
        return [int(child) for child in children if b"spawn_main" in Path(f"/proc/{child}/cmdline").read_bytes()]

    def interrupt(self) -> None:
        """What Ctrl-C does: it reaches all its processes."""
        os.killpg(self._process.pid, signal.SIGINT)

    def end(self, seconds: float = 300) -> tuple[int, str, str]:
        """Waits for its end. Returns its status, the lines of the bill, and its messages."""
        try:
            lines, messages = self._process.communicate(timeout=seconds)
        except subprocess.TimeoutExpired:
            self._process.kill()
            raise
        return self._process.returncode, lines.replace("\r\n", "\n"), messages


def wait_until(is_so: Any, seconds: float = 120) -> None:
    end = time.monotonic() + seconds
    while not is_so():
        assert time.monotonic() < end, "it did not happen in time"
        time.sleep(0.02)
