"""Measures what the bill of a house costs, for docs/SCALE.md.

    python3 python/measure_house.py FOLDER [scans] [bills] [memory] [rates]

Without a word after FOLDER all four are measured. FOLDER must not exist; it takes some GB, and is removed. It should be in
memory (/dev/shm), so that no time is spent waiting for a disk. Each measurement is made in a process of its own, in seconds of
the processor, so that other work on the machine matters little; only `rates` needs an idle machine, since it goes by the
clock. FILMS in the environment is the number of films for `rates`. A PostgreSQL server is started on loopback, and stopped at
the end; its processor time is shown separately.
"""

from __future__ import annotations

import json
import os
import random
import shutil
import statistics
import subprocess
import sys
import time
from collections.abc import Iterable, Iterator
from pathlib import Path
from typing import Any, Callable, NamedTuple, Optional

HERE = Path(__file__).resolve().parent
sys.path.insert(0, str(HERE / "house_tests"))

import usm  # noqa: E402
from server import Server, running  # noqa: E402
from usm.house import __main__ as house  # noqa: E402
from usm.house._database import Database  # noqa: E402
from usm.house._work import work  # noqa: E402

KEYS = [0x0123456789ABCDEF * number % (1 << 64) for number in range(1, 8)]
FILMS_OF_A_TASK = 64


class Usage(NamedTuple):
    """What a process took: the processor's seconds, and at most so many MiB of memory."""

    seconds: float
    mebibytes: float


def usage(act: Callable[[], Any]) -> Usage:
    """What an act takes, in a process of its own."""
    child = os.fork()
    if child == 0:
        try:
            act()
            os._exit(0)
        except BaseException as error:
            print(error, file=sys.stderr, flush=True)
            os._exit(1)
    _, status, used = os.wait4(child, 0)
    if status != 0:
        raise SystemExit("a measurement failed")
    return Usage(used.ru_utime + used.ru_stime, used.ru_maxrss / 1024)


class Kept:
    """An empty database to measure, and what its server takes beside the process that asks."""

    def __init__(self, folder: Path, server: Optional[Server]) -> None:
        self._file = folder / "house.sqlite"
        self._server = server
        self.name = "PostgreSQL" if server else "SQLite"
        self.database = Database(server.address if server else str(self._file))
        self.clear()
        self.database.create()

    def clear(self) -> None:
        if self._server:
            self._server.ask("DROP TABLE IF EXISTS usm_film, usm_streams")
        else:
            self._file.unlink(missing_ok=True)

    def measured(self, act: Callable[[], Any]) -> tuple[Usage, float]:
        """What an act takes here, and the seconds that the server takes for it."""
        before = self._server_seconds()
        used = usage(act)
        return used, self._server_seconds() - before

    def _server_seconds(self) -> float:
        if self._server is None:
            return 0.0
        # Until a connection's process has ended, its time is not counted.
        time.sleep(0.3)
        return self._server.processor_seconds()

    def bytes(self) -> int:
        if self._server is None:
            return self._file.stat().st_size
        sizes = self._server.ask("SELECT pg_total_relation_size('usm_film') + pg_total_relation_size('usm_streams')")
        return int(sizes[0][0])


def databases(folder: Path, server: Server) -> Iterator[Kept]:
    for each in (None, server):
        kept = Kept(folder, each)
        yield kept
        kept.clear()


def make_film(path: Path, number: int, size: int) -> None:
    """A film, nine tenths of it video. Every two have the same streams."""
    streams = random.Random(number // 2)
    video, audio = streams.randbytes(size * 9 // 10), streams.randbytes(size // 10)
    path.write_bytes(usm.pack("film", video, audio, video_codec=1, audio_codec=2, key=KEYS[number % 2]))


def make_films(folder: Path, count: int, size: int) -> list[str]:
    folder.mkdir()
    paths = [folder / f"{number}.usm" for number in range(count)]
    for number, path in enumerate(paths):
        make_film(path, number, size)
    return [str(path) for path in paths]


def scans(folder: Path, server: Server) -> Iterator[str]:
    """Films that are scanned under one key and under three, and asked for again."""
    yield "films   bytes of a film  keys  database     first: ms/film  server  again: ms/film  server  database: bytes/film"
    for count, size in ((10, 1_000_000), (100, 1_000_000), (1000, 1_000_000), (1000, 100_000), (10_000, 100_000)):
        films = make_films(folder / "films", count, size)
        for keys in (1, 3):
            wanted: list[Any] = [(film, KEYS[:keys]) for film in films]
            for kept in databases(folder, server):
                (first, served), (again, served_again) = (
                    kept.measured(lambda: work_through(kept.database, wanted)) for _ in range(2)
                )
                times = [1000 * seconds / count for seconds in (first.seconds, served, again.seconds, served_again)]
                yield (
                    f"{count:6}  {size:14}  {keys:4}  {kept.name:10}  {times[0]:15.3f}  {times[1]:6.3f}"
                    f"  {times[2]:14.3f}  {times[3]:6.3f}  {kept.bytes() / count:20.0f}"
                )
        shutil.rmtree(folder / "films")


def work_through(database: Database, wanted: list[Any]) -> None:
    for start in range(0, len(wanted), FILMS_OF_A_TASK):
        work(database, wanted[start : start + FILMS_OF_A_TASK])


def write_holdings(path: Path, held: Iterable[tuple[int, int]]) -> None:
    """HOLDINGS of films, by their numbers, and keys. The tenants are a thousand."""
    rng = random.Random(1)
    with path.open("w") as file:
        file.write("tenant,key,film\n")
        for film, key in held:
            file.write(f"{rng.randrange(1000)},{key:016X},{path.parent}/films/{film}.usm\n")


def spread(count: int, films: int) -> Iterator[tuple[int, int]]:
    """So many holdings, spread over the films and three keys."""
    return ((line % films, KEYS[line % 3]) for line in range(count))


def bills(folder: Path, server: Server) -> Iterator[str]:
    """HOLDINGS read, and bills written, of houses whose films are known: five holdings a film, by a thousand tenants."""
    yield "holdings   films  database     seconds  server    lines  MiB at most"
    for count in (1_000, 10_000, 100_000, 1_000_000):
        films = count // 5
        write_holdings(folder / "holdings.csv", spread(count, films))
        for kept in databases(folder, server):
            fill(kept.database, folder / "films", films)
            bill = folder / "bill.csv"
            used, served = kept.measured(lambda: write_bill(kept.database, folder / "holdings.csv", bill))
            lines = sum(1 for _ in bill.open()) - 1
            yield (
                f"{count:8}  {films:6}  {kept.name:10}  {used.seconds:8.2f}  {served:6.2f}  {lines:7}"
                f"  {used.mebibytes:11.0f}"
            )


def write_bill(database: Database, holdings: Path, to: Path) -> None:
    """What `python3 -m usm.house` does before and after the films are scanned."""
    sys.stdout = to.open("w")
    with house.read_holdings(str(holdings)) as held:
        house.bill(database, held)
    sys.stdout.flush()


def fill(database: Database, folder: Path, films: int) -> None:
    """What a scan would have found: every two films the same."""
    for start in range(0, films, 1000):
        found = {
            f"{folder}/{number}.usm": usm._scan.Scan(
                usm._scan.Identity(1_000_000, 1),
                {key: usm.Digests(digest(number, key), digest(number, key)) for key in KEYS[:3]},
            )
            for number in range(start, min(start + 1000, films))
        }
        database.do(lambda books: books.keep(found))


def digest(number: int, key: int) -> usm.Digest:
    return usm.Digest(500_000, random.Random(f"{number // 2} {key}").randbytes(32).hex())


def memory(folder: Path, server: Server) -> Iterator[str]:
    """usm.bill by itself, which gives all lines in a list: a thousand films of 3 KB."""
    yield "holdings   films    seconds    lines  MiB at most"
    make_films(folder / "films", 1000, 3000)
    for count in (10_000, 100_000, 1_000_000):
        path = folder / "holdings.csv"
        write_holdings(path, spread(count, 1000))
        counted = folder / "lines"
        used = usage(lambda: counted.write_text(str(len(usm.bill(path).lines))))
        yield f"{count:8}    1000  {used.seconds:9.2f}  {counted.read_text():>7}  {used.mebibytes:11.0f}"
    shutil.rmtree(folder / "films")


# The processor's time of the process that asks, and of the workers that it starts and waits for.
APART = """
import json, resource, sys, time
if __name__ == "__main__":
    from usm.house.__main__ import main
    start = time.monotonic()
    main(sys.argv[1:])
    seconds = time.monotonic() - start
    used = [resource.getrusage(who) for who in (resource.RUSAGE_SELF, resource.RUSAGE_CHILDREN)]
    print(json.dumps([seconds, *(each.ru_utime + each.ru_stime for each in used)]), file=sys.stderr)
"""


def rates(folder: Path, server: Server) -> Iterator[str]:
    """Two workers and one. Two processes that only scan, and share nothing, show what the machine itself can give."""
    films, size, keys = int(os.environ.get("FILMS", 1800)), 4_000_000, 5
    paths = make_films(folder / "films", films, size)
    write_holdings(folder / "holdings.csv", ((film, key) for film in range(films) for key in KEYS[:keys]))
    (folder / "apart.py").write_text(APART)
    wanted = [(path, KEYS[:keys]) for path in paths]
    yield f"{films} films of {size} bytes under {keys} keys"
    yield "what         processes  seconds  processor: coordinator, workers"
    alone: dict[int, list[float]] = {1: [], 2: []}
    house_seconds: dict[int, list[float]] = {1: [], 2: []}
    for _ in range(3):
        for count in (1, 2):
            alone[count].append(side_by_side(folder, wanted, count))
            yield f"scans alone  {count:9}  {alone[count][-1]:7.2f}"
        for count in (1, 2):
            seconds, own, workers = house_run(folder, count)
            house_seconds[count].append(seconds)
            yield f"usm.house    {count:9}  {seconds:7.2f}  {own:22.2f}, {workers:.2f}"
    for what, taken in (("scans alone", alone), ("usm.house", house_seconds)):
        yield f"{what}: two are {statistics.median(taken[1]) / statistics.median(taken[2]):.2f} times as fast as one"
    shutil.rmtree(folder / "films")


def side_by_side(folder: Path, wanted: list[Any], count: int) -> float:
    """The seconds by the clock of so many processes that share the films, each with a database of its own."""
    parts = []
    for part in range(count):
        database = Database(str(folder / f"part{part}.sqlite"))
        database.create()
        parts.append((database, wanted[part::count]))
    start = time.monotonic()
    children = []
    for database, films in parts:
        child = os.fork()
        if child == 0:
            work_through(database, films)
            os._exit(0)
        children.append(child)
    ended = [os.waitpid(child, 0)[1] for child in children]
    seconds = time.monotonic() - start
    for database, _ in parts:
        os.unlink(database.address)
    if any(ended):
        raise SystemExit("a scan failed")
    return seconds


def house_run(folder: Path, workers: int) -> tuple[float, float, float]:
    """Seconds by the clock, and of the processor: the coordinator's own, and those of all workers."""
    command = [sys.executable, folder / "apart.py", folder / "holdings.csv", "--workers", str(workers)]
    # The temporary database is where the films are.
    result = subprocess.run(
        command,
        stdout=subprocess.DEVNULL,
        stderr=subprocess.PIPE,
        env={**os.environ, "TMPDIR": str(folder)},
        text=True,
        check=True,
    )
    seconds, own, all_workers = json.loads(result.stderr.splitlines()[-1])
    return seconds, own, all_workers


MEASUREMENTS: dict[str, Callable[[Path, Server], Iterator[str]]] = {
    "scans": scans,
    "bills": bills,
    "memory": memory,
    "rates": rates,
}


def main(folder: Path, words: list[str]) -> None:
    folder.mkdir(parents=True)
    try:
        with running() as server:
            for word in words or MEASUREMENTS:
                print(word, flush=True)
                for line in MEASUREMENTS[word](folder, server):
                    print(line, flush=True)
    finally:
        shutil.rmtree(folder)


if __name__ == "__main__":
    main(Path(sys.argv[1]).absolute(), sys.argv[2:])
