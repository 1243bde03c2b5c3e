"""`python3 -m usm.house`: the bill of a house, with films scanned by many processes or many machines."""

from __future__ import annotations

import argparse
import contextlib
import os
import shutil
import sqlite3
import sys
import tempfile
import time
from collections.abc import Iterator
from typing import IO, NamedTuple, Optional

from usm._bill import write_csv
from usm._books import Books
from usm._held import Held
from usm._holdings import WrongHoldings, in_csv
from usm.house._database import Database, absolute
from usm.house._places import Folder
from usm.house._tasks import Tasks
from usm.house._work import NOTHING
from usm.house._workers import Cluster, Processes, Workers

WELL, INCOMPLETE, TROUBLE, INTERRUPTED = 0, 1, 2, 130


def say(text: str) -> None:
    print(f"usm.house: {text}", file=sys.stderr, flush=True)


class Arguments(NamedTuple):
    holdings: str
    scheduler: Optional[str]
    database: Optional[str]
    workers: int


def arguments(words: list[str]) -> Arguments:
    parser = argparse.ArgumentParser(
        prog="python3 -m usm.house",
        description="Makes the bill of a house as `usm bill --csv` does, with films scanned by many processes at once:"
        " the workers of a Dask cluster, or processes on this machine.",
    )
    add = parser.add_argument
    add("holdings", metavar="HOLDINGS", help="who holds which film under which key, a CSV file as `usm bill` takes it")
    add("--scheduler", metavar="ADDRESS", help="the scheduler of a Dask cluster; without it this machine does the work")
    add("--database", metavar="URL", help="postgresql://.. or a SQLite file, which keeps what is found; else a temporary file")
    add(
        "--workers",
        metavar="N",
        type=_one_or_more,
        default=os.cpu_count(),
        help="how many processes this machine starts; else one for each processor",
    )
    return Arguments(**vars(parser.parse_args(words)))


def _one_or_more(word: str) -> int:
    if not (word.isascii() and word.isdigit() and int(word) > 0):
        raise argparse.ArgumentTypeError(f"{word!r} is not a number of 1 or more")
    return int(word)


def read_holdings(path: str) -> Held:
    """The holdings, with paths that every worker can use."""
    folder = Folder(os.path.dirname(os.path.abspath(path)))
    with open(path, "rb") as file:
        return Held(holding._replace(film=folder.resolved(holding.film)) for holding in in_csv(file))


def workers(asked: Arguments) -> Workers:
    if asked.scheduler is None:
        return Processes(asked.workers)
    return Cluster(asked.scheduler)


@contextlib.contextmanager
def database(asked: Arguments) -> Iterator[Database]:
    """The database, or a temporary one."""
    if asked.database is not None:
        yield Database(absolute(asked.database))
        return
    with tempfile.TemporaryDirectory() as folder:
        yield Database(os.path.join(folder, "house.sqlite"))


def write_bill(books: Books, held: Held, lines: IO[str], troubles: IO[str]) -> int:
    """Writes the lines of the bill, and what could not be billed. Returns how many films could not."""
    for file in (lines, troubles):
        file.seek(0)
        file.truncate()
    books.hold(held.rows())
    write_csv(books.lines(), lines)
    films = set()
    for line, tenant, film, why in books.unbilled():
        films.add(film)
        troubles.write(f"usm.house: line {line}: tenant {tenant}: {film}: {why}\n")
    return len(films)


def bill(kept: Database, held: Held) -> int:
    """Makes the bill. It goes to standard output when it is complete: if the database goes away, it is made again."""
    with contextlib.ExitStack() as files:
        lines = files.enter_context(tempfile.TemporaryFile("w+", newline=""))
        troubles = files.enter_context(tempfile.TemporaryFile("w+", errors="surrogateescape"))
        unbilled = kept.do(lambda books: write_bill(books, held, lines, troubles))
        for file, to in ((troubles, sys.stderr), (lines, sys.stdout)):
            file.seek(0)
            to.reconfigure(newline="", errors="surrogateescape")  # type: ignore[attr-defined]
            shutil.copyfileobj(file, to)
            to.flush()
    if unbilled:
        say(f"this bill is incomplete: {unbilled} film{'s' if unbilled > 1 else ''} could not be billed")
    return INCOMPLETE if unbilled else WELL


def run(asked: Arguments) -> int:
    with read_holdings(asked.holdings) as held, database(asked) as kept:
        kept.create()
        start = time.monotonic()
        done = sum(workers(asked).scan(kept, Tasks(held.films())), NOTHING)
        say(f"{done.films} films, {done.read} of them read, {done.bytes} bytes, in {time.monotonic() - start:.1f} s")
        return bill(kept, held)


def main(words: list[str]) -> int:
    asked = arguments(words)
    try:
        return run(asked)
    except WrongHoldings as wrong:
        for line, why in wrong.faults:
            say(f"{asked.holdings}: line {line}: {why}")
        say(f"{asked.holdings}: {len(wrong.faults)} wrong line{'s' if len(wrong.faults) > 1 else ''}; no film was read")
        return TROUBLE
    except (OSError, sqlite3.Error) as error:
        say(str(error))
        return TROUBLE
    except ImportError as error:
        say(f"{error}: it comes with Debian's python3-distributed, python3-psycopg2 and python3-fsspec")
        return TROUBLE
    except KeyboardInterrupt:
        say("interrupted; what was found so far is in the database, if one was named")
        return INTERRUPTED


if __name__ == "__main__":
    sys.exit(main(sys.argv[1:]))
