"""What a worker does: it scans films, and puts what it finds into the database."""

from __future__ import annotations

import time
from typing import NamedTuple, Optional

from usm._books import Books, Known
from usm._held import Wanted
from usm._scan import Identity, Place, scan
from usm.house._database import Database
from usm.house._places import place


class Done(NamedTuple):
    """How many films were asked for, how many of them were read, their bytes, and how long it took."""

    films: int
    read: int
    bytes: int
    seconds: float

    def __add__(self, other: object) -> Done:
        assert isinstance(other, Done)
        return Done(
            self.films + other.films, self.read + other.read, self.bytes + other.bytes, self.seconds + other.seconds
        )


NOTHING = Done(0, 0, 0, 0.0)


def work(database: Database, films: list[Wanted]) -> Done:
    """Scans films. Those that the database knows already are not read again, so a task can be retried at little cost."""
    return database.do(lambda books: _scan_all(books, films))


def _scan_all(books: Books, films: list[Wanted]) -> Done:
    start = time.monotonic()
    known = books.known(film for film, _ in films)
    found = {}
    for film, keys in films:
        at = place(film)
        missing = _missing(known.get(film), at, keys)
        if missing:
            found[film] = scan(at, missing)
    if found:
        books.keep(found)
    read = sum(scan.identity.size for scan in found.values() if scan.identity)
    return Done(len(films), len(found), read, time.monotonic() - start)


def _missing(known: Optional[Known], at: Place, keys: list[Optional[int]]) -> list[Optional[int]]:
    """The keys under which a film has to be read. A file that can't be looked at is tried all the same, and the error kept."""
    if known is None or known.identity != _identity(at):
        return keys
    if known.trouble is not None:
        return []
    return [key for key in keys if key not in known.keys]


def _identity(at: Place) -> Optional[Identity]:
    """What a film is now; None where it can't be looked at."""
    try:
        return at.identity()
    except OSError:
        return None
