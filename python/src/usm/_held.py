"""The holdings of a house, in a temporary database: a house may have more of them than a process should keep in memory."""

from __future__ import annotations

import itertools
import sqlite3
from collections.abc import Iterable, Iterator
from typing import Optional

from usm._holdings import Holding
from usm._stored import film_of, key_of, stored, stored_film, stored_key

# A film, and the keys under which it is held.
Wanted = tuple[str, list[Optional[int]]]
# A holding as it is stored: line, tenant, film, and the two columns of its key.
Row = tuple[int, int, bytes, int, int]


class Held:
    """All holdings of a house. They are in a file that has no name, and goes when they are closed."""

    def __init__(self, holdings: Iterable[Holding]) -> None:
        self._connection = sqlite3.connect("")
        try:
            self._connection.execute("PRAGMA journal_mode = OFF")
            self._connection.execute(
                "CREATE TABLE holding (line BIGINT NOT NULL, tenant BIGINT NOT NULL, film BLOB NOT NULL,"
                " given SMALLINT NOT NULL, key BIGINT NOT NULL)"
            )
            self._connection.executemany("INSERT INTO holding VALUES (?, ?, ?, ?, ?)", map(_row, holdings))
        except BaseException:
            self.close()
            raise

    def __enter__(self) -> Held:
        return self

    def __exit__(self, *_: object) -> None:
        self.close()

    def close(self) -> None:
        self._connection.close()

    def films(self) -> Iterator[Wanted]:
        """The films, each once, with the keys under which it is held."""
        rows = self._connection.execute("SELECT DISTINCT film, given, key FROM holding ORDER BY film, given, key")
        for film, keys in itertools.groupby(rows, key=lambda row: bytes(row[0])):
            yield film_of(film), [key_of(given, key) for _, given, key in keys]

    def rows(self) -> Iterator[Row]:
        """The holdings as they are stored, in the order in which they were given."""
        return iter(self._connection.execute("SELECT line, tenant, film, given, key FROM holding ORDER BY rowid"))


def _row(holding: Holding) -> Row:
    return (holding.line, stored(holding.tenant), stored_film(holding.film), *stored_key(holding.key))
