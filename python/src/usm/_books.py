"""The books of a house, in a database: what was found out about its films, and the bill, which bill.sql makes.

The same texts run on SQLite and on PostgreSQL.
"""

from __future__ import annotations

from collections.abc import Collection, Iterable, Iterator, Mapping
from contextlib import closing
from importlib import resources
from typing import Any, NamedTuple, Optional

from usm._held import Row
from usm._scan import Identity, Scan
from usm._stored import film_of, key_of, number, stored_film, stored_key

_BILL = resources.files("usm").joinpath("bill.sql").read_text(encoding="utf-8")

# What stays in the database from run to run.
_TABLES = (
    """CREATE TABLE IF NOT EXISTS usm_film (film {bytes} PRIMARY KEY, size BIGINT, changed BIGINT, trouble TEXT)""",
    """CREATE TABLE IF NOT EXISTS usm_streams (film {bytes} NOT NULL, given SMALLINT NOT NULL, key BIGINT NOT NULL,
        video_bytes BIGINT NOT NULL, audio_bytes BIGINT NOT NULL, video_sha256 {bytes} NOT NULL,
        audio_sha256 {bytes} NOT NULL, PRIMARY KEY (film, given, key))""",
)

# What one bill is made of.
_HOLDING = """CREATE TEMPORARY TABLE holding (line BIGINT NOT NULL, tenant BIGINT NOT NULL, film {bytes} NOT NULL,
    given SMALLINT NOT NULL, key BIGINT NOT NULL)"""
_ENTRIES = (
    """CREATE TEMPORARY TABLE pair (entry BIGINT NOT NULL, film {bytes} NOT NULL, given SMALLINT NOT NULL,
        key BIGINT NOT NULL, PRIMARY KEY (film, given, key))""",
    """INSERT INTO pair SELECT ROW_NUMBER() OVER (ORDER BY film, given, key), film, given, key
        FROM (SELECT DISTINCT film, given, key FROM holding) AS pairs""",
    """CREATE TEMPORARY TABLE streams (streams BIGINT PRIMARY KEY, video_bytes BIGINT NOT NULL, audio_bytes BIGINT NOT NULL,
        video_sha256 {bytes} NOT NULL, audio_sha256 {bytes} NOT NULL)""",
    """INSERT INTO streams SELECT entry, video_bytes, audio_bytes, video_sha256, audio_sha256
        FROM pair JOIN usm_streams USING (film, given, key)""",
    """CREATE TEMPORARY TABLE entry (entry BIGINT PRIMARY KEY, streams BIGINT)""",
    """INSERT INTO entry SELECT pair.entry, streams.streams FROM pair LEFT JOIN streams ON streams.streams = pair.entry""",
    """CREATE TEMPORARY TABLE held (tenant BIGINT NOT NULL, entry BIGINT NOT NULL, PRIMARY KEY (entry, tenant))""",
    """INSERT INTO held SELECT DISTINCT holding.tenant, pair.entry FROM holding JOIN pair USING (film, given, key)""",
)
_LINES = f"""SELECT tenant, lowest, video_bytes, audio_bytes, share, video_sha256, audio_sha256
    FROM ({_BILL}) AS bill WHERE way = 1 ORDER BY tenant, copy"""
_UNBILLED = """SELECT holding.line, holding.tenant, holding.film, usm_film.trouble
    FROM holding LEFT JOIN usm_streams USING (film, given, key) LEFT JOIN usm_film ON usm_film.film = holding.film
    WHERE usm_streams.film IS NULL ORDER BY holding.line"""

# How many rows are fetched at once.
_ROWS = 10_000


class Line(NamedTuple):
    """A tenant of a copy.

    group: the copy's lowest tenant
    share: what the tenant bears of the copy's bytes, those of both streams
    """

    tenant: int
    group: int
    video_bytes: int
    audio_bytes: int
    share: int
    video_sha256: str
    audio_sha256: str


class Unbilled(NamedTuple):
    """A holding that is not billed, and why."""

    line: int
    tenant: int
    film: str
    why: str


class Known(NamedTuple):
    """What is known of a film.

    identity: the file that was read
    trouble: why it can't be billed; None where it can
    keys: the keys under which its streams are known
    """

    identity: Identity
    trouble: Optional[str]
    keys: set[Optional[int]]


class Books:
    """A house's books on a connection of sqlite3. A subclass has what another database does in other words."""

    bytes_type = "BLOB"
    mark = "?"

    def __init__(self, connection: Any) -> None:
        self._connection = connection

    def _run(self, text: str, values: Collection[Any] = ()) -> Any:
        cursor = self._connection.cursor()
        cursor.execute(self._in_its_words(text), values)
        return cursor

    def _in_its_words(self, text: str) -> str:
        """A text with the names and marks of this database."""
        return text.replace("{bytes}", self.bytes_type).replace("?", self.mark)

    def _run_for_each(self, text: str, rows: Iterable[tuple[Any, ...]]) -> None:
        """Runs a text once for each row of values."""
        self._connection.cursor().executemany(self._in_its_words(text), rows)

    def _ask(self, text: str) -> Any:
        """A cursor on rows that may be too many to be held at once."""
        return self._run(text)

    def create(self) -> None:
        """Makes the tables that stay, where they are not there yet."""
        for text in _TABLES:
            self._run(text)
        self._connection.commit()

    def known(self, films: Iterable[str]) -> dict[str, Known]:
        """What is known of each of these films. A film of which nothing is known is left out."""
        names = [stored_film(film) for film in films]
        among = f"WHERE film IN ({', '.join('?' * len(names))})"
        # The films first: if another worker stores one meanwhile, the keys that are found may be too few, but never too many.
        found = {
            bytes(film): Known(Identity(size, changed), trouble, set())
            for film, size, changed, trouble in self._run(f"SELECT film, size, changed, trouble FROM usm_film {among}", names)
        }
        for film, given, key in self._run(f"SELECT film, given, key FROM usm_streams {among}", names):
            if bytes(film) in found:
                found[bytes(film)].keys.add(key_of(given, key))
        self._connection.commit()
        return {film_of(film): known for film, known in found.items()}

    def keep(self, found: Mapping[str, Scan]) -> None:
        """Stores what was found out about films, in one transaction. Done twice, it leaves the same rows as done once."""
        # Always in one order: otherwise two that store the same films could wait for each other forever.
        films = sorted((stored_film(film), film) for film in found)
        scans = [(name, found[film]) for name, film in films]
        # This locks the row in PostgreSQL, and the whole file in SQLite: two that store one film take turns.
        self._run_for_each(
            "INSERT INTO usm_film (film) VALUES (?) ON CONFLICT (film) DO UPDATE SET trouble = usm_film.trouble",
            [(name,) for name, _ in scans],
        )
        # The streams of a film that has changed, or that can no longer be billed, go.
        self._run_for_each(
            "DELETE FROM usm_streams WHERE film = ?"
            " AND NOT EXISTS (SELECT 1 FROM usm_film WHERE film = ? AND size = ? AND changed = ?)",
            [(name, name, *(_NO_IDENTITY if scan.trouble else _identity(scan))) for name, scan in scans],
        )
        self._run_for_each(
            "UPDATE usm_film SET size = ?, changed = ?, trouble = ? WHERE film = ?",
            [(*_identity(scan), scan.trouble, name) for name, scan in scans],
        )
        self._run_for_each(
            "INSERT INTO usm_streams VALUES (?, ?, ?, ?, ?, ?, ?) ON CONFLICT DO NOTHING",
            [row for name, scan in scans for row in _stream_rows(name, scan)],
        )
        self._connection.commit()

    def hold(self, holdings: Iterable[Row]) -> None:
        """Starts a bill: stores holdings, whose films are in the books."""
        self._run(_HOLDING)
        self._insert_holdings(holdings)
        for text in _ENTRIES:
            self._run(text)
        self._prepare_lines()

    def _insert_holdings(self, rows: Iterable[Row]) -> None:
        self._run_for_each("INSERT INTO holding (line, tenant, film, given, key) VALUES (?, ?, ?, ?, ?)", rows)

    def _prepare_lines(self) -> None:
        """Called before the lines are computed. SQLite needs no preparation."""

    def lines(self) -> Iterator[Line]:
        """The bill's lines, by rising tenant, then by the digests."""
        for tenant, lowest, video_bytes, audio_bytes, share, video, audio in _rows(self._ask(_LINES)):
            digests = (bytes(digest).hex() for digest in (video, audio))
            yield Line(number(tenant), number(lowest), video_bytes, audio_bytes, share, *digests)

    def unbilled(self) -> Iterator[Unbilled]:
        """The holdings that are not billed, by their lines."""
        for line, tenant, film, trouble in _rows(self._ask(_UNBILLED)):
            yield Unbilled(line, number(tenant), film_of(bytes(film)), trouble or "it was not read")

    def close(self) -> None:
        self._connection.close()


def _rows(cursor: Any) -> Iterator[Any]:
    with closing(cursor):
        rows = cursor.fetchmany(_ROWS)
        while rows:
            yield from rows
            rows = cursor.fetchmany(_ROWS)


_NO_IDENTITY = (None, None)


def _identity(scan: Scan) -> tuple[Optional[int], Optional[int]]:
    return scan.identity or _NO_IDENTITY


def _stream_rows(film: bytes, scan: Scan) -> Iterator[tuple[Any, ...]]:
    for key, (video, audio) in scan.streams.items():
        digests = (bytes.fromhex(stream.sha256) for stream in (video, audio))
        yield (film, *stored_key(key), video.size, audio.size, *digests)
