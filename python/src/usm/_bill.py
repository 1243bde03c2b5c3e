"""The bill of a house: which copies it needs, and which tenants share each."""

from __future__ import annotations

import csv
import io
import sqlite3
from collections.abc import Iterable
from typing import IO, NamedTuple

from usm._books import Books, Line, Unbilled
from usm._held import Held
from usm._holdings import HoldingsLike, holdings
from usm._scan import LocalFile, scan


class Bill(NamedTuple):
    """A house's bill.

    lines: a line for each tenant of each copy, by rising tenant, then by the digests
    unbilled: the holdings whose films are refused, missing or unreadable; the bill is incomplete where there are some
    """

    lines: list[Line]
    unbilled: list[Unbilled]

    @property
    def is_complete(self) -> bool:
        return not self.unbilled

    def totals(self) -> dict[int, int]:
        """The sum of each tenant's shares, in bytes, by rising tenant."""
        sums: dict[int, int] = {}
        for line in self.lines:
            sums[line.tenant] = sums.get(line.tenant, 0) + line.share
        return sums

    def csv(self) -> str:
        """The lines as `usm bill --csv` writes them."""
        text = io.StringIO(newline="")
        write_csv(self.lines, text)
        return text.getvalue()


def bill(given: HoldingsLike) -> Bill:
    """The bill of a house: two holdings share a copy exactly when their streams agree byte for byte.

    given: the path of a CSV file with the columns tenant, key and film, as `usm bill` takes it; or holdings, each a tenant,
    a key and the path of a film. The key None means the streams as they are stored.

    Wrong lines of the file raise usm.WrongHoldings, which lists all of them, before any film is read. A film that can't be
    billed does not stop the others.

    >>> import usm
    >>> made = usm.bill([(10, 0x0123456789ABCDEF, "song.usm"), (20, 0xFF23456789ABCDEF, "song.usm"), (20, None, "no.usm")])
    >>> for line in made.lines:
    ...     print(line.tenant, line.group, line.video_bytes, line.audio_bytes, line.share, line.video_sha256[:8])
    10 10 1453 736 1095 f0af257b
    20 10 1453 736 1094 f0af257b
    >>> made.unbilled
    [Unbilled(line=3, tenant=20, film='no.usm', why='No such file or directory')]
    """
    try:
        with Held(holdings(given)) as held:
            return _bill(held)
    except sqlite3.Error as error:
        raise OSError(f"the bill's temporary database: {error}") from error


def _bill(held: Held) -> Bill:
    # SQLite makes a temporary database of its own for an empty name.
    books = Books(sqlite3.connect(""))
    try:
        books.create()
        for film, keys in held.films():
            books.keep({film: scan(LocalFile(film), keys)})
        books.hold(held.rows())
        return Bill(list(books.lines()), list(books.unbilled()))
    finally:
        books.close()


def write_csv(lines: Iterable[Line], file: IO[str]) -> None:
    """Writes lines as `usm bill --csv` does."""
    writer = csv.writer(file, lineterminator="\r\n")
    writer.writerow(Line._fields)
    writer.writerows(lines)
