"""The house's database: PostgreSQL by its address, or a file of SQLite."""

from __future__ import annotations

import os
import sqlite3
import tempfile
import time
from collections.abc import Iterable
from typing import Any, Callable, TypeVar

from usm._books import Books
from usm._held import Row

_Result = TypeVar("_Result")

# How long, in seconds, to wait for a server that restarts, or for a SQLite file that others are writing.
PATIENCE = 120.0
_PAUSE = 0.5


class PostgresBooks(Books):
    """Books on a connection of psycopg2."""

    bytes_type = "BYTEA"
    mark = "%s"

    def create(self) -> None:
        # Even with IF NOT EXISTS, two that create a table at the same moment can fail.
        self._run("SELECT pg_advisory_xact_lock(7583021)")
        super().create()

    def _ask(self, text: str) -> Any:
        # Only a named cursor leaves the rows at the server until they are fetched.
        cursor = self._connection.cursor(name="asked")
        cursor.execute(text)
        return cursor

    def _run_for_each(self, text: str, rows: Iterable[tuple[Any, ...]]) -> None:
        # executemany of psycopg2 waits for the server after each row.
        from psycopg2.extras import execute_batch

        execute_batch(self._connection.cursor(), self._in_its_words(text), rows)

    def _insert_holdings(self, rows: Iterable[Row]) -> None:
        with tempfile.TemporaryFile("w+") as file:
            for line, tenant, film, given, key in rows:
                file.write(f"{line}\t{tenant}\t\\\\x{film.hex()}\t{given}\t{key}\n")
            file.seek(0)
            self._connection.cursor().copy_expert("COPY holding (line, tenant, film, given, key) FROM STDIN", file)

    def _prepare_lines(self) -> None:
        """Collects statistics. Without them PostgreSQL plans joins of these tables as if they had a handful of rows."""
        for table in ("holding", "pair", "streams", "entry", "held"):
            self._run(f"ANALYZE {table}")


class Database:
    """A database by its address: postgresql://.., or the path of a file of SQLite."""

    def __init__(self, address: str) -> None:
        self.address = address
        self._is_postgres = address.startswith(("postgresql://", "postgres://"))

    def connect(self) -> Books:
        if self._is_postgres:
            import psycopg2

            return PostgresBooks(psycopg2.connect(self.address))
        return Books(sqlite3.connect(self.address, timeout=PATIENCE))

    def create(self) -> None:
        """Creates the tables that stay. A database that is not there is an error at once."""
        try:
            self._once(lambda books: books.create())
        except self._errors() as error:
            raise _as_trouble(error) from error

    def do(self, act: Callable[[Books], _Result]) -> _Result:
        """Does something with the books, on a connection of its own. If the server goes away it is done again from the start,
        so it must be harmless to do it twice."""
        last_try = time.monotonic() + PATIENCE
        while True:
            try:
                return self._once(act)
            except self._errors() as error:
                if not isinstance(error, self._gone()) or time.monotonic() > last_try:
                    raise _as_trouble(error) from error
                time.sleep(_PAUSE)

    def _once(self, act: Callable[[Books], _Result]) -> _Result:
        books = self.connect()
        try:
            return act(books)
        finally:
            books.close()

    def _gone(self) -> tuple[type[BaseException], ...]:
        """The errors of a server that may come back."""
        if not self._is_postgres:
            return ()
        import psycopg2

        return (psycopg2.OperationalError, psycopg2.InterfaceError)

    def _errors(self) -> tuple[type[BaseException], ...]:
        """All errors of the database."""
        if not self._is_postgres:
            return (sqlite3.Error,)
        import psycopg2

        return (psycopg2.Error,)


def _as_trouble(error: BaseException) -> OSError:
    return OSError(f"the database: {str(error).strip()}")


def absolute(address: str) -> str:
    """An address that workers in other folders can use."""
    return address if "://" in address else os.path.abspath(address)
