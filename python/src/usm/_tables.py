"""@UTF tables."""

from __future__ import annotations

import struct
from collections.abc import Iterator
from typing import Any, NamedTuple, Optional, SupportsIndex, Union

from usm._lent import Buffer, lend, unsigned
from usm._native import ffi, lib
from usm._reading import DEFAULT, Reading
from usm._refusal import accepted, refusal

# A cell: a number, a float, or the bytes of a string or of data.
Cell = Union[int, float, bytes]

# Rows can share one long string, so a small table can have a long CSV. This is the limit unless another is given.
_CSV_LIMIT = 1 << 26


class Column(NamedTuple):
    """A column of a table.

    name: its name, in whatever encoding
    constant: whether all rows have one value: one that the column stores, or 0 or empty in a zero column
    type_byte: how values are stored in the high half, what they are in the low half
    """

    name: bytes
    constant: bool
    type_byte: int


class Table:
    """A table of a film's header, or one by itself.

    place: where it begins in its bytes
    columns: its columns in their order, 64 at most; several may have one name
    row_count: how many rows it has, 256 at most
    """

    place: int
    columns: tuple[Column, ...]
    row_count: int

    def __init__(self, data: Buffer, place: int = 0, reading: Reading = DEFAULT) -> None:
        """Reads and checks the table that begins at a place of the data.

        >>> import usm
        >>> film = open("song.usm", "rb").read()
        >>> usm.Table(film, 32).rows()
        [{'filename': b'songs/lark.usm'}]
        >>> usm.Table(film, 32).columns
        (Column(name=b'filename', constant=True, type_byte=58),)
        """
        self._bytes = memoryview(data).cast("B")
        self.place = unsigned(place, 64, "the place")
        self._reading = reading.lent()
        with lend(self._bytes) as lent:
            reply = accepted(lib.usm_table(lent, len(lent), self.place, self._reading))
            self.columns = tuple(self._column(lent, number) for number in range(reply.columns))
        self.row_count = reply.rows

    def _column(self, lent: Any, number: int) -> Column:
        reply = accepted(lib.usm_column(lent, len(lent), self.place, number, self._reading))
        name = bytes(self._bytes[reply.name_start : reply.name_start + reply.name_length])
        return Column(name, reply.storage != lib.USM_STORAGE_ROWS, reply.type_byte)

    def cell(self, column: Union[str, bytes], row: int) -> Optional[Cell]:
        """The cell of the last column of a name; None where there is no such column or row."""
        name = column.encode() if isinstance(column, str) else column
        with lend(self._bytes) as lent, lend(name) as lent_name:
            reply = accepted(
                lib.usm_cell(
                    lent, len(lent), self.place, lent_name, len(name), unsigned(row, 64, "the row"), self._reading
                )
            )
        return self._value(reply.kind, reply.value, reply.length)

    def cell_at(self, column: SupportsIndex, row: SupportsIndex) -> Optional[Cell]:
        """The cell of the column of a number, counted from 0 as in columns; None where there is no such column or row.

        >>> import usm
        >>> with usm.open("song.usm") as film:
        ...     film.tables()[0].cell_at(0, 0)
        b'songs/lark.usm'
        """
        with lend(self._bytes) as lent:
            return self._cell_at(lent, unsigned(column, 64, "the column"), unsigned(row, 64, "the row"))

    def _cell_at(self, lent: Any, column: int, row: int) -> Optional[Cell]:
        reply = accepted(lib.usm_cell_at(lent, len(lent), self.place, column, row, self._reading))
        return self._value(reply.kind, reply.value, reply.length)

    def _value(self, kind: int, value: int, length: int) -> Optional[Cell]:
        if kind == lib.USM_CELL_NOTHING:
            return None
        if kind == lib.USM_CELL_UNSIGNED:
            return value
        if kind == lib.USM_CELL_SIGNED:
            return int(ffi.cast("int64_t", value))
        if kind == lib.USM_CELL_FLOAT:
            return float(struct.unpack("<f", struct.pack("<I", value))[0])
        return bytes(self._bytes[value : value + length])

    def rows(self) -> list[dict[str, Optional[Cell]]]:
        """The rows, each a dictionary by column names. Of columns of one name the last is taken."""
        names = [column.name.decode("utf-8", "surrogateescape") for column in self.columns]
        with lend(self._bytes) as lent:
            return [
                {name: self._cell_at(lent, number, row) for number, name in enumerate(names)}
                for row in range(self.row_count)
            ]

    def __iter__(self) -> Iterator[dict[str, Optional[Cell]]]:
        return iter(self.rows())

    def csv(self, limit: int = _CSV_LIMIT) -> bytes:
        """The table as CSV by RFC 4180, if that has no more bytes than the limit.

        >>> import usm
        >>> with usm.open("song.usm") as film:
        ...     film.tables()[0].csv()
        b'filename\\r\\nsongs/lark.usm\\r\\n'
        """
        with lend(self._bytes) as lent:
            asked = lib.usm_csv(lent, len(lent), self.place, self._reading, ffi.NULL, 0)
            if asked.number not in (lib.USM_ACCEPTED, lib.USM_SHORT_ROOM):
                raise refusal(asked)
            if asked.size > limit:
                raise ValueError(f"the CSV has {asked.size} bytes, and the limit is {limit}")
            out = ffi.new("uint8_t[]", asked.size)
            accepted(lib.usm_csv(lent, len(lent), self.place, self._reading, out, asked.size))
        return bytes(ffi.buffer(out))
