"""Tables of a header and tables by themselves."""

from __future__ import annotations

import csv
import io
import math
import time
from typing import Any

import pytest
import usm
from conftest import FILMS, recorded
from hypothesis import given, settings, strategies as st


def test_the_tables_of_the_recorded_headers() -> None:
    places = {name: [table.place for table in usm.open(FILMS / name).tables()] for name in ("song.usm", "f.usm")}
    assert places == {"song.usm": [32, 160, 256, 480, 544], "f.usm": [32, 96, 224]}


def test_cells_of_the_song() -> None:
    crid, video, audio, *_ = usm.open(FILMS / "song.usm").tables()
    assert (crid.columns, crid.row_count) == ((usm.Column(b"filename", True, 0x3A),), 1)
    assert crid.rows() == list(crid) == [{"filename": b"songs/lark.usm"}]
    assert crid.cell(b"filename", 0) == crid.cell("filename", 0) == b"songs/lark.usm"
    assert (video.cell("mpeg_codec", 0), audio.cell("audio_codec", 0)) == (1, 2)
    assert crid.cell("filename", 1) is None and crid.cell("other", 0) is None


def table(columns: list[tuple[str, int, bytes]], strings: bytes) -> bytes:
    """A table of one row, every column of storage 5: names stand in the strings, values in the row."""
    names = b"".join(name.encode() + b"\0" for name, _, _ in columns)
    places = [len(strings) + names.index(name.encode() + b"\0") for name, _, _ in columns]
    schema = b"".join(bytes([kind]) + place.to_bytes(4, "big") for (_, kind, _), place in zip(columns, places))
    row = b"".join(value for _, _, value in columns)
    body = schema + row + strings + names
    rows_at, strings_at = 24 + len(schema), 24 + len(schema) + len(row)
    counts = len(columns).to_bytes(2, "big") + len(row).to_bytes(2, "big") + (1).to_bytes(4, "big")
    numbers = (rows_at, strings_at, 24 + len(body), 0)
    return b"@UTF" + (24 + len(body)).to_bytes(4, "big") + b"".join(n.to_bytes(4, "big") for n in numbers) + counts + body


KINDS: list[tuple[str, int, bytes, Any]] = [
    ("byte", 0x50, b"\xff", 255),
    ("sbyte", 0x51, b"\xff", -1),
    ("short", 0x52, b"\xff\xff", 65535),
    ("sshort", 0x53, b"\x80\0", -32768),
    ("number", 0x54, b"\xff" * 4, 0xFFFFFFFF),
    ("snumber", 0x55, b"\x80\0\0\0", -0x80000000),
    ("long", 0x56, b"\xff" * 8, 0xFFFFFFFFFFFFFFFF),
    ("float", 0x58, b"\x3f\x80\0\0", 1.0),
    ("text", 0x5A, b"\0\0\0\0", b"a,b"),
]


def test_every_kind_of_cell() -> None:
    made = table([(name, kind, value) for name, kind, value, _ in KINDS], b"a,b\0")
    read = usm.Table(b"before" + made, 6)
    assert read.columns == tuple(usm.Column(name.encode(), False, kind) for name, kind, _, _ in KINDS)
    assert [read.cell_at(number, 0) for number in range(len(KINDS))] == [cell for _, _, _, cell in KINDS]
    assert read.rows() == [{name: cell for name, _, _, cell in KINDS}]
    record = list(csv.reader(io.StringIO(read.csv().decode(), newline="")))[1]
    assert record == ["255", "-1", "65535", "-32768", "4294967295", "-2147483648", "18446744073709551615", "3f800000", "a,b"]


def test_columns_of_one_name_have_cells_of_their_own() -> None:
    read = usm.Table(table([("twice", 0x50, b"\1"), ("other", 0x50, b"\2"), ("twice", 0x51, b"\xff")], b""))
    assert [column.name for column in read.columns] == [b"twice", b"other", b"twice"]
    assert [read.cell_at(number, 0) for number in range(3)] == [1, 2, -1]
    assert read.cell("twice", 0) == -1 and read.rows() == [{"twice": -1, "other": 2}]
    assert read.cell_at(3, 0) is None and read.cell_at(0, 1) is None and read.cell_at((1 << 64) - 1, 0) is None


def test_which_columns_are_constant() -> None:
    stored = table([("constant", 0x30, b""), ("zero", 0x10, b""), ("each", 0x50, b"\7")], b"")
    # The constant stands in its column's record, so all that follows is a byte later.
    made = bytearray(stored[:37] + b"\5" + stored[37:])
    for at, width in ((4, 4), (8, 4), (12, 4), (16, 4)):
        made[at : at + width] = (int.from_bytes(made[at : at + width], "big") + 1).to_bytes(width, "big")
    read = usm.Table(made, 0, usm.Reading(tables="zero-columns"))
    assert [(column.constant, column.type_byte) for column in read.columns] == [(True, 0x30), (True, 0x10), (False, 0x50)]
    assert read.rows() == [{"constant": 5, "zero": 0, "each": 7}]


def test_the_largest_table_takes_little_time() -> None:
    columns, rows = 64, 256
    body = (b"\x50" + bytes(4)) * columns + bytes(range(256)) * columns + b"\0"
    rows_at, strings_at = 24 + 5 * columns, 24 + 5 * columns + columns * rows
    numbers = (24 + len(body), rows_at, strings_at, 24 + len(body), 0)
    counts = columns.to_bytes(2, "big") + bytes(2) + rows.to_bytes(4, "big")
    read = usm.Table(b"@UTF" + b"".join(n.to_bytes(4, "big") for n in numbers) + counts + body)
    started = time.perf_counter()
    cells = [read.cell_at(column, row) for row in range(rows) for column in range(columns)]
    took = time.perf_counter() - started
    assert cells == list(range(256)) * columns
    assert took < 1, took
    assert [list(row.values()) for row in read] == [[cell] for cell in cells[columns - 1 :: columns]]


def test_a_nan_is_a_float() -> None:
    read = usm.Table(table([("float", 0x58, b"\x7f\xc0\0\0")], b"\0"))
    cell = read.cell("float", 0)
    assert isinstance(cell, float) and math.isnan(cell)


def test_refusals_of_a_table_by_itself() -> None:
    for data, place, number in ((b"none", 0, 3), (b"", 0, 1), (recorded("song.usm"), (1 << 64) - 1, 1)):
        with pytest.raises(usm.Refusal) as raised:
            usm.Table(data, place)
        assert (raised.value.number, raised.value.place) == (number, place)


def test_a_long_csv_is_made_only_where_it_is_asked_for() -> None:
    crid = usm.open(FILMS / "song.usm").tables()[0]
    assert len(crid.csv(26)) == 26
    with pytest.raises(ValueError, match="26 bytes"):
        crid.csv(25)


@settings(max_examples=2000)
@given(st.integers(0, 700), st.integers(0, 255), st.integers(0, 700), st.integers(0, 255))
def test_damaged_headers_have_readable_tables_or_are_refused(at: int, new: int, also: int, other: int) -> None:
    film = bytearray(recorded("song.usm"))
    film[at], film[also] = new, other
    try:
        tables = usm.open(film).tables()
    except usm.Refusal:
        return
    assert tables[0].place == 32
    for each in tables:
        names = {column.name.decode("utf-8", "surrogateescape") for column in each.columns}
        assert all(set(row) == names for row in each)
        for number, column in enumerate(each.columns):
            last = max(at for at, other in enumerate(each.columns) if other.name == column.name)
            for row in range(each.row_count):
                assert each.cell_at(number, row) is not None
                assert repr(each.cell(column.name, row)) == repr(each.cell_at(last, row))


def test_bad_arguments() -> None:
    crid = usm.open(FILMS / "song.usm").tables()[0]
    for wrong in (7, None):
        with pytest.raises(TypeError):
            crid.cell(wrong, 0)  # type: ignore[arg-type]
    with pytest.raises(ValueError):
        crid.cell("filename", -1)
    for column, row in ((-1, 0), (0, -1), (1 << 64, 0)):
        with pytest.raises(ValueError):
            crid.cell_at(column, row)
    for wrong in ("filename", None, True):
        with pytest.raises(TypeError):
            crid.cell_at(wrong, 0)  # type: ignore[arg-type]
    with pytest.raises(ValueError):
        usm.Table(b"", -1)
    with pytest.raises(TypeError):
        usm.Table("text")
