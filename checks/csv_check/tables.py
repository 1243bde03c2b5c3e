"""Random @UTF tables, and written as CSV by rules V, from the documents alone. What reads them is model/usm.py.

It knows nothing of the library: what it answers is what the library must. Whoever imports it has the model on its path.
"""
import struct

import usm
from usm import DATA, STRING, WIDTHS, Refused, texts


def csv_of(records):
    def field(text):
        if any(mark in text for mark in (b'"', b",", b"\r", b"\n")):
            return b'"' + text.replace(b'"', b'""') + b'"'
        return text
    return b"".join(b",".join(map(field, record)) + b"\r\n" for record in records)


# ---- random tables

TEXTS = [b"", b"a", b"filename", b'"', b",", b"\r", b"\n", b"\r\n", b'""', b'a"b', b"a,b", b'","', b" ", b"=1+1", b"-2", b"@x", b"\xff\x80", b"\x01\t;'", b'"\r\n,"']


def text_by(chance):
    if chance.random() < 0.7:
        return chance.choice(TEXTS)
    return bytes(chance.choice(b'ab",\r\n\xc3\xa9 ;') for _ in range(chance.randrange(12)))


def table_by(chance, most_columns=8, most_rows=5):
    """A table, most often one that is accepted."""
    columns = chance.choice([0, 1, 1, 2, 3, chance.randrange(most_columns + 1)])
    rows = chance.choice([0, 1, 2, chance.randrange(most_rows + 1)])
    pool, records, cells, blob = bytearray(), bytearray(), bytearray(), bytes(chance.randrange(256) for _ in range(16))
    places = {}

    def place_of(text):
        if text not in places or chance.random() < 0.2:
            places[text] = len(pool)
            pool.extend(text + b"\0")
        return places[text]

    def value(kind):
        width = WIDTHS[kind]
        if kind == STRING:
            return struct.pack(">I", place_of(text_by(chance)))
        if kind == DATA:
            size = chance.choice([0, 0, 1, 5, 16])
            return struct.pack(">II", chance.randrange(17 - size), size)
        return chance.choice([bytes(width), b"\xff" * width, b"\x80" + bytes(width - 1) if width else b"", bytes(chance.randrange(256) for _ in range(width))])

    kinds = []
    for _ in range(columns):
        kind = chance.choice([0, 1, 2, 3, 4, 5, 6, 8, 10, 10, 10, 11] if chance.random() < 0.97 else list(range(16)))
        nibble = chance.choice([1, 3, 5, 5, 5, 7] if chance.random() < 0.95 else list(range(16)))
        records += bytes([nibble << 4 | kind]) + struct.pack(">I", place_of(text_by(chance)))
        if nibble in (3, 7):
            records += value(kind)
        kinds.append((nibble, kind))
    stored_zero = chance.random() < 0.5
    for _ in range(rows):
        for nibble, kind in kinds:
            if nibble not in (3, 7) and (nibble != 1 or stored_zero):
                cells += value(kind)
    start = 24 + len(records)
    strings = start + len(cells)
    blobs = strings + len(pool)
    body = bytes(records + cells + pool) + blob
    table = bytearray(usm.table(body, columns, rows, start, strings, blobs, version=1))
    if chance.random() < 0.05:
        table = table[:chance.randrange(len(table) + 1)]
    if chance.random() < 0.1 and table:
        table[chance.randrange(len(table))] = chance.randrange(256)
    return bytes(table)


def answer(table, zero_columns):
    """The CSV of a table, or the number that refuses it."""
    try:
        return csv_of(texts(table, zero_columns))
    except Refused as refusal:
        return refusal.number
