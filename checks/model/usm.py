"""The format in Python, by the letters of docs/RULES.md: what films and tables are made of, and how they are read.

It knows nothing of the library: what it answers is what the library must. The scripts of checks/records and
checks/csv_check are over it. Whoever imports it puts this folder on its path.
"""
from collections import namedtuple

VIDEO, AUDIO, END = b"@SFV", b"@SFA", b"#CONTENTS END"
LONGEST = 0x40000000
PAYLOAD = 65536


class Refused(Exception):
    """A refusal: its number, its place, and with 8 the type that is unknown."""

    def __init__(self, number, place=0, kind=0):
        super().__init__(number, place, kind)
        self.number, self.place, self.kind = number, place, kind


def be(number, width):
    return number.to_bytes(width, "big")


def number_at(data, at, width):
    return int.from_bytes(data[at:at + width], "big")


# ---- rules K: the tables of a key


def key_tables(key):
    """T, V and A of a key."""
    k = [key >> 8 * i & 0xFF for i in range(8)]
    t = [0] * 32

    def put(i, value):
        t[i] = value & 0xFF

    put(0, k[0]), put(1, k[1]), put(2, k[2]), put(3, k[3] - 0x34)
    put(4, k[4] % 16 + 0xF9), put(5, k[5] ^ 0x13), put(6, k[6] + 0x61), put(7, t[0] ^ 0xFF)
    put(8, t[2] + t[1]), put(9, t[1] - t[7]), put(0xA, t[2] ^ 0xFF), put(0xB, t[1] ^ 0xFF)
    put(0xC, t[0xB] + t[9]), put(0xD, t[8] - t[3]), put(0xE, t[0xD] ^ 0xFF), put(0xF, t[0xA] - t[0xB])
    put(0x10, t[8] - t[0xF]), put(0x11, t[0x10] ^ t[7]), put(0x12, t[0xF] ^ 0xFF), put(0x13, t[3] ^ 0x10)
    put(0x14, t[4] - 0x32), put(0x15, t[5] + 0xED), put(0x16, t[6] ^ 0xF3), put(0x17, t[0x13] - t[0xF])
    put(0x18, t[0x15] + t[7]), put(0x19, 0x21 - t[0x13]), put(0x1A, t[0x14] ^ t[0x17]), put(0x1B, t[0x16] + t[0x16])
    put(0x1C, t[0x17] + 0x44), put(0x1D, t[3] + t[4]), put(0x1E, t[5] - t[0x16]), put(0x1F, t[0x1D] ^ t[0x13])
    v = [x ^ 0xFF for x in t]
    a = [v[i] if i % 2 == 0 else b"URUC"[i // 2 % 4] for i in range(32)]
    return t, v, a


# ---- rules M: masks


def masked_video(key, clear):
    if len(clear) < 0x240:
        return clear
    t, v, _ = key_tables(key)
    stored = bytearray(clear)
    for i in range(0x140, len(clear)):
        before = clear[i - 32] if 0x160 <= i else 0
        stored[i] = clear[i] ^ before ^ v[i % 32]
    for i in range(0x40, 0x140):
        row, lane = (i - 0x40) // 32, i % 32
        value = clear[i] ^ t[lane]
        for r in range(row + 1):
            value ^= clear[0x140 + 32 * r + lane]
        stored[i] = value
    return bytes(stored)


def clear_video(key, stored):
    if len(stored) < 0x240:
        return stored
    t, v, _ = key_tables(key)
    clear, mask = bytearray(stored), list(v)
    for i in range(0x140, len(stored)):
        clear[i] ^= mask[i % 32]
        mask[i % 32] = clear[i] ^ v[i % 32]
    mask = list(t)
    for i in range(0x100):
        mask[i % 32] ^= clear[0x140 + i]
        clear[0x40 + i] ^= mask[i % 32]
    return bytes(clear)


def masked_audio(key, clear):
    """A clear ADX payload masked, and a masked one clear: one act."""
    _, _, a = key_tables(key)
    return bytes(b ^ a[i % 32] if 0x140 <= i else b for i, b in enumerate(clear))


# ---- what a film is made of


def table(body=b"", columns=0, rows=0, row=0, strings=0, blobs=0, version=0, name=0, width=0):
    """A table of any header: where rows, strings and data begin, its version, its name, and the bytes of a row."""
    places = be(row, 2) + be(strings, 4) + be(blobs, 4) + be(name, 4)
    return b"@UTF" + be(24 + len(body), 4) + be(version, 2) + places + be(columns, 2) + be(width, 2) + be(rows, 4) + body


EMPTY = table()


def block(letters, inside, size=None, framed=False):
    """A block of a header. One that is framed has a header size and the size of its padding, as a chunk has."""
    padding = -len(inside) % 0x20
    size = 0x18 + len(inside) + padding if size is None else size
    frame = be(0x18, 2) + be(padding, 2) if framed else bytes(4)
    return letters + be(size, 4) + frame + bytes(20) + inside + bytes(padding)


def marker(text):
    return text.ljust(0x20, b"\0")


def header(audio, entry=EMPTY, video_table=EMPTY, audio_table=EMPTY, last_size=None, framed=False):
    """The header of a film with audio and its metadata, or without. The last block may say any size."""
    streams = [VIDEO, AUDIO] if audio else [VIDEO]
    tables = {VIDEO: video_table, AUDIO: audio_table}
    parts = [(b"CRID", entry)] + [(letters, tables[letters]) for letters in streams]
    for inside in marker(b"#HEADER END"), EMPTY, marker(b"#METADATA END"):
        parts += [(letters, inside) for letters in streams]
    made = b"".join(block(*part, framed=framed) for part in parts[:-1])
    return made + block(*parts[-1], size=last_size, framed=framed)


def chunk(letters, payload, header=0x18, footer=0, size=None, pad=0, byte15=0):
    """A chunk, and bytes after its payload. Its sizes may say anything."""
    size = header + footer + len(payload) if size is None else size
    opening = letters + be(size, 4) + be(header, 2) + be(footer, 2) + bytes(3) + bytes([byte15]) + bytes(16)
    return opening + payload + bytes(pad)


def payloads(stream):
    return [stream[i:i + PAYLOAD] for i in range(0, len(stream), PAYLOAD)]


# ---- rules T: the records of a table

WIDTHS = [1, 1, 2, 2, 4, 4, 8, 0, 4, 0, 4, 8, 0, 0, 0, 0]
STRING, DATA, FLOAT = 0xA, 0xB, 8


def string_at(body, place):
    if place < 24:
        raise Refused(1)
    end = body.find(0, place - 24)
    if end < 0:
        raise Refused(1)
    return body[place - 24:end]


def value_text(body, kind, at, strings, blobs):
    """The text of the cell of a type whose bytes stand at a body byte."""
    width = WIDTHS[kind]
    if width == 0:
        raise Refused(8, kind=kind)
    if len(body) < at + width:
        raise Refused(1)
    number = number_at(body, at, width)
    if kind == STRING:
        return string_at(body, strings + number)
    if kind == DATA:
        start, size = blobs + (number >> 32), number & 0xFFFFFFFF
        if size == 0:
            return b""
        if start < 24 or len(body) < start - 24 + size:
            raise Refused(1)
        return body[start - 24:start - 24 + size].hex().encode()
    if kind == FLOAT:
        return b"%08x" % number
    if kind in (1, 3, 5) and number >> (8 * width - 1):
        number -= 1 << (8 * width)
    return b"%d" % number


def zero_text(kind):
    if WIDTHS[kind] == 0:
        raise Refused(8, kind=kind)
    return {STRING: b"", DATA: b"", FLOAT: b"00000000"}.get(kind, b"0")


def texts(table, zero_columns=False):
    """The records of a table, each a list of fields, the names first; or Refused."""
    if len(table) < 4:
        raise Refused(1)
    if table[:4] != b"@UTF":
        raise Refused(3)
    if len(table) < 32:
        raise Refused(1)
    size = number_at(table, 4, 4)
    if size < 24:
        raise Refused(9)
    if len(table) < 8 + size:
        raise Refused(1)
    columns, rows = number_at(table, 24, 2), number_at(table, 28, 4)
    if columns > 64 or rows > 256:
        raise Refused(10)
    body = table[32:8 + size]
    offset = number_at(table, 10, 2)
    strings, blobs = number_at(table, 12, 4), number_at(table, 16, 4)
    at, made = 0, []
    for _ in range(columns):
        if len(body) < at + 5:
            raise Refused(1)
        tag = body[at]
        name = string_at(body, strings + number_at(body, at + 1, 4))
        nibble, kind, constant = tag >> 4, tag & 15, None
        at += 5
        if nibble in (3, 7):
            constant = value_text(body, kind, at, strings, blobs)
            at += WIDTHS[kind]
        elif zero_columns and nibble not in (1, 5):
            raise Refused(18)
        made.append((name, nibble, kind, constant))
    records, at = [[name for name, _, _, _ in made]], offset - 24 if offset >= 24 else len(body)
    for _ in range(rows):
        record = []
        for _, nibble, kind, constant in made:
            if constant is not None:
                record.append(constant)
            elif zero_columns and nibble == 1:
                record.append(zero_text(kind))
            else:
                record.append(value_text(body, kind, at, strings, blobs))
                at += WIDTHS[kind]
        records.append(record)
    return records if columns else []


# ---- rules H: whether there is audio, and where the chunks begin


def letters_at(film, place):
    if len(film) - place < 4:
        raise Refused(1, place)
    return film[place:place + 4]


def block_at(film, place, letters, missing):
    """Where the block that follows begins."""
    if letters_at(film, place) != letters:
        raise Refused(missing, place)
    if len(film) - place < 8:
        raise Refused(1, place)
    return place + 8 + number_at(film, place + 4, 4)


def marked(film, place, marker, missing):
    if len(film) - place < 0x20 + len(marker):
        raise Refused(1, place)
    if film[place + 0x20:place + 0x20 + len(marker)] != marker:
        raise Refused(missing, place)


def with_table(film, place, letters, missing):
    following = block_at(film, place, letters, missing)
    try:
        texts(film[place + 0x20:])
    except Refused as refused:
        raise Refused(refused.number, place, refused.kind) from None
    return following


def with_marker(film, place, letters, missing, marker, unmarked):
    following = block_at(film, place, letters, missing)
    marked(film, place, marker, unmarked)
    return following


def read_header(film):
    if len(film) > LONGEST:
        raise Refused(11)
    at = with_table(film, 0, b"CRID", 2)
    at = with_table(film, at, VIDEO, 4)
    audio = letters_at(film, at) == AUDIO
    if audio:
        at = with_table(film, at, AUDIO, 5)
    at = with_marker(film, at, VIDEO, 4, b"#HEADER END", 6)
    if audio:
        at = with_marker(film, at, AUDIO, 5, b"#HEADER END", 6)
    at = with_table(film, at, VIDEO, 4)
    if audio and letters_at(film, at) == AUDIO:
        at = with_table(film, at, AUDIO, 5)
        at = with_marker(film, at, VIDEO, 4, b"#METADATA END", 7)
        return audio, with_marker(film, at, AUDIO, 5, b"#METADATA END", 7)
    if letters_at(film, at) != VIDEO:
        raise Refused(4, at)
    marked(film, at, b"#METADATA END", 7)
    return audio, (at + 45 + 3) // 4 * 4 + 16


# ---- rules C: the chunks

Chunk = namedtuple("Chunk", "start letters is_end size header data_type payload")


def walk(film, start, streams):
    """The chunks from a place on, and the refusal that ends them, or None. The payload of a chunk is None where it is
    skipped: those of these streams are taken."""
    chunks, at = [], start
    while len(film) - at >= 4:
        if len(film) - at < 45:
            return chunks, Refused(1, at)
        size, head, foot = number_at(film, at + 4, 4), number_at(film, at + 8, 2), number_at(film, at + 10, 2)
        letters, is_end, payload = film[at:at + 4], film[at + 32:at + 45] == END, None
        if not is_end and letters in streams:
            if size < head + foot:
                return chunks, Refused(9, at)
            payload = film[at + 32:at + 32 + size - head - foot]
            if len(payload) < size - head - foot:
                return chunks, Refused(1, at)
        chunks.append(Chunk(at, letters, is_end, size, head, film[at + 15] % 4, payload))
        at += 8 + size
    return chunks, None


def streams_of(audio):
    return (VIDEO, AUDIO) if audio else (VIDEO,)
