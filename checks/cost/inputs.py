"""What the cost of is counted: inputs that are always the same, and the calls on them.

Films and tables are made by checks/model, checks/records and checks/csv_check; none is made by the library. A case is a
call: cost.c says what its number means. A worst case has its work too, by which its cost is bounded.
"""
import os
import random
import sys
from collections import namedtuple

sys.dont_write_bytecode = True  # the import leaves no folder behind
CHECKS = os.path.dirname(os.path.dirname(os.path.abspath(__file__)))
sys.path[:0] = [os.path.join(CHECKS, part) for part in ("model", "records", "csv_check")]
import moves
import statements
import tables
import usm
import writes
from usm import AUDIO, VIDEO, be

Case = namedtuple("Case", "name function file number expected work")


class Inputs:
    """The files of a folder, each of which is written once, and the cases over them."""

    def __init__(self, folder):
        self.folder, self.cases = folder, []

    def case(self, name, function, data, number=0, expected=0, work=None):
        file = name.replace("/", "-")
        with open(os.path.join(self.folder, file), "wb") as f:
            f.write(data)
        self.cases.append(Case(name, function, file, number, expected, work))


# ---- films and tables


def bytes_by(seed, count):
    return random.Random(seed).randbytes(count)


def film(payload, count):
    """A film with ADX audio: three payloads of video to one of audio."""
    made = [statements.header(True, 2)]
    for number in range(count):
        letters = AUDIO if number % 4 == 3 else VIDEO
        made.append(usm.chunk(letters, bytes_by(number, payload)))
    return b"".join(made) + b"".join(usm.block(letters, usm.marker(usm.END), framed=True) for letters in (VIDEO, AUDIO))


def closest_chunks(count, refused=False):
    """Chunks that stand 8 bytes apart, as close as they can. The last ends with the film, or leads past it."""
    last = bytes(4) + be(48 if refused else 40, 4) + bytes(40)
    return statements.header(True, 2) + bytes(8 * (count - 1)) + last + (VIDEO + be(1000, 4) + be(0x18, 2) + bytes(40) if refused else b"")


def closest_payloads(count):
    """Chunks of video 16 bytes apart, each with a payload of 8 bytes that lies in a chunk after it."""
    chunk = usm.chunk(VIDEO, b"", header=0, size=8)[:16]
    return statements.header(True, 2) + chunk * count + usm.block(VIDEO, usm.marker(usm.END), framed=True)


def plain_table():
    """A table of many columns and rows and of all types."""
    for seed in range(10000):
        table = tables.table_by(random.Random(seed), 64, 256)
        columns, rows = usm.number_at(table, 24, 2), usm.number_at(table, 28, 4)
        if len(table) > 32 and 20 <= columns <= 64 and 100 <= rows <= 256 and isinstance(tables.answer(table, False), bytes):
            return table
    raise SystemExit("cost: no such table")


def shared_text(columns, rows, text, name=b"n"):
    """A table whose string cells all point at one text, and whose columns all have one name."""
    records = (b"\x5A" + be(len(text) + 1, 4)) * columns
    cells = bytes(4) * (columns * rows)
    start = 24 + len(records)
    body = records + cells + text + b"\0" + name + b"\0"
    return usm.table(body, columns, rows, start, start + len(cells), 24 + len(body), version=1, width=4 * columns)


# ---- the calls


def counted(inputs):
    """A call or some of every export, on ordinary input."""
    payload, whole, short, table = bytes_by(1, 65536), film(4096, 120), film(40, 2000), plain_table()
    streams, video = bytes_by(2, 400000), 300000
    for name in "usm_unmask_video", "usm_mask_video", "usm_unmask_audio", "usm_mask_audio":
        inputs.case(name + "/65536", name, payload)
        inputs.case(name + "/577", name, payload[:577])
    inputs.case("usm_key_table", "usm_key_table", b"")
    inputs.case("usm_clear/video", "usm_clear", payload, 1)
    inputs.case("usm_clear/audio", "usm_clear", payload, 2)
    inputs.case("usm_clear_piece/video", "usm_clear_piece", payload, 1)
    inputs.case("usm_clear_piece/audio", "usm_clear_piece", payload, 2)
    inputs.case("usm_payload_bits", "usm_payload_bits", b"", 0x150)
    inputs.case("usm_table", "usm_table", table)
    inputs.case("usm_cell", "usm_cell", b"n" + shared_text(40, 20, b"a text"), 1)
    inputs.case("usm_column", "usm_column", shared_text(40, 20, b"a text"), 39)
    inputs.case("usm_cell_at", "usm_cell_at", shared_text(40, 20, b"a text"), 19 << 32 | 39)
    size = len(tables.answer(table, False))
    inputs.case("usm_csv/size", "usm_csv", table, 0, 16)
    inputs.case("usm_csv/written", "usm_csv", table, size)
    inputs.case("usm_open", "usm_open", whole)
    inputs.case("usm_step", "usm_step", whole)
    inputs.case("usm_extract/stored", "usm_extract", whole)
    inputs.case("usm_extract/clear", "usm_extract", whole, 1)
    inputs.case("usm_extract/size", "usm_extract", whole, 2, 12)
    inputs.case("usm_extract/short", "usm_extract", short, 1)
    inputs.case("usm_list/count", "usm_list", short, 0, 13)
    inputs.case("usm_list/filled", "usm_list", short, 2002)
    inputs.case("usm_index", "usm_index", short, 1500)
    inputs.case("usm_seek", "usm_seek", b"", 1000)
    inputs.case("usm_salvage", "usm_salvage", whole[:-1000])
    inputs.case("usm_profile", "usm_profile", short)
    for name in "usm_profile_begin", "usm_profile_step", "usm_profile_end", "usm_header_tables":
        inputs.case(name, name, short)
    inputs.case("usm_statement", "usm_statement", short)
    inputs.case("usm_key_bits", "usm_key_bits", short)
    inputs.case("usm_statement_by", "usm_statement_by", b"", 0x00FFFF0FFFFFFFFF)
    inputs.case("usm_apart", "usm_apart", short, 1)
    inputs.case("usm_payload_apart", "usm_payload_apart", b"", 0x150)
    inputs.case("usm_why", "usm_why", b"", 0x00FFFF0FFFFFFFFF)
    inputs.case("usm_write", "usm_write", streams, video)
    inputs.case("usm_write_open", "usm_write_open", b"", video)
    inputs.case("usm_write_chunk", "usm_write_chunk", b"", video)
    inputs.case("usm_write_payload/video", "usm_write_payload", payload, 1)
    inputs.case("usm_write_payload/audio", "usm_write_payload", payload, 2)
    inputs.case("usm_write_end", "usm_write_end", b"")
    old = moves.old_film(b"lark", streams[:video], [streams[video:]])
    inputs.case("usm_from_old", "usm_from_old", old)
    inputs.case("usm_to_old", "usm_to_old", writes.film_of(b"lark", streams[:video], streams[video:], 1, 2, None))


def worst(inputs):
    """Inputs that are made to cost most, in two sizes, each with its work: what the cost is held to be in proportion to."""
    for times in 1, 4:
        text, rows = b'"' * (1000 * times), 64 * times
        table = shared_text(64, rows, b"t" * (4000 * times))
        inputs.case("worst/usm_table/cells/%d" % times, "usm_table", table, work=64 * rows + len(table))
        inputs.case("worst/usm_cell_at/%d" % times, "usm_cell_at", table, (rows - 1) << 32 | 63, work=64 + 4000 * times)
        table = shared_text(64, 1, b"t", name=b"n" * (4000 * times))
        inputs.case("worst/usm_table/names/%d" % times, "usm_table", table, work=64 + len(table))
        name = b"n" * (1000 * times)
        table = shared_text(64, 1, b"t", name=name + b"o")
        inputs.case("worst/usm_cell/names/%d" % times, "usm_cell", name + b"p" + table, len(name) + 1, work=64 * len(name) + len(table))
        table = shared_text(8, 8 * times, text)
        size = len(tables.answer(table, False))
        inputs.case("worst/usm_csv/size/%d" % times, "usm_csv", table, 0, 16, work=len(table) + size)
        inputs.case("worst/usm_csv/written/%d" % times, "usm_csv", table, size, work=len(table) + size)
        table = shared_text(64, 4 * times, b"", name=b'"' * 4000)
        size = len(tables.answer(table, False))
        inputs.case("worst/usm_csv/names/%d" % times, "usm_csv", table, 0, 16, work=len(table) + size)
        chunks = 2000 * times
        close, cut = closest_chunks(chunks), closest_chunks(chunks, refused=True)
        inputs.case("worst/usm_salvage/%d" % times, "usm_salvage", cut, work=chunks)
        inputs.case("worst/usm_extract/%d" % times, "usm_extract", close, 1, work=chunks)
        inputs.case("worst/usm_list/%d" % times, "usm_list", close, chunks, work=chunks)
        inputs.case("worst/usm_index/%d" % times, "usm_index", close, 0, work=chunks)
        inputs.case("worst/usm_profile/%d" % times, "usm_profile", close, work=chunks)
        inputs.case("worst/usm_key_bits/%d" % times, "usm_key_bits", close, work=chunks)
        inputs.case("worst/usm_statement/%d" % times, "usm_statement", close, work=chunks)
        short = closest_payloads(chunks)
        for name, number in (("usm_extract", 1), ("usm_list", chunks + 1), ("usm_index", chunks), ("usm_salvage", 0), ("usm_statement", 0), ("usm_apart", 1)):
            inputs.case("worst/%s/payloads/%d" % (name, times), name, short, number, work=chunks)
        streams = bytes_by(3, 200000 * times)
        half = len(streams) // 2
        old = moves.old_film(b"lark", streams[:half], [streams[half:]])
        new = writes.film_of(b"lark", streams[:half], streams[half:], 1, 2, None)
        inputs.case("worst/usm_from_old/%d" % times, "usm_from_old", old, work=len(old) + len(new))
        inputs.case("worst/usm_to_old/%d" % times, "usm_to_old", new, work=len(old) + len(new))
        # Of the one only its count of frames is wrong, which follows from all of its video; the other has many audios.
        foreign = old.replace(moves.video_table(streams[:half]), moves.video_table(streams[1000:half]))
        inputs.case("worst/usm_from_old/foreign/%d" % times, "usm_from_old", foreign, 0, 19, work=len(old))
        dubbed = moves.old_film(b"lark", b"v", [b"a"] * (100 * times))
        inputs.case("worst/usm_from_old/dubbed/%d" % times, "usm_from_old", dubbed, 0, 20, work=len(dubbed))
        inputs.case("worst/usm_seek/%d" % times, "usm_seek", b"", 2 ** (4 * times + 4) - 1, work=4 * times + 4)


def make(folder):
    inputs = Inputs(folder)
    counted(inputs)
    worst(inputs)
    return inputs.cases
