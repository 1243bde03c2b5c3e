#!/usr/bin/env python3
"""The inputs that fuzzing begins with: films and tables by the makers of checks/model, csv_check and records.

    checks/fuzz/seeds.py FOLDER     writes FOLDER/HARNESS/NUMBER for each harness, the same in every run

An input begins with 25 bytes that say how a call is made (harness.h); a film, a table or parts follow.
"""
import os
import random
import sys

HERE = os.path.dirname(os.path.abspath(__file__))
sys.dont_write_bytecode = True  # the import leaves no folder behind
sys.path[:0] = [os.path.join(HERE, "..", folder) for folder in ("model", "csv_check", "records")]
import moves
import requests
import salvages
import usm
import writes
from tables import table_by
from usm import AUDIO, END, VIDEO, be, chunk, header

KEY = 0x0123456789ABCDEF
FILMS = "films", "pieces", "bits", "jumps", "statements", "profiles", "salvages", "reader"


def options(audio=1, channel=0, payloads=0, tables=0, key=None, other=0, rooms=(0, 0), edge=0, choice=0):
    number = 0 if key is None else key
    return (bytes([audio, channel, payloads, tables, key is not None]) + number.to_bytes(8, "little") +
            other.to_bytes(8, "little") + bytes([*rooms, edge, choice]))


def lengths_that_count():
    """Payload lengths around each at which something changes."""
    return [0, 1, 12, 13, 0x1F, 0x20, 0x13F, 0x140, 0x141, 0x143, 0x145, 0x147, 0x149, 0x14F, 0x158, 0x159, 0x160, 0x23F, 0x240, 0x261]


def masked_films(chance):
    """Films of one masked payload each, and what usm_write makes of both streams."""
    for length in lengths_that_count():
        clear = chance.randbytes(length)
        yield header(False) + chunk(VIDEO, usm.masked_video(KEY, clear), byte15=length % 2)
        adx = header(True, audio_table=writes.codec_table(b"audio_codec", 2))
        yield adx + chunk(AUDIO, usm.masked_audio(KEY, clear), byte15=4 * (length % 2)) + chunk(VIDEO, clear[:40])
        yield writes.film_of(b"songs/lark.usm", clear, clear[::2], 9, 2, KEY)
        yield writes.film_of(clear[:31], clear, None, None, None, None)


def named_films():
    """Names in two rows, by a string and by data; codecs of every type of number, one by a signed one."""
    for kind, cells in ((0x5A, be(9, 4) + be(11, 4)), (0x5B, be(0, 4) + be(1, 4) + be(1, 4) + be(2, 4))):
        body = bytes([kind]) + bytes(4) + cells + b"filename\0a\0bc\0"
        strings = 24 + 5 + len(cells)
        yield header(True, usm.table(body, 1, 2, 29, strings, strings + 9)) + chunk(VIDEO, bytes(20))
    for kind, cell in ((0x50, b"\x09"), (0x51, b"\xFF"), (0x52, b"\0\x09"), (0x53, b"\x80\0"), (0x55, b"\xFF" * 4),
                       (0x56, be(9, 8)), (0x58, bytes(4)), (0x34, be(2, 4)), (0x14, be(4, 4)), (0x57, b"")):
        codecs = [writes.one_cell(kind, column, cell, b"") for column in (b"mpeg_codec", b"audio_codec")]
        yield header(True, usm.EMPTY, *codecs) + chunk(AUDIO, bytes(0x150))


def odd_films(chance):
    """Tables of every kind in the header, header sizes and channels of every kind behind it."""
    for turn in range(60):
        audio = turn % 3 != 0
        tables = [table_by(chance) for _ in range(3)]
        codec = writes.codec_table(b"audio_codec" if turn % 2 else b"mpeg_codec", chance.choice([2, 4, 9, 0xFFFFFFFF]))
        film = header(audio, tables[0], codec if turn % 5 else tables[1], codec if turn % 4 else tables[2],
                      last_size=chance.choice([None, None, 0, 0x40]))
        for _ in range(chance.randrange(5)):
            letters = chance.choice([VIDEO, AUDIO, AUDIO, b"@SBT"])
            payload = chance.choice([END, chance.randbytes(chance.choice(lengths_that_count()))])
            head = chance.choice([0x18, 0x18, 0x18, 0x17, 0x20, 0x40])
            made = bytearray(chunk(letters, payload, head, chance.choice([0, 0, 8]), pad=head - 0x18 if head > 0x18 else 0))
            made[12] = chance.randrange(3)
            film += made
        yield film
    for turn in range(60):
        yield salvages.random_film(chance)
    for _, film in salvages.chosen():
        yield film


def shaped_films():
    """Ends twice and missing; blocks that begin at no multiple of 4; a masked payload that reaches into the next chunk."""
    for audio, chunks in requests.films(random.Random(14)):
        yield header(audio) + chunks
    plain = header(False) + chunk(VIDEO, bytes(40))
    size = usm.number_at(plain, 4, 4)
    for more in 1, 2, 3:
        yield plain[:4] + be(size + more, 4) + plain[8:8 + size] + bytes(more) + plain[8 + size:]
    yield header(False) + chunk(VIDEO, bytes(0x248), header=0, size=0x260) + chunk(VIDEO, bytes(0x240)) + bytes(40)
    # A masked payload behind another.
    yield header(False) + chunk(VIDEO, bytes(40)) + chunk(VIDEO, bytes(0x250))


def readings(chance):
    return options(audio=chance.choice([0, 1, 1, 1, 2]), channel=chance.randrange(3), payloads=chance.choice([0, 0, 1]),
                   tables=chance.choice([0, 0, 1]), key=chance.choice([None, KEY, chance.getrandbits(64)]),
                   other=chance.choice([KEY, chance.getrandbits(12), chance.getrandbits(64)]),
                   rooms=(chance.choice([0, 0, 1, 2, 3, 40]), chance.choice([0, 0, 1, 2, 3, 40])),
                   edge=chance.randrange(2), choice=chance.randrange(256))


def film_seeds(chance):
    for film in [*masked_films(chance), *named_films(), *shaped_films(), *odd_films(chance)]:
        yield options(key=KEY) + film
        yield readings(chance) + film


def tenant_seeds(chance):
    """A film behind its tenants: a number and how the key is turned, two bytes each."""
    for film in masked_films(chance):
        count = chance.choice([0, 1, 2, 3, 16, 17])
        tenants = b"".join(bytes([i + chance.randrange(2), chance.choice([0, 0x40 | chance.randrange(64), 0x80])]) for i in range(count))
        yield options(key=KEY, other=chance.getrandbits(64), choice=count, edge=count % 2) + tenants + film


def table_seeds(chance):
    for turn in range(120):
        yield options(tables=turn % 2, edge=turn // 2 % 2, rooms=(turn % 5, turn % 3)) + table_by(chance, 64, 256 if turn == 7 else 5)
    yield options(choice=2, other=2**64 - 1) + usm.EMPTY
    yield options(choice=4) + b"x" + usm.EMPTY
    yield options() + usm.table(bytes(5) * 3 + b"\0", 65, 0, 24, 24, 24)
    yield options() + usm.table(b"", 0, 257)


def mask_seeds(chance):
    for length in lengths_that_count():
        for choice in range(3):
            yield options(key=chance.getrandbits(64), other=length + choice, rooms=(choice, 0), choice=choice) + chance.randbytes(length)


def write_seeds(chance):
    for turn in range(60):
        head = bytes([9, 0, 0, 0, turn % 2, chance.choice([2, 4]), 0, 0, 0, turn % 3 > 0, turn % 2, turn % 4 > 1])
        numbers = b"".join(chance.choice(lengths_that_count()).to_bytes(2, "little") for _ in range(3))
        turns = bytes([chance.choice([0, 0, 0, 6, 7]), chance.choice([0, 0, 6, 7]), chance.choice([0, 0, 15]), chance.choice([0, 0, 15])])
        yield options(key=chance.choice([None, KEY]), rooms=(turn % 5, 0)) + head + numbers + turns + bytes(2) + chance.randbytes(64)


def move_seeds(chance):
    names = [b"", b"n", b"one of thirty-two bytes for usm.", "\u30a2\u30cb\u30e1.usm".encode(), b"\xff", b"\xed\xa0\x80"]
    for turn in range(60):
        audios = [chance.randbytes(chance.choice([0, 1, 4, 36, 1000])) for _ in range(chance.choice([0, 1, 1, 2, 3]))]
        name, video = chance.choice(names), chance.randbytes(chance.choice([0, 1, 31, 36, 68, 999, 1000]))
        how = options(payloads=turn % 2, tables=turn % 3 > 1, key=chance.getrandbits(40), rooms=(turn % 5, turn % 4))
        yield how + moves.old_film(name, video, audios)
        if len(audios) < 2:
            audio = audios[0] if audios else None
            yield how + writes.film_of(name, video, audio, chance.choice([None, 9]), 2 if audios else None, None)
    yield options() + moves.old_film(b"n", END, [b"a"])


def typed_seeds(_):
    for text in ("7F123456789ABCDE", "0x0", "0XfF", "18446744073709551615", "64M", "1g", "0x20", "32", "", "123456789012345678901",
                 "3,4\n1,2\n", " 3 , 4 \n1,2", "tenant,key\r\n3,4\r\n1,2\r\n", "Tenant ; KEY\n3;4\n1;2\n",
                 "\ufeff3,4\n1,2\n", '"3","4"\n\n1,2\n', "1,2\n\n1,3\n", "1\n", "1,2,3\n", "+1,2\n",
                 "".join("%d,%x\n" % (i, i) for i in range(17))):
        yield text.encode()


def name_seeds(_):
    for text in ("film\0songs/lark.usm\0x/y.usm", "file\0..\0-", "{film}-{file}\0C:\\films\\lark.v2.usm\0../a.usm",
                 "{file}{\0.bashrc\0b", "../{film}\0-rf\0c", "{film}\0" + "x" * 300 + "\0d", "{film}\0a\u202eb\0e"):
        yield text.encode()
    yield b"{film}\0\x83\\\x83C\x83\x93.usm\0f"


def bill_seeds(_):
    for text in ("tenant,key,film\n1,0123456789ABCDEF,b.usm\n2,FEDCBA9876543210,c.usm\n",
                 "film;tenant;name;key\r\na.usm;7;North;\r\n\r\nb.usm;8;East;0x1\r\n",
                 "\ufefftenant,key,film\n18446744073709551615,,a.usm\n0,FF,a.usm\n", "tenant,key,film,KEY\n1,2,a.usm\n",
                 "tenant,key,film\n1,2\n", "tenant,key,film\n1,g,a.usm\n-1,2,a.usm\n,,\n", "tenant,key,film\n1,2,gone.usm\n",
                 'tenant,key,film\n"1","2","a.usm"\n1,"2,a.usm\n', "tenant,key,film\r1,2,a.usm\r", "", "tenant,key,film",
                 "tenant,key,film\n1,,a.usm\n2,,a.usm\n3,FF,a.usm\n",
                 "tenant,key,film\n5,0123456789ABCDEF,./b.usm\n5,FF23456789ABCDEF,b.usm\n6,0123456789ABCDEF,b.usm\n"):
        yield text.encode()


def main(folder):
    made = {name: film_seeds for name in FILMS}
    made |= {"typed": typed_seeds, "names": name_seeds, "bills": bill_seeds, "ledgers": lambda _: [b""]}
    made |= {"statements": tenant_seeds, "tables": table_seeds, "masks": mask_seeds, "writes": write_seeds, "moves": move_seeds}
    for name, seeds in made.items():
        os.makedirs(os.path.join(folder, name), exist_ok=True)
        for number, seed in enumerate(seeds(random.Random(31))):
            with open(os.path.join(folder, name, "%04d" % number), "wb") as file:
                file.write(seed)


if len(sys.argv) != 2:
    sys.exit("usage: checks/fuzz/seeds.py FOLDER")
main(sys.argv[1])
