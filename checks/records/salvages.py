#!/usr/bin/env python3
"""Uploads that stopped early (request 12), in the plainest way: cut at every chunk start, and read anew.

    checks/records/salvages.py FOLDER                  write stdin and stdout of crates/gate_salvages
    checks/records/salvages.py --ask LIBRARY [COUNT]   ask usm_salvage of a shared library on COUNT random films (20,000)

Nothing of the library is used for the answers: they come from the rules (model/usm.py), and the longest beginning is
looked for by trying each.
"""
import ctypes
import os
import random
import sys

sys.dont_write_bytecode = True  # the import leaves no folder behind
sys.path.insert(0, os.path.join(os.path.dirname(os.path.abspath(__file__)), "..", "model"))
from usm import END, Refused, be, chunk, header, read_header, streams_of, table, walk

# ---- request 12

def is_accepted(data):
    try:
        audio, start = read_header(data)
    except Refused:
        return False
    return walk(data, start, streams_of(audio))[1] is None


def salvage(data):
    """(kept, dropped, cause); a refusal is raised."""
    audio, start = read_header(data)
    chunks, refused = walk(data, start, streams_of(audio))
    if refused is None:
        return len(data), 0, 0
    for p in sorted([chunk.start for chunk in chunks] + [refused.place], reverse=True):
        if is_accepted(data[:p]):
            return p, len(data) - p, refused.number
    raise Refused(21)


# ---- films

# one column, a string, in one row; the string's offset is far behind the columns
def text_table(gap):
    body = bytes([0x5A]) + be(0, 4) + be(2, 4) + b"n\0" + bytes(gap) + b"t\0"
    return table(body, 1, 1, 24 + 5, 24 + 9, 0)


def chosen():
    """Films of which the gate asks every cut, each with what it is there for."""
    plain = header(False)
    yield "two payloads and an end", plain + chunk(b"@SFV", bytes(40)) + chunk(b"@SFV", bytes(9)) + chunk(b"@SFV", END)
    yield "chunks of 8 bytes, each in need of 45", plain + chunk(b"@SFV", b"v" * 16) + (b"abcd" + bytes(4)) * 9 + bytes(48)
    yield "a payload of 64 bytes, 24 of them past its chunk", plain + chunk(b"@SFV", b"v" * 40, header=0, size=64) + chunk(b"@SFV", bytes(20))
    yield "9 causes the cut", plain + chunk(b"@SFV", bytes(40)) + chunk(b"@SFV", bytes(20), size=3) + bytes(40)
    yield "9 causes it, behind a payload that reaches past the start of the refused chunk", (
        plain + chunk(b"@SFV", bytes(8)) + chunk(b"@SFV", b"v" * 76, header=0, size=100) + chunk(b"@SFV", bytes(60), size=3))
    yield "the first table reaches into the second chunk", (
        plain[:36] + be(24 + 400, 4) + plain[40:] + chunk(b"@SFV", bytes(60)) * 3)
    yield "audio, in its own chunks", header(True) + chunk(b"@SFA", b"a" * 33) + chunk(b"@SFV", b"v" * 12) + chunk(b"@SFA", END)
    yield "chunks begin inside the last block: 21", header(True, last_size=0)
    yield "skipped audio needs no payload", plain + chunk(b"@SFA", bytes(4), size=0x18 + 90) + bytes(86) + chunk(b"@SFV", bytes(5))


def random_film(rng):
    audio = rng.random() < 0.3
    last = rng.choice([None, None, None, 0, 8, 20, 40]) if audio else None
    film = bytearray(header(audio, text_table(rng.choice([0, 3])), last_size=last))
    if rng.random() < 0.3:  # a table that reaches further: its size is larger, its block is not
        size = 24 + 19 + rng.randrange(700)
        film[36:40] = be(size, 4)
    for _ in range(rng.randrange(7)):
        kind = rng.choice([b"@SFV", b"@SFV", b"@SFA", b"abcd"])
        payload = rng.choice([END, bytes(rng.randrange(3)), bytes(rng.randrange(90)), b"p" * rng.randrange(90)])
        head = rng.choice([0x18, 0x18, 0x18, 0, 1, 0x17, 0x20, 60])
        foot = rng.choice([0, 0, 0, 1, 7])
        whole = head + foot + len(payload)
        size = rng.choice([whole, whole, whole, whole, 0, 1, rng.randrange(120), max(0, whole - 1), whole + 30])
        film += chunk(kind, payload, head, foot, size, rng.choice([0, 0, foot, rng.randrange(30)]))
    film += rng.choice([b"", b"", bytes(rng.randrange(60)), b"x" * rng.randrange(60)])
    if rng.random() < 0.5:
        del film[rng.randrange(len(film) // 2, len(film) + 1):]
    if rng.random() < 0.2:
        film[rng.randrange(len(film))] = rng.randrange(256)
    return bytes(film)


# ---- the gate's cases, and a library's answers

def line(film):
    try:
        return "kept %d dropped %d cause %d" % salvage(film)
    except Refused as refused:
        return "refused %d at %d" % (refused.number, refused.place) + (" type %d" % refused.kind if refused.number == 8 else "")


def write_cases(folder):
    films = [film for _, film in chosen()]
    with open(folder + "/stdin", "w") as asked, open(folder + "/stdout", "w") as told:
        for film in films:
            asked.write(film.hex() + "\n")
            for length in range(len(film) + 1):
                told.write(line(film[:length]) + "\n")
    print("%d films, %d answers" % (len(films), sum(len(film) + 1 for film in films)))


class Reply(ctypes.Structure):
    _fields_ = [("refused_at", ctypes.c_size_t), ("kept", ctypes.c_size_t), ("dropped", ctypes.c_size_t),
                ("number", ctypes.c_uint8), ("unknown_type", ctypes.c_uint8), ("cause", ctypes.c_uint8)]


def ask_library(path, count):
    library = ctypes.CDLL(path)
    library.usm_salvage.restype = Reply
    library.usm_salvage.argtypes = [ctypes.c_char_p, ctypes.c_size_t]
    rng, seen = random.Random(12), {}
    for turn in range(count):
        film = random_film(rng)
        reply = library.usm_salvage(film, len(film))
        if reply.number:
            got = "refused %d at %d" % (reply.number, reply.refused_at) + (" type %d" % reply.unknown_type if reply.number == 8 else "")
        else:
            got = "kept %d dropped %d cause %d" % (reply.kept, reply.dropped, reply.cause)
        if got != line(film):
            sys.exit("film %d: the library says %s, and %s is expected\n%s" % (turn, got, line(film), film.hex()))
        seen_as = got.split(" at ")[0] if reply.number else "cause %d" % reply.cause
        seen[seen_as] = seen.get(seen_as, 0) + 1
    for name in sorted(seen):
        print("%8d  %s" % (seen[name], name))
    print("%d films, every answer as expected" % count)


if __name__ == "__main__":
    match sys.argv[1:]:
        case ["--ask", library]:
            ask_library(library, 20000)
        case ["--ask", library, count]:
            ask_library(library, int(count))
        case [folder]:
            write_cases(folder)
        case _:
            sys.exit("usage: checks/records/salvages.py FOLDER, or --ask LIBRARY [COUNT]")
