#!/usr/bin/env python3
"""Statements made by brute force: both streams of a film are unpacked for every tenant, and tenants whose streams
agree byte for byte share a copy. Nothing here is shared with the crates. Writes what the gate replays:

    checks/records/statements.py FOLDER            stdin and stdout of crates/gate_statements
    checks/records/statements.py --answer FOLDER   stdin of crates/who_pays
"""
import os
import random
import sys

sys.dont_write_bytecode = True  # the import leaves no folder behind
sys.path.insert(0, os.path.join(os.path.dirname(os.path.abspath(__file__)), "..", "model"))
import usm
from usm import AUDIO, VIDEO, be

FILMS = 440
ROOM = 4096


def codec_table(codec):
    """A table with the audio codec in its only row, or none."""
    if codec is None:
        return usm.EMPTY
    body = b"\x54" + bytes(4) + be(codec, 4) + b"audio_codec\0"
    return usm.table(body, 1, 1, 29, 33, 24 + len(body), width=4)


def header(audio, codec):
    return usm.header(audio, audio_table=codec_table(codec))


def clear(chunk, codec, key):
    """The payload of a chunk under a key, or as it is stored without one."""
    if key is None or chunk.data_type != 0:
        return chunk.payload
    if chunk.letters == VIDEO:
        return usm.clear_video(key, chunk.payload)
    return usm.masked_audio(key, chunk.payload) if codec == 2 else chunk.payload


def unpacked(film, start, audio, codec, key):
    """Both streams under a key, or a refusal's number and place."""
    chunks, refused = usm.walk(film, start, usm.streams_of(audio))
    if refused:
        return refused.number, refused.place
    taken = [chunk for chunk in chunks if chunk.payload is not None]
    return tuple(b"".join(clear(chunk, codec, key) for chunk in taken if chunk.letters == letters) for letters in (VIDEO, AUDIO))


def statement(film, start, audio, codec, tenants):
    """The reply and the lines, made from the streams of every tenant."""
    numbers = [number for number, _ in tenants]
    if not tenants or len(tenants) > 16 or len(set(numbers)) < len(numbers):
        return [22, 0, 0]
    streams = {number: unpacked(film, start, audio, codec, key) for number, key in tenants}
    first = streams[numbers[0]]
    if isinstance(first[0], int):
        return [first[0], first[1], 0]
    out = [0, 0, len(tenants)]
    for number in sorted(numbers):
        group = sorted(n for n in numbers if streams[n] == streams[number])
        size = len(streams[number][0]) + len(streams[number][1])
        even, over = divmod(size, len(group))
        out += [number, group[0], even + (group.index(number) < over)]
    return out


def chunk(letters, length, data_type, chance):
    """The opening of a chunk, with a header size of 0x18 and a footer, and how far it reaches."""
    foot = chance.choice([0, 0, 0, 3, 32])
    head = 0x18
    opening = letters + be(head + foot + length, 4) + be(head, 2) + be(foot, 2)
    opening += bytes([chance.randrange(256), chance.randrange(256), chance.randrange(256), data_type | chance.choice([0, 0xFC])])
    if chance.random() < 0.02:
        opening = opening[:10] + b"\xFF" + opening[11:]
    return opening, 8 + head + foot + length


VIDEO_LENGTHS = [0, 1, 0x1F, 0x23F, 0x240, 0x241, 0x250, 0x2A0, 0x300]
AUDIO_LENGTHS = [0, 1, 0x13F, 0x140, 0x141, 0x142, 0x143, 0x148, 0x151, 0x152, 0x157, 0x158, 0x159, 0x15F, 0x160, 0x161, 0x1F0]


def keys(chance):
    """Keys that differ in a few bits, those that count and those that do not."""
    base = chance.getrandbits(64)
    some = [base]
    for _ in range(5):
        key = chance.choice(some)
        bits = chance.choice([range(36, 40), range(56, 64), range(40, 48), range(0, 36), range(48, 56), range(64)])
        some.append(key ^ 1 << chance.choice(list(bits)))
    return some


def films():
    chance = random.Random(13)
    for number in range(FILMS):
        audio = chance.random() < 0.75
        codec = chance.choice([2, 2, 2, 4, None]) if audio else None
        front = header(audio, codec)
        puts = [(i, front[i:i + 16]) for i in range(0, len(front), 16)]
        at = len(front)
        for _ in range(chance.choice([0, 1, 1, 2, 2, 3])):
            letters = chance.choice([VIDEO, AUDIO, AUDIO, b"@SBT"])
            length = chance.choice(VIDEO_LENGTHS if letters == VIDEO else AUDIO_LENGTHS)
            if number % 4 == 0 and letters == VIDEO:
                length = min(length, 0x23F)
            opening, reach = chunk(letters, length, chance.choice([0, 0, 0, 1, 2, 3]), chance)
            puts.append((at, opening))
            at += reach
        end = at + chance.choice([0] * 17 + [3, 4, 44]) - chance.choice([0] * 19 + [20])
        end = max(end, len(front))
        some = keys(chance)
        count = chance.choice([0, 1, 2, 3, 4, 5, 6, 8, 16, 17])
        tenants = [(chance.choice([chance.randrange(8), chance.randrange(1000), chance.getrandbits(64)]), chance.choice(some)) for _ in range(count)]
        if chance.random() < 0.9:
            tenants = list(dict(tenants).items())
        yield len(front), audio, codec, puts, min(end, ROOM), tenants


def record(letter, number, data=b""):
    return "%s %08x %s\n" % (letter, number, data.ljust(16, b"\0").hex())


def write_replay(folder):
    buffer = bytearray(ROOM)
    asked, answers = "", ""
    for start, audio, codec, puts, end, tenants in sorted(films(), key=lambda film: (film[1], str(film[2]))):
        asked += record("n", end)
        for place, data in puts:
            if buffer[place:place + len(data)] != data and place + len(data) <= ROOM:
                buffer[place:place + len(data)] = data
                asked += record("p", place, data)
        for number, key in tenants:
            asked += record("t", 0, be(number, 8) + be(key, 8))
        asked += record("s", 0)
        for order in tenants, tenants[::-1]:
            answers += "".join("%d " % n for n in statement(bytes(buffer[:end]), start, audio, codec, order)) + "\n"
    with open(folder + "/stdin", "w") as f:
        f.write(asked)
    with open(folder + "/stdout", "w") as f:
        f.write(answers)


def write_answer(folder):
    chance = random.Random(1)
    film = bytearray(header(True, 2))
    for letters, length in ((VIDEO, 0x300), (AUDIO, 0x150), (VIDEO, 0x100)):
        film += usm.chunk(letters, bytes(chance.randrange(256) for _ in range(length)))
    with open(folder + "/stdin", "wb") as f:
        f.write(film)


def main():
    match sys.argv[1:]:
        case ["--answer", folder]:
            write_answer(folder)
        case [folder]:
            write_replay(folder)
        case _:
            sys.exit("usage: checks/records/statements.py [--answer] FOLDER")


if __name__ == "__main__":
    main()
