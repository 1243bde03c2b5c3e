#!/usr/bin/env python3
"""Films, and what requests 8 and 14 ask of them, in the plainest words: no part of the library is used.

    checks/records/requests.py FOLDER

writes the films to FOLDER/stdin, a line each, and the answers to FOLDER/stdout. Films are made of a header (that of
example F, or one with audio) and of random chunks, from a fixed seed; every number is read back from the bytes.
"""
import os
import random
import sys

sys.dont_write_bytecode = True  # the import leaves no folder behind
sys.path.insert(0, os.path.join(os.path.dirname(os.path.abspath(__file__)), "..", "model"))
import usm
from usm import AUDIO as SFA, END, VIDEO as SFV, header, streams_of, walk


def chunk(letters, payload, head=0x18, pad=True, end=False):
    """A chunk, or an end. What follows its payload is counted as its footer."""
    inside = END if end else payload
    padding = -len(inside) % 0x20 if pad else 13
    footer = padding + (len(inside) if end else 0)
    return usm.chunk(letters, inside, head, footer, head + len(inside) + padding, padding)


def verdict(film, audio, start):
    chunks, refused = walk(film, start, streams_of(audio))
    if refused:
        return "refused %d at %d" % (refused.number, refused.place)
    present = {SFV: "video", SFA: "audio"} if audio else {SFV: "video"}
    closed = set()
    for at, letters, end, size, head, _, _ in chunks:
        if head != 0x18:
            return "not plain: rule 1 at %d, chunk header size 0x18" % at
        if (size + 8) % 0x20:
            return "not plain: rule 2 at %d, block size plus 8 a multiple of 0x20" % at
        if letters in closed:
            return "not plain: rule 3 at %d, %s closed by exactly one end chunk" % (at, present[letters])
        if letters not in (SFV, SFA):
            return "not plain: rule 4 at %d, no signatures but @SFV and @SFA" % at
        if end and letters in present:
            closed.add(letters)
    for letters in present:
        if letters not in closed:
            return "not plain: rule 3 at %d, %s closed by exactly one end chunk" % (len(film), present[letters])
    return "plain"


def jumps(film, start):
    chunks, refused = walk(film, start, [SFV])
    if refused:
        return ["refused %d at %d" % (refused.number, refused.place)]
    entries, stream = [], []
    for taken in (chunk for chunk in chunks if chunk.payload is not None):
        entries.append((len(stream), taken.start, len(taken.payload)))
        stream += [(taken.start, i) for i in range(len(taken.payload))]
    answers = ["%d+%d" % stream[n] if n < len(stream) else "-" for n in range(64)]
    return ["index" + "".join(" %d:%d:%d" % entry for entry in entries), "jumps " + " ".join(answers)]


def films(chance):
    for audio in (False, True):
        ends = [chunk(SFV, b"", end=True)] + ([chunk(SFA, b"", end=True)] if audio else [])
        yield audio, b""
        yield audio, b"".join(ends)
        yield audio, b"".join(reversed(ends))
        yield audio, ends[0]
        yield audio, b"".join(ends) + ends[-1]
        yield audio, b"".join(ends) + chunk(SFV, b"")
        yield audio, chunk(SFV, b"abc") + chunk(SFV, b"") + chunk(SFV, b"") + chunk(SFV, b"de") + chunk(SFV, b"") + b"".join(ends)
        yield audio, chunk(b"@XYZ", b"", end=True) + b"".join(ends)
        yield audio, chunk(SFA, b"", end=True) + chunk(SFA, b"xyz") + b"".join(ends)
        yield audio, b"".join(ends) + b"@SF"
        yield audio, b"".join(ends) + b"@SFV" + bytes(20)
    for _ in range(26):
        audio = chance.random() < 0.5
        parts = []
        for _ in range(chance.randrange(5)):
            letters = chance.choice([SFV, SFV, SFV, SFA, SFA, b"@ABC"])
            payload = bytes(chance.randrange(1, 200) for _ in range(chance.choice([0, 0, 1, 5, 17])))
            head = 0x18 if chance.random() < 0.9 else chance.choice([0, 0x20, 0x17])
            parts.append(chunk(letters, payload, head, chance.random() < 0.95, chance.random() < 0.1))
        parts += [chunk(letters, b"", end=True) for letters in ([SFV, SFA] if audio else [SFV]) if chance.random() < 0.9]
        yield audio, b"".join(parts)


def main(folder):
    with open(folder + "/stdin", "w") as given, open(folder + "/stdout", "w") as expected:
        for audio, chunks in films(random.Random(14)):
            first = header(audio)
            film = first + chunks
            given.write("f %s\n" % film.hex())
            for line in [verdict(film, audio, len(first))] + jumps(film, len(first)):
                expected.write(line + "\n")


if __name__ == "__main__":
    if len(sys.argv) != 2:
        sys.exit("usage: checks/records/requests.py FOLDER")
    main(sys.argv[1])
