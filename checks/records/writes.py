#!/usr/bin/env python3
"""Makes stdin and stdout of crates/gate_writes: a list of films to be written, and what has to come of each.

    checks/records/writes.py crates/gate_writes

It knows nothing of the library. It states rules W of docs/RULES.md once more, in the plainest way: a film is put
together block by block as a bytes object (model/usm.py), payloads are masked byte by byte, and what is read back is
what was given. The format of both files is in crates/gate_writes/README.md.
"""
import os
import sys

sys.dont_write_bytecode = True  # the import leaves no folder behind
sys.path.insert(0, os.path.join(os.path.dirname(os.path.abspath(__file__)), "..", "model"))
import usm
from usm import END, be, block, marker, masked_audio, masked_video, payloads

# Where name, video and audio stand in the bytes that the generator makes.
NAME, VIDEO, AUDIO, SPACE = 0, 0x1000, 0x28000, 0x50000


def sample(count):
    """The generator's bytes."""
    x, made = 1, bytearray()
    for _ in range(count):
        x = (x * 1103515245 + 12345) % 2**31
        made.append(x // 65536 % 256)
    return bytes(made)


def digest(data):
    h = 0
    for b in data:
        h = (h * 65599 + b + 1) % 4294967291
    return "%08x" % h


# ---- rules W


def one_cell(kind, column, cell, data):
    """A table of one column and one row."""
    strings = 24 + 5 + len(cell)
    body = bytes([kind]) + bytes(4) + cell + column + b"\0" + data
    return usm.table(body, 1, 1, 29, strings, strings + len(column) + 1, name=len(column), width=len(cell))


def codec_table(column, codec):
    return usm.EMPTY if codec is None else one_cell(0x54, column, be(codec, 4), b"")


def film_of(name, video, audio, video_codec, audio_codec, key):
    """A film's bytes; None stands for what is not there."""
    entry = one_cell(0x5B, b"filename", bytes(4) + be(len(name), 4), name)
    codecs = codec_table(b"mpeg_codec", video_codec), codec_table(b"audio_codec", audio_codec)
    made = usm.header(audio is not None, entry, *codecs, framed=True)
    seen, heard = payloads(video), payloads(audio or b"")
    for turn in range(max(len(seen), len(heard))):
        if turn < len(seen):
            made += block(usm.VIDEO, seen[turn] if key is None else masked_video(key, seen[turn]), framed=True)
        if turn < len(heard):
            masks = key is not None and audio_codec == 2
            made += block(usm.AUDIO, masked_audio(key, heard[turn]) if masks else heard[turn], framed=True)
    for letters in usm.streams_of(audio is not None):
        made += block(letters, marker(END), framed=True)
    return made


def answer(name, video, audio, video_codec, audio_codec, key, room):
    """The number, the size and the output after it."""
    untouched = b"\xEE" * room
    if audio is None and audio_codec is not None:
        return 23, 0, untouched
    film = film_of(name, video, audio, video_codec, audio_codec, key)
    if any(p.startswith(END) for p in payloads(video) + payloads(audio or b"")):
        return 15, 0, untouched
    if room < len(film):
        return 16, len(film), untouched
    return 0, len(film), film + untouched[len(film):]


# ---- the list


def cases():
    """Name's length, video's, audio's or None, codecs or None, key or None, the marker's place or 0, room or None for the film's size and 7 more."""
    key = 0x0123456789ABCDEF
    made = []
    lengths = [0, 1, 31, 32, 33, 0x23F, 0x240, 0x261, 65535, 65536, 65537, 131072, 131073]
    for i, n in enumerate(lengths):
        other = lengths[-1 - i]
        made.append((i, n, None, None, None, None, 0, None))
        made.append((0, n, 0, 9, 2, key, 0, None))
        made.append((5, n, other, None, 2, key, 0, None))
    for n in 0, 1, 10, 11, 42, 43, 255, 256, 4096:
        made.append((n, 3, None, None, None, None, 0, None))
    for codec in 0, 1, 9, 2**32 - 1:
        made.append((4, 700, 700, codec, None, key, 0, None))
    for codec in None, 0, 2, 3, 4, 2**32 - 1:
        for k in None, 0, key, 2**64 - 1:
            made.append((4, 700, 700, None, codec, k, 0, None))
    for audio in None, 0, 1, 0x13F, 0x140, 0x141, 0x160, 65536, 65537:
        made.append((4, 1000, audio, 1, None if audio is None else 2, key, 0, None))
    made.append((4, 131072, 65536, 1, 2, 0, 0, None))
    # 23, before every other number
    made.append((4, 3, None, None, 2, None, 0, 0))
    made.append((4, 131072, None, 1, 0, key, VIDEO, 0))
    # 15: every payload of both streams is asked, and the marker whole; a payload too short for it is none
    for place in VIDEO, VIDEO + 65536, VIDEO + 131072 - 65536, AUDIO, AUDIO + 65536:
        made.append((4, 131072, 131072, 1, 2, key, place, 0))
    made.append((4, 131072, 131072, 1, 2, key, VIDEO + 1, None))
    made.append((4, 131072, 131072, 1, 2, key, AUDIO + 65535, None))
    made.append((4, 13, 12, None, None, None, VIDEO, 0))
    made.append((4, 12, 12, None, None, None, VIDEO, None))
    made.append((4, 12, 12, None, None, None, AUDIO, None))
    made.append((4, 12, None, None, None, None, AUDIO, None))
    # 16, and room that is just enough
    for less in 480, 479, 1, 0:
        made.append((4, 3, None, None, None, None, 0, 480 - less))
    made.append((4, 65537, 65536, 9, 4, key, 0, 0))
    return made


def numbers(case, room):
    name, video, audio, video_codec, audio_codec, key, place, _ = case

    def given(value):
        return [0, 0] if value is None else [1, value]

    has_key = [0, 0, 0] if key is None else [1, key >> 32, key & 0xFFFFFFFF]
    return [name, video] + given(audio) + given(video_codec) + given(audio_codec) + has_key + [place, room]


def main(folder):
    clear = sample(SPACE)
    asked, answered = [], []
    for case in cases():
        name, video, audio, video_codec, audio_codec, key, place, room = case
        space = bytearray(clear)
        if place:
            space[place:place + len(END)] = END
        name, video = bytes(space[NAME:NAME + name]), bytes(space[VIDEO:VIDEO + video])
        audio = None if audio is None else bytes(space[AUDIO:AUDIO + audio])
        if room is None:
            room = len(film_of(name, video, audio, video_codec, audio_codec, key)) + 7
        assert room <= SPACE
        number, size, out = answer(name, video, audio, video_codec, audio_codec, key, room)
        asked.append(" ".join(str(n) for n in numbers(case, room)))
        answered.append("write %d 0 %d %d %s" % (number, size, room, digest(out)))
        if number == 0:
            codecs = [0 if audio is None else 1]
            for codec in video_codec, audio_codec:
                codecs += [0, 0] if codec is None else [1, codec]
            parts = ["%d %s" % (len(p), digest(p)) for p in (name, video, audio or b"")]
            answered.append("read 0 " + " ".join(str(n) for n in codecs) + " " + " ".join(parts))
    for file, lines in ("stdin", asked), ("stdout", answered):
        with open(folder + "/" + file, "w", encoding="ascii") as out:
            out.write("".join(line + "\n" for line in lines))


if __name__ == "__main__":
    if len(sys.argv) != 2:
        sys.exit("usage: checks/records/writes.py FOLDER")
    main(sys.argv[1])
