#!/usr/bin/env python3
"""Makes stdin and stdout of crates/gate_moves: containers to be moved, and what has to come of each.

    compare films | checks/records/moves.py crates/gate_moves

It reads films that the original's builder wrote, with what each is made of (checks/compare/src/moves/record.rs), and knows
nothing of the library. It states rules O of docs/RULES.md once more, in the plainest way: parts are taken where they
should stand, with nothing checked, the film is put together anew from them, and both are compared whole. It stops
where it would write another film than the builder wrote. Rules W are those of writes.py. The format of both
files is in crates/gate_moves/README.md.
"""
import os
import sys
from collections import namedtuple

sys.dont_write_bytecode = True  # the import leaves no folder behind
sys.path.insert(0, os.path.join(os.path.dirname(os.path.abspath(__file__)), "..", "model"))
import usm
from usm import EMPTY, END, PAYLOAD, be, masked_audio, masked_video, number_at, payloads
from writes import answer, digest, film_of

MOST_LIST, MOST_BYTES = 0x64000, 0x28000


# ---- rules O: the film of the old builder


def padded(data):
    return data + bytes(-len(data) % 0x20)


def head(letters, size, first=0, second=0):
    return letters + be(size, 4) + be(1, 2) + be(0x18, 2) + be(first, 4) + be(second, 4) + bytes(8)


def table(rows, strings, data, columns, width, body):
    return usm.table(body, columns, 1, rows, strings, data, version=1, width=width)


def table_block(letters, inside):
    return padded(head(letters, 20 + len(inside)) + inside)


def name_table(name):
    body = b"\x5A" + be(18, 4) + be(27, 4) + b"CRIUSF_DIR_STREAM\0filename\0" + name + b"\0"
    return table(25, 29, 57 + len(name), 1, 4, body)


def video_table(video):
    body = b"".join(b"\x54" + be(place, 4) for place in (14, 20, 27))
    body += be(1920, 4) + be(1080, 4) + be(len(video) // 1000, 4) + b"VIDEO_HDRINFO\0width\0height\0total_frames\0"
    return table(31, 43, 83, 3, 12, body)


def audio_table(index):
    return table(0x10, 0x14, 0x30, 1, 4, b"\x54" + be(14, 4) + be(index, 4) + b"AUDIO_HDRINFO\0stream_id\0")


def chunk(letters, payload, place, index):
    return padded(head(letters, 0x18 + len(payload), place, index) + payload)


def old_film(name, video, audios):
    made = table_block(b"CRID", name_table(name)) + table_block(b"@SFV", video_table(video))
    for index in range(len(audios)):
        made += table_block(b"@SFA", audio_table(index))
    for place in range(0, max(len(stream) for stream in [video] + audios), PAYLOAD):
        if video[place:]:
            made += chunk(b"@SBV", video[place:place + PAYLOAD], place, 0)
        for index, audio in enumerate(audios):
            if audio[place:]:
                made += chunk(b"@SBA", audio[place:place + PAYLOAD], place, index)
    return made + head(b"@END", 0x18) * (1 + len(audios))


def old_blocks(film):
    """Of each block before the ends: letters, where it stands, and where what it holds ends."""
    at = 0
    while film[at:at + 4] in (b"CRID", b"@SFV", b"@SFA", b"@SBV", b"@SBA"):
        counted = 0x18 if film[at:at + 3] == b"@SB" else 20
        end = at + 28 + max(0, number_at(film, at + 4, 4) - counted)
        yield film[at:at + 4], at, end
        at = end + -end % 0x20


def old_parts(film):
    name, video, audios = b"", b"", []
    for letters, at, end in old_blocks(film):
        held = film[at + 28:end]
        if letters == b"CRID":
            name = held[68:-1]
        if letters == b"@SFA":
            audios.append(b"")
        if letters == b"@SBV":
            video += held
        if letters == b"@SBA" and number_at(film, at + 16, 4) < len(audios):
            audios[number_at(film, at + 16, 4)] += held
    return name, video, audios


# ---- request 1's container, by its parts


def new_blocks(container):
    """Of each block: letters, and what it holds."""
    at = 0
    while at < len(container):
        end = at + 8 + number_at(container, at + 4, 4)
        yield container[at:at + 4], container[at + 0x20:max(0, end - number_at(container, at + 10, 2))]
        at = end


def codec_in(inside):
    return None if inside == EMPTY else number_at(inside, 37, 4)


def new_parts(container):
    blocks = list(new_blocks(container)) + 9 * [(b"", b"")]
    has_audio = blocks[2][0] == b"@SFA"
    streams = {b"@SFV": b"", b"@SFA": b""}
    for letters, inside in blocks[9 if has_audio else 5:]:
        if inside.startswith(END) or letters not in streams:
            break
        streams[letters] += inside
    name = blocks[0][1][54:]
    audio, audio_codec = (streams[b"@SFA"], codec_in(blocks[2][1])) if has_audio else (None, None)
    return name, streams[b"@SFV"], audio, codec_in(blocks[1][1]), audio_codec


# ---- what is answered: number, size, and the output after it


def is_text(name):
    try:
        name.decode("utf-8")
    except UnicodeDecodeError:
        return False
    return True


def moved(film, video_codec, audio_codec, room):
    name, video, audios = old_parts(film)
    if not is_text(name) or old_film(name, video, audios) != film:
        return 19, 0, b"\xEE" * room
    if 1 < len(audios):
        return 20, 0, b"\xEE" * room
    return answer(name, video, audios[0] if audios else None, video_codec, audio_codec, None, room)


def moved_back(container, room):
    name, video, audio, video_codec, audio_codec = new_parts(container)
    untouched = b"\xEE" * room
    if not is_text(name) or film_of(name, video, audio, video_codec, audio_codec, None) != container:
        return 19, 0, untouched
    film = old_film(name, video, [] if audio is None else [audio])
    if room < len(film):
        return 16, len(film), untouched
    return 0, len(film), film + untouched[len(film):]


# ---- the films of the builder

Built = namedtuple("Built", "name video audios film")


def read_films(lines):
    """Films as they are stored, each of which rules O have to give anew."""
    films = []
    for count, line in enumerate(lines, 1):
        key, name, video, *audios, film = line.rstrip("\n").split(" ")
        name, video, *audios, film = [bytes.fromhex(field) for field in (name, video, *audios, film)]
        if key != "-":
            video = b"".join(masked_video(int(key, 16), payload) for payload in payloads(video))
            audios = [b"".join(masked_audio(int(key, 16), payload) for payload in payloads(audio)) for audio in audios]
        if old_film(name, video, audios) != film or old_parts(film) != (name, video, audios):
            sys.exit("rules O give another film than the builder for film %d of the list" % count)
        films.append(Built(name, video, audios, film))
    return films


# ---- the list


def put(data, at, *values):
    return data[:at] + bytes(values) + data[at + len(values):]


def changed(data, at):
    return put(data, at, data[at] ^ 1)


def onward(film, video=(0, 0), audio=(0, 0), room=None):
    """A line with its answers. A codec is whether it is given, and its number. Without `room` there are 7 bytes more than needed."""
    codecs = [codec[1] if codec[0] else None for codec in (video, audio)]
    if room is None:
        room = moved(film, *codecs, 0)[1] + 7
    asked = "f %d %d %d %d %d %s" % (*video, *audio, room, film.hex())
    done, size, out = moved(film, *codecs, room)
    answered = ["from %d 0 %d %d %s" % (done, size, room, digest(out))]
    if done == 0:
        back, back_size, film_again = moved_back(out[:size], len(film) + 3)
        answered.append("back %d 0 %d %d %s" % (back, back_size, len(film) + 3, digest(film_again)))
    return asked, answered


def back(container, room=None):
    if room is None:
        room = moved_back(container, 0)[1] + 7
    done, size, out = moved_back(container, room)
    return "t %d %s" % (room, container.hex()), ["to %d 0 %d %d %s" % (done, size, room, digest(out))]


def whole_films(films):
    video = [(0, 0), (1, 9), (0, 7), (255, 2**32 - 1), (1, 0)]
    audio = [(0, 0), (1, 2), (0, 5), (255, 2**32 - 1), (1, 4), (1, 0)]
    for i, film in enumerate(films):
        yield onward(film.film, video[i % len(video)], audio[i % len(audio)] if film.audios else (0, 3))


def damaged_films(plain, both, two):
    film = both.film
    blocks = list(old_blocks(film)) + [(b"@END", len(film) - 56, len(film) - 28), (b"@END", len(film) - 28, len(film))]
    place = {letters: at for letters, at, _ in blocks}
    # a byte of what each block holds, and its last byte
    for letters, at, end in blocks:
        yield onward(changed(film, end - 1 if letters == b"@END" else at + 28))
        yield onward(changed(film, at + 9 if letters == b"@END" else end + -end % 0x20 - 1))
    # cut, and made longer
    for other in film[:-1], film[:-28], film[:0x20], b"", film + b"\0", film + film[-28:]:
        yield onward(other)
    # a size of one more takes a zero of the padding, and one less leaves a byte there; so of either stream and the name
    for letters in b"@SBV", b"@SBA", b"CRID":
        size = number_at(film, place[letters] + 4, 4)
        yield onward(put(film, place[letters] + 4, *be(size + 1, 4)))
        yield onward(put(film, place[letters] + 4, *be(size - 1, 4)))
    # another number of an audio, another place in a stream, other frames, chunks the other way round
    for other in place[b"@SFA"] + 68, place[b"@SBA"] + 19, place[b"@SBV"] + 15, place[b"@SFV"] + 86:
        yield onward(changed(film, other))
    first, second, end = place[b"@SBV"], place[b"@SBA"], len(film) - 56
    yield onward(film[:first] + film[second:end] + film[first:second] + film[end:])
    # names that are no text
    for name in b"\xFF", b"\xC0\x80", b"\xED\xA0\x80", b"\xF4\x90\x80\x80", "ア".encode()[:2], b"a\x80":
        yield onward(old_film(name, b"v", []))
    # several audios: one that is wrong, one that is named twice, an end that is missing; 19 before 20
    chunks = [at for letters, at, _ in old_blocks(two.film) if letters == b"@SBA"]
    for other in changed(two.film, chunks[1] - 1), changed(two.film, chunks[1] + 19), two.film[:-28]:
        yield onward(other)
    # 19 before 23 and 16
    yield onward(changed(plain.film, 9), audio=(1, 2), room=0)


def refused_films(plain, two, marked):
    """In their order: 20, 23, 15, 16."""
    yield onward(two.film, room=0)
    yield onward(old_film(b"n", END, [b"a", b"b"]), (1, 9), (1, 2))
    for codec in (1, 2), (255, 0):
        yield onward(plain.film, audio=codec, room=0)
    yield onward(marked.film, audio=(1, 4))
    yield onward(marked.film, room=0)
    size = moved(plain.film, None, None, 0)[1]
    for room in size, size - 1, size // 2, 0:
        yield onward(plain.film, room=room)


def containers(masked):
    alone = film_of(b"n", b"video", None, 9, None, None)
    both = film_of("ア".encode(), b"v" * 33, b"au", 1, 2, None)
    yield from (back(c) for c in (alone, both))
    for name, video, audio, video_codec, audio_codec in (
        (b"", b"", None, None, None), (b"n", b"", b"", 2**32 - 1, None), (b"x" * 42, b"v" * 4, b"", None, 4),
        ("𝄞".encode(), b"v", b"a" * 32, None, 2**32 - 1), (b"cut", END[:12], None, None, None),
        (masked.name, masked.video, masked.audios[0], 9, 2),
        # no text, and a payload that W8 refuses
        (b"\xFF", b"v", None, None, None), (b"\xED\xBF\xBF", b"", None, None, None), (b"n", END, None, None, None),
        (b"n", b"v", END + b"a", None, 2)):
        yield back(film_of(name, video, audio, video_codec, audio_codec, None))
    size = moved_back(alone, 0)[1]
    for room in size, size - 1, 0:
        yield back(alone, room)
    # a byte of each block: of its head, of what it holds, of its last bytes
    at, turn = 0, 0
    while at < len(alone):
        end = at + 8 + number_at(alone, at + 4, 4)
        yield back(changed(alone, (at + 12, at + 0x20, end - 1)[turn % 3]))
        at, turn = end, turn + 1
    # another codec, and a video of one byte more: other containers that the move writes
    first, ends = len(alone) - 128, len(alone) - 64
    yield back(put(alone, alone.index(b"mpeg_codec") - 4, 1, 2, 3, 4))
    yield back(put(alone, first + 10, 0, number_at(alone, first + 10, 2) - 1))
    # a payload in two, turns the other way round, an end that is missing, cut, made longer
    yield back(alone[:first] + 2 * alone[first:ends] + alone[ends:])
    start = len(both) - 128 - 160
    yield back(both[:start] + both[start + 96:-128] + both[start:start + 96] + both[-128:])
    yield from (back(c) for c in (both[:-64], both[:-1], both + b"\0", alone + alone[-64:], b""))
    # each container in the other's place
    yield back(masked.film)
    yield onward(alone)


def main(folder):
    films = read_films(sys.stdin)

    def first(is_wanted):
        return next(film for film in films if is_wanted(film))

    plain = first(lambda film: len(film.video) == 5 and not film.audios)
    both = first(lambda film: len(film.video) == 32 and len(film.audios) == 1)
    two = first(lambda film: len(film.audios) == 2)
    marked = first(lambda film: film.video == END)
    masked = first(lambda film: 0x240 <= len(film.video) and film.audios)
    lines = [*whole_films(films), *damaged_films(plain, both, two), *refused_films(plain, two, marked), *containers(masked)]
    asked = "".join(line + "\n" for line, _ in lines)
    answered = "".join(answer + "\n" for _, answers in lines for answer in answers)
    assert len(asked) <= MOST_LIST and max(len(film.film) for film in films) + 3 <= MOST_BYTES
    for file, text in ("stdin", asked), ("stdout", answered):
        with open(folder + "/" + file, "w", encoding="ascii") as out:
            out.write(text)


if __name__ == "__main__":
    if len(sys.argv) != 2:
        sys.exit("usage: compare films | checks/records/moves.py FOLDER")
    main(sys.argv[1])
