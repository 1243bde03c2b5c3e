"""Films, by path, file and bytes, compared with the recorded streams."""

from __future__ import annotations

import io
import os
import subprocess
import sys
from pathlib import Path

import pytest
import usm
from conftest import FILMS, KEY, recorded


def opened_in_every_way() -> list[usm.Film]:
    path = FILMS / "song.usm"
    return [
        usm.open(path),
        usm.open(str(path)),
        usm.open(io.BytesIO(recorded("song.usm"))),
        usm.open(recorded("song.usm")),
        usm.open(memoryview(bytearray(recorded("song.usm")))),
        usm.open(path.open("rb", buffering=0)),
    ]


def test_the_song() -> None:
    for film in opened_in_every_way():
        assert film.name == b"songs/lark.usm"
        assert film.codecs == (1, 2)
        assert (film.has_audio, film.video_kind, film.audio_kind) == (True, "m2v", "adx")
        assert film.size == 3296
        assert repr(film) == "<usm.Film b'songs/lark.usm', 3296 bytes>"
        assert film.streams(KEY) == (recorded("song.video"), recorded("song.audio"))
        film.close()


def test_extract_writes_to_the_files_that_are_given(tmp_path: Path) -> None:
    with usm.open(FILMS / "song.usm") as film:
        with (tmp_path / "video").open("wb") as video, (tmp_path / "audio").open("wb", buffering=0) as audio:
            film.extract(KEY, video=video, audio=audio)
        assert (tmp_path / "video").read_bytes() == recorded("song.video")
        assert (tmp_path / "audio").read_bytes() == recorded("song.audio")
        audio_alone = io.BytesIO()
        film.extract(KEY, audio=audio_alone)
        assert audio_alone.getvalue() == recorded("song.audio")


class Reluctant(io.RawIOBase):
    """Takes and gives at most seven bytes at once, as a pipe or a socket may."""

    def __init__(self, held: bytes = b"") -> None:
        self.held = bytearray(held)
        self.place = 0

    def write(self, piece: object) -> int:
        some = memoryview(piece)[:7]  # type: ignore[arg-type]
        self.held += some
        return len(some)

    def seek(self, place: int, whence: int = os.SEEK_SET) -> int:
        self.place = place + (len(self.held) if whence == os.SEEK_END else 0)
        return self.place

    def read(self, count: int = -1) -> bytes:
        piece = bytes(self.held[self.place : self.place + min(count, 7)])
        self.place += len(piece)
        return piece


def test_files_that_take_and_give_little_at_once() -> None:
    video, audio = Reluctant(), Reluctant()
    usm.open(Reluctant(recorded("song.usm"))).extract(KEY, video=video, audio=audio)  # type: ignore[arg-type]
    assert (video.held, audio.held) == (recorded("song.video"), recorded("song.audio"))


def test_without_a_key_streams_are_as_stored() -> None:
    film = usm.open(FILMS / "song.usm")
    stored = film.streams()
    bytes_of = recorded("song.usm")
    for kind, stream in (("video", stored.video), ("audio", stored.audio)):
        payloads = [bytes_of[chunk.payload :][: chunk.length] for chunk in film.chunks() if chunk.kind == kind]
        assert b"".join(payloads) == stream
    assert stored.video != recorded("song.video")


def test_chunks_are_those_that_the_command_lists() -> None:
    listed = [
        (704, "video", 0, 608, 0, "video"),
        (1344, "audio", 0, 400, 0, "audio"),
        (1792, "video", 0, 256, 0, "video"),
        (2080, "audio", 1, 336, 0, None),
        (2464, "video", 0, 589, 0, "video"),
        (3104, "other", 0, 0, 0, None),
        (3168, "end", 0, 0, 0, None),
        (3232, "end", 0, 0, 0, None),
    ]
    chunks = usm.open(FILMS / "song.usm").chunks()
    assert [(c.start, c.kind, c.data_type, c.length, c.channel, c.mask) for c in chunks] == listed


def test_audio_that_is_not_taken_is_known() -> None:
    film = usm.open(FILMS / "song.usm", usm.Reading(audio="none"))
    assert film.streams(KEY) == (recorded("song.video"), None)
    assert (film.has_audio, film.codecs.audio) == (True, 2)
    assert [chunk.length for chunk in film.chunks() if chunk.kind == "audio"] == [0, 0]


def test_audio_of_one_channel() -> None:
    song = bytearray(recorded("song.usm"))
    song[2080 + 12] = 3
    both = usm.open(song).streams(KEY).audio
    first, other = (usm.open(song, usm.Reading(audio=channel)).streams(KEY).audio for channel in (0, 3))
    assert first and other and (first + other == both) and (len(first), len(other)) == (400, 336)
    assert usm.open(song, usm.Reading(audio=7)).streams(KEY).audio == b""


def test_a_film_without_chunks_has_empty_streams() -> None:
    film = usm.open(recorded("f.usm")[:301])
    assert film.streams(KEY) == (b"", None)
    assert (film.name, film.codecs, list(film.chunks()), film.key_bits) == (None, (None, None), [], 0)


def test_key_bits() -> None:
    assert usm.open(FILMS / "song.usm").key_bits == 0x00FFFF0FFFFFFFFF
    assert usm.open(FILMS / "f.usm").key_bits == 0
    adx = usm.pack("x", b"", bytes(0x143), audio_codec=2, key=KEY)
    assert usm.open(adx).key_bits == 0x0000000000FF00FF


def changed(at: int, new: bytes, name: str = "f.usm") -> bytes:
    film = bytearray(recorded(name))
    film[at : at + len(new)] = new
    return bytes(film)


REFUSED = [
    (recorded("f.usm")[:428], 1, 384, "bytes run out"),
    (changed(0, b"c"), 2, 0, "no CRID at the start"),
    (changed(32, b"c"), 3, 0, "no @UTF where a table begins"),
    (changed(64, b"c"), 4, 64, "no @SFV where one is expected"),
    (changed(384, b"\0", "song.usm"), 5, 384, "no @SFA where one is expected"),
    (changed(160, b"c"), 6, 128, "no #HEADER END where one is expected"),
    (changed(288, b"c"), 7, 256, "no #METADATA END where one is expected"),
    (changed(64, b"\x37", "song.usm"), 8, 0, "unknown column type 7"),
    (changed(328, b"\xff"), 9, 320, "a table or block size that is too small"),
    (changed(56, b"\0\x41"), 10, 0, "over 64 columns or 256 rows in a table"),
]


@pytest.mark.parametrize("film, number, place, reason", REFUSED)
def test_refusals(film: bytes, number: int, place: int, reason: str) -> None:
    for asked in (
        lambda: usm.open(film).streams(KEY),
        lambda: usm.open(film).check(),
        lambda: usm.open(film).key_bits,
        lambda: usm.digest(film),
    ):
        with pytest.raises(usm.Refusal) as raised:
            asked()
        refusal = raised.value
        assert (refusal.number, refusal.place, refusal.reason) == (number, place, reason)
        assert str(refusal) == f"refused {number} at {place}: {reason}"


def test_a_refused_film_leaves_the_files_as_they_are() -> None:
    video, audio = io.BytesIO(), io.BytesIO()
    film = usm.open(recorded("song.usm")[:2500])
    with pytest.raises(usm.Refusal):
        film.extract(KEY, video, audio)
    assert video.getvalue() == audio.getvalue() == b""


def test_a_film_that_is_too_long_is_refused_before_it_is_read(tmp_path: Path) -> None:
    path = tmp_path / "long.usm"
    with path.open("wb") as file:
        file.truncate((1 << 30) + 1)
    for asked in (usm.open, usm.digest, usm.salvage, usm.profile, usm.from_old, usm.to_old):
        with pytest.raises(usm.Refusal) as raised:
            asked(path)
        assert raised.value.number == 11


def test_a_film_that_shrinks_is_an_error_of_the_system(tmp_path: Path) -> None:
    path = tmp_path / "film.usm"
    path.write_bytes(usm.pack("x", bytes(100_000)))
    with usm.open(path) as film:
        os.truncate(path, 5000)
        with pytest.raises(OSError, match="became shorter"):
            film.streams()


MEMORY = """
import resource, sys, usm
used = lambda: resource.getrusage(resource.RUSAGE_SELF).ru_maxrss
with usm.open(sys.argv[1]) as film, open("/dev/null", "wb") as nowhere:
    before = used()
    film.extract(1, video=nowhere, audio=nowhere)
    bits = film.key_bits
    usm.digest(sys.argv[1], 1)
    usm.profile(sys.argv[1])
    print(used() - before, bits)
"""


def test_a_long_film_takes_the_memory_of_a_payload(tmp_path: Path) -> None:
    path = tmp_path / "long.usm"
    path.write_bytes(usm.pack("x", bytes(100 << 20), bytes(10 << 20), audio_codec=2, key=KEY))
    printed = subprocess.run([sys.executable, "-c", MEMORY, path], capture_output=True, text=True, check=True).stdout
    kibibytes, bits = map(int, printed.split())
    assert bits == 0x00FFFF0FFFFFFFFF
    assert kibibytes < 4096


def test_a_pipe_is_not_waited_for(tmp_path: Path) -> None:
    os.mkfifo(tmp_path / "pipe")
    with pytest.raises(OSError, match="no regular file"):
        usm.open(tmp_path / "pipe")


def test_a_film_in_memory_can_not_be_resized_while_it_is_open() -> None:
    song = bytearray(recorded("song.usm"))
    with usm.open(song):
        with pytest.raises(BufferError):
            song.extend(b"more")
    song.extend(b"more")


def test_a_file_that_is_given_stays_open() -> None:
    with (FILMS / "song.usm").open("rb") as file:
        usm.open(file).close()
        assert not file.closed


def test_digests_are_those_of_the_recorded_streams() -> None:
    import hashlib

    digests = usm.digest(FILMS / "song.usm", KEY)
    for found, name in ((digests.video, "song.video"), (digests.audio, "song.audio")):
        assert found == (len(recorded(name)), hashlib.sha256(recorded(name)).hexdigest())
    assert usm.digest(recorded("f.usm")).audio == (0, hashlib.sha256().hexdigest())
