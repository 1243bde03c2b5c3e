"""Films read in pieces of any size, compared with the functions that take a whole film."""

from __future__ import annotations

from typing import Any, Optional, Union

import pytest
import usm
from conftest import KEY, recorded
from hypothesis import given, settings, strategies as st
from usm import _film
from usm._native import ffi, lib

LONG = usm.pack("l", bytes(range(256)) * 600, bytes(range(255, -1, -1)) * 300, video_codec=1, audio_codec=2, key=KEY)
FILMS = [recorded("song.usm"), recorded("f.usm"), LONG]
SHORT_FILMS = FILMS[:2]

readings = st.builds(
    usm.Reading,
    audio=st.one_of(st.sampled_from(["all", "none"]), st.integers(0, 3)),
    payloads=st.sampled_from(["original", "after-header"]),
    tables=st.sampled_from(["original", "zero-columns"]),
)
keys = st.one_of(st.none(), st.integers(0, (1 << 64) - 1))


@st.composite
def films(draw: Any) -> bytes:
    """A recorded film, cut and damaged."""
    film = bytearray(draw(st.sampled_from(SHORT_FILMS)))
    for _ in range(draw(st.integers(0, 3))):
        film[draw(st.integers(0, len(film) - 1))] = draw(st.integers(0, 255))
    return bytes(film[: draw(st.one_of(st.just(len(film)), st.integers(0, len(film))))])


Answer = Union["tuple[bytes, bytes, int, list[tuple[int, ...]]]", "tuple[int, int]"]


def by_the_whole(film: bytes, reading: usm.Reading, key: Optional[int]) -> Answer:
    """Streams, bits and chunks by usm_extract, usm_key_bits and usm_list."""
    video, audio = bytearray(len(film)), bytearray(len(film))
    lent = (0, 0) if key is None else (key, 1)
    reply = lib.usm_extract(
        film, len(film), reading.lent(), lent, ffi.NULL, 0,
        ffi.from_buffer("uint8_t[]", video), len(video), ffi.from_buffer("uint8_t[]", audio), len(audio),
    )
    if reply.number:
        return reply.number, reply.refused_at
    count = lib.usm_list(film, len(film), reading.lent(), ffi.NULL, 0).count
    chunks = ffi.new("struct usm_chunk[]", count)
    assert lib.usm_list(film, len(film), reading.lent(), chunks, count).number == 0
    listed = [(c.start, c.kind, c.data_type, c.channel, c.start + c.offset, c.length) for c in chunks]
    bits = lib.usm_key_bits(film, len(film), reading.lent()).bits
    return bytes(video[: reply.video_size]), bytes(audio[: reply.audio_size]), bits, listed


KINDS = ["video", "audio", "other", "end"]


def by_pieces(film: bytes, reading: usm.Reading, key: Optional[int]) -> Answer:
    try:
        with usm.open(film, reading) as opened:
            streams = opened.streams(key)
            listed = [(c.start, KINDS.index(c.kind), *c[2:6]) for c in opened.chunks()]
            return streams.video, streams.audio or b"", opened.key_bits, listed
    except usm.Refusal as refusal:
        return refusal.number, refusal.place


@settings(max_examples=3000)
@given(films(), readings, keys, st.integers(1, 5000))
def test_pieces_give_what_the_whole_gives(film: bytes, reading: usm.Reading, key: Optional[int], window: int) -> None:
    with pytest.MonkeyPatch.context() as patch:
        patch.setattr(_film, "_WINDOW", window)
        assert by_pieces(film, reading, key) == by_the_whole(film, reading, key)


def profile_of_the_whole(film: bytes) -> "tuple[int, ...]":
    reply = lib.usm_profile(film, len(film))
    return reply.number, reply.refused_at, reply.rule, reply.place, reply.stream


def profile_by_pieces(film: bytes) -> "tuple[int, ...]":
    try:
        with usm.open(film) as opened:
            reply = opened._profile_reply()
    except usm.Refusal as refusal:
        return refusal.number, refusal.place, 0, 0, 0
    return reply.number, reply.refused_at, reply.rule, reply.place, reply.stream


@settings(max_examples=1500)
@given(st.one_of(films(), st.integers(0, len(LONG)).map(lambda length: LONG[:length])), st.integers(1, 5000))
def test_the_profile_by_pieces_is_that_of_the_whole(film: bytes, window: int) -> None:
    with pytest.MonkeyPatch.context() as patch:
        patch.setattr(_film, "_WINDOW", window)
        assert profile_by_pieces(film) == profile_of_the_whole(film)


@settings(max_examples=60)
@given(st.sampled_from(FILMS), st.integers(0, 300_000), readings, keys, st.integers(1, 70_000))
def test_long_films_cut(film: bytes, length: int, reading: usm.Reading, key: Optional[int], window: int) -> None:
    with pytest.MonkeyPatch.context() as patch:
        patch.setattr(_film, "_WINDOW", window)
        assert by_pieces(film[:length], reading, key) == by_the_whole(film[:length], reading, key)


def test_every_cut_of_the_song() -> None:
    song, default = recorded("song.usm"), usm.Reading()
    answers = [by_the_whole(song[:length], default, KEY) for length in range(len(song) + 1)]
    assert [by_pieces(song[:length], default, KEY) for length in range(len(song) + 1)] == answers
    assert sum(len(answer) == 2 for answer in answers) > 2000, "most cuts are refused"
