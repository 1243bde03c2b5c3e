"""Films that are packed and moved, salvaged, checked and shared."""

from __future__ import annotations

from typing import Any

import numpy
import pytest
import usm
from conftest import FILMS, KEY, recorded

SONG = {"video_codec": 1, "audio_codec": 2, "key": KEY}


def packed_song() -> bytes:
    return usm.pack("songs/lark.usm", recorded("song.video"), recorded("song.audio"), **SONG)


def refused(act: Any, number: int, place: int = 0) -> None:
    with pytest.raises(usm.Refusal) as raised:
        act()
    assert (raised.value.number, raised.value.place) == (number, place)


@pytest.mark.parametrize("key", [None, 0, KEY])
@pytest.mark.parametrize("audio", [None, b"", b"sound" * 40_000])
def test_what_is_packed_is_extracted(key: Any, audio: Any) -> None:
    video = bytes(range(256)) * 1000
    film = usm.open(usm.pack(b"\x83\x81", video, audio, video_codec=9, key=key))
    assert film.streams(key) == (video, audio)
    assert (film.name, film.codecs, film.video_kind) == (b"\x83\x81", (9, None), "ivf")


def test_arrays_are_packed() -> None:
    video = numpy.arange(5000, dtype=numpy.uint16)
    assert usm.open(usm.pack("x", video)).streams().video == video.tobytes()


def test_refusals_of_packing() -> None:
    refused(lambda: usm.pack("x", b"#CONTENTS END"), 15)
    refused(lambda: usm.pack("x", b"", audio_codec=2), 23)


def test_a_film_of_the_old_builder_there_and_back() -> None:
    film = usm.from_old(FILMS / "old.usm", 1, 2)
    assert usm.open(film).streams(KEY) == (recorded("song.video"), recorded("song.audio"))
    assert film == packed_song()
    assert usm.to_old(film) == recorded("old.usm")
    assert usm.open(usm.from_old(FILMS / "old.usm")).codecs == (None, None)


def test_refusals_of_moving() -> None:
    refused(lambda: usm.from_old(FILMS / "song.usm"), 19)
    refused(lambda: usm.to_old(FILMS / "song.usm"), 19)
    refused(lambda: usm.from_old(FILMS / "old-dubbed.usm"), 20)


def test_salvage() -> None:
    song = recorded("song.usm")
    assert usm.salvage(FILMS / "song.usm") == (3296, 0, 0)
    assert usm.salvage(song[:3000]) == (2464, 536, 1)
    for length in range(700, len(song), 50):
        kept, dropped, cause = usm.salvage(song[:length])
        assert kept + dropped == length and (cause == 0) == (dropped == 0)
        usm.open(song[:kept]).check()
    refused(lambda: usm.salvage(b"no film"), 2)
    refused(lambda: usm.salvage(song[:250]), 1, 224)


def test_profile() -> None:
    assert usm.profile(FILMS / "song.usm") == (False, 1, 3104, None)
    assert usm.profile(packed_song()) == (True, None, None, None)
    without_end = packed_song()[:-64]
    assert usm.profile(without_end) == (False, 3, len(without_end), "audio")
    refused(lambda: usm.profile(b""), 1)


def test_statement() -> None:
    tenants = [(30, 0x0123456789ABCDEE), (10, KEY), (20, 0xFF23456789ABCDEF)]
    lines = [(10, 10, 1095), (20, 10, 1094), (30, 30, 2189)]
    assert usm.statement(FILMS / "song.usm", tenants) == lines
    assert usm.statement(recorded("song.usm"), dict(tenants)) == lines
    highest = (1 << 64) - 1
    assert usm.statement(FILMS / "song.usm", {highest: highest}) == [(highest, highest, 2189)]


def test_refusals_of_a_statement() -> None:
    refused(lambda: usm.statement(FILMS / "song.usm", {}), 22)
    refused(lambda: usm.statement(FILMS / "song.usm", [(1, 2), (1, 3)]), 22)
    refused(lambda: usm.statement(FILMS / "song.usm", [(tenant, 0) for tenant in range(17)]), 22)
    refused(lambda: usm.statement(b"no film", {1: 2}), 2)
