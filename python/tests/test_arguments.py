"""Wrong arguments raise an exception, and do nothing worse."""

from __future__ import annotations

import errno
import io
import os
import pickle
from typing import Any

import pytest
import usm
from conftest import FILMS, KEY

SONG = str(FILMS / "song.usm")
WRONG: list[Any] = [None, 7, 1.5, object(), [], {}, -1]


@pytest.mark.parametrize("act", [usm.open, usm.digest, usm.salvage, usm.profile, usm.from_old, usm.to_old])
@pytest.mark.parametrize("film", WRONG)
def test_what_is_no_film(act: Any, film: Any) -> None:
    with pytest.raises((TypeError, ValueError)):
        act(film)


@pytest.mark.parametrize(
    "act",
    [
        lambda: usm.open(SONG, "all"),  # type: ignore[arg-type]
        lambda: usm.open(io.StringIO("text")),  # type: ignore[arg-type]
        lambda: usm.open(SONG).streams("key"),  # type: ignore[arg-type]
        lambda: usm.open(SONG).streams(1 << 64),
        lambda: usm.open(SONG).streams(-1),
        lambda: usm.Reading(audio="some"),
        lambda: usm.Reading(audio=256),
        lambda: usm.Reading(audio=True),
        lambda: usm.Reading(payloads="before"),
        lambda: usm.Reading(tables="round"),
        lambda: usm.pack(7, b""),  # type: ignore[arg-type]
        lambda: usm.pack("x", "text"),
        lambda: usm.pack("x", b"", "text"),
        lambda: usm.pack("x", b"", video_codec=1 << 32),
        lambda: usm.pack("x", b"", video_codec=-1),
        lambda: usm.from_old(SONG, audio_codec="adx"),  # type: ignore[arg-type]
        lambda: usm.statement(SONG, {-1: 0}),
        lambda: usm.statement(SONG, {0: 1 << 64}),
        lambda: usm.statement(SONG, [1, 2]),  # type: ignore[list-item]
        lambda: usm.statement(SONG, None),  # type: ignore[arg-type]
        lambda: usm.bill(None),  # type: ignore[arg-type]
        lambda: usm.bill([1, 2]),  # type: ignore[list-item]
        lambda: usm.bill([(-1, 0, SONG)]),
        lambda: usm.bill([(0, 1 << 64, SONG)]),
        lambda: usm.bill([(0, 0, 7)]),  # type: ignore[list-item]
        lambda: usm.key(""),
        lambda: usm.key("12345678901234567"),
    ],
)
def test_wrong_arguments(act: Any) -> None:
    with pytest.raises((TypeError, ValueError)):
        act()


def test_the_message_says_what_a_film_is() -> None:
    with pytest.raises(TypeError, match="a film is a path, a binary file that can seek, or bytes, and not of type int"):
        usm.open(7)


def test_a_file_that_can_not_seek() -> None:
    reading, writing = os.pipe()
    os.close(writing)
    with open(reading, "rb") as pipe, pytest.raises(io.UnsupportedOperation, match="seek"):
        usm.open(pipe)


def test_a_file_that_is_closed() -> None:
    file = (FILMS / "song.usm").open("rb")
    film = usm.open(file)
    file.close()
    for act in (lambda: usm.open(file), lambda: film.streams(KEY)):
        with pytest.raises(ValueError, match="closed file"):
            act()


def test_a_full_disk() -> None:
    with usm.open(SONG) as film, open("/dev/full", "wb", buffering=0) as full, pytest.raises(OSError) as raised:
        film.extract(KEY, video=full)
    assert raised.value.errno == errno.ENOSPC


def test_a_missing_film_is_missing() -> None:
    with pytest.raises(FileNotFoundError):
        usm.open("no-such-film.usm")


def test_a_closed_film_gives_nothing() -> None:
    for film in (usm.open(SONG), usm.open((FILMS / "song.usm").read_bytes())):
        film.close()
        with pytest.raises(ValueError):
            film.streams(KEY)


def test_chunks_and_refusals_can_be_pickled() -> None:
    refusal = pickle.loads(pickle.dumps(usm.Refusal(8, 12, 7)))
    assert (refusal.number, refusal.place, refusal.reason) == (8, 12, "unknown column type 7")
    chunk = next(usm.open(SONG).chunks())
    assert pickle.loads(pickle.dumps(chunk)) == chunk
