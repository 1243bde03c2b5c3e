"""The masks, in place and from several threads."""

from __future__ import annotations

import array
import mmap
import threading
import time
from typing import Any

import numpy
import pytest
import usm
from conftest import KEY, recorded


@pytest.mark.parametrize("stream, first", [("video", 0x240), ("audio", 0x141)])
def test_each_undoes_the_other_and_short_payloads_stay(stream: str, first: int) -> None:
    for length in (0, 0x140, 0x141, 0x23F, 0x240, 0x1000):
        clear = bytes(at % 256 for at in range(length))
        payload = bytearray(clear)
        usm.mask(payload, KEY, stream)
        assert (payload == clear) == (length < first)
        usm.unmask(payload, KEY, stream)
        assert payload == clear


def test_payloads_of_the_song() -> None:
    film = recorded("song.usm")
    for start, length, stream, clear in ((704, 608, "video", "song.video"), (1344, 400, "audio", "song.audio")):
        payload = bytearray(film[start + 0x20 :][:length])
        usm.unmask(payload, KEY, stream)
        assert payload == recorded(clear)[:length]


def test_every_buffer_that_can_be_written() -> None:
    masked = bytearray(0x400)
    usm.mask(masked, KEY)
    with mmap.mmap(-1, 0x400) as pages:
        buffers: list[Any] = [
            bytearray(0x400),
            memoryview(bytearray(0x500))[0x80:0x480],
            array.array("B", bytes(0x400)),
            array.array("Q", bytes(0x400)),
            numpy.zeros(0x400, numpy.uint8),
            numpy.zeros((16, 16), numpy.float32),
            pages,
        ]
        for buffer in buffers:
            usm.mask(buffer, KEY)
            assert memoryview(buffer).tobytes() == masked


def test_a_part_of_an_array_is_changed_and_nothing_around_it() -> None:
    whole = numpy.zeros(0x1000, numpy.uint8)
    usm.mask(whole[0x100:0x500], KEY)
    assert not whole[:0x100].any() and whole[0x100:0x500].any() and not whole[0x500:].any()


@pytest.mark.parametrize("buffer", [bytes(0x400), memoryview(bytes(0x400)), memoryview(bytearray(0x400)).toreadonly()])
def test_what_is_read_only_is_not_written(buffer: Any) -> None:
    with pytest.raises(TypeError, match="read-only"):
        usm.unmask(buffer, KEY)
    assert not any(buffer)


def test_a_read_only_array_is_not_written() -> None:
    frozen = numpy.zeros(0x400, numpy.uint8)
    frozen.setflags(write=False)
    with pytest.raises(TypeError, match="read-only"):
        usm.mask(frozen, KEY)
    with pytest.raises(ValueError, match="not contiguous"):
        usm.mask(numpy.zeros(0x800, numpy.uint8)[::2], KEY)


@pytest.mark.parametrize("buffer", ["text", 7, None, [1, 2], object()])
def test_what_is_no_buffer(buffer: Any) -> None:
    with pytest.raises(TypeError):
        usm.unmask(buffer, KEY)


@pytest.mark.parametrize(
    "key, error", [(-1, ValueError), (1 << 64, ValueError), (1.0, TypeError), ("12", TypeError), (None, TypeError), (True, TypeError)]
)
def test_what_is_no_key(key: Any, error: type) -> None:
    for act in (usm.mask, usm.unmask):
        with pytest.raises(error):
            act(bytearray(0x400), key)
    with pytest.raises(error):
        usm.pack("x", b"", key=key) if key is not None else usm.mask(bytearray(1), key)


def test_numbers_of_numpy_are_keys() -> None:
    one, other = bytearray(0x400), bytearray(0x400)
    usm.mask(one, numpy.uint64(KEY))
    usm.mask(other, KEY)
    assert one == other


def test_no_other_stream() -> None:
    with pytest.raises(ValueError, match="video, audio"):
        usm.unmask(bytearray(1), KEY, "subtitles")


def test_other_threads_run_meanwhile() -> None:
    """While one thread masks, this one counts. With the lock held it could not count before the masking is over."""
    payload = bytearray(1 << 28)
    is_over = threading.Event()

    def work() -> None:
        usm.mask(payload, KEY)
        is_over.set()

    worker = threading.Thread(target=work)
    worker.start()
    counted = 0
    while not is_over.is_set():
        counted += 1
        time.sleep(0.001)
    worker.join()
    assert counted > 5


def test_a_buffer_can_not_be_resized_during_the_call() -> None:
    payload = bytearray(1 << 28)
    worker = threading.Thread(target=usm.mask, args=(payload, KEY))
    worker.start()
    refused = 0
    while worker.is_alive():
        try:
            payload.append(0)
            payload.pop()
        except BufferError:
            refused += 1
        time.sleep(0.001)
    worker.join()
    assert refused > 5


def test_threads_share_a_film() -> None:
    film = usm.open(usm.pack("x", bytes(range(256)) * 4000, bytes(500_000), key=KEY))
    expected = film.streams(KEY)
    found: list[usm.Streams] = []
    workers = [threading.Thread(target=lambda: found.append(film.streams(KEY))) for _ in range(8)]
    for worker in workers:
        worker.start()
    for worker in workers:
        worker.join()
    assert found == [expected] * 8
