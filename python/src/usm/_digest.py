"""The digests of both streams."""

from __future__ import annotations

import hashlib
from collections.abc import Iterable
from typing import NamedTuple, Optional, SupportsIndex

from usm._film import Film, clear, open
from usm._lent import key_number
from usm._source import FilmLike


class Digest(NamedTuple):
    """A stream by its size and its SHA-256 in hex digits."""

    size: int
    sha256: str


class Digests(NamedTuple):
    """Both streams of a film under one key. Audio that is absent is an empty stream."""

    video: Digest
    audio: Digest


def digest(film: FilmLike, key: Optional[SupportsIndex] = None) -> Digests:
    """The size and the SHA-256 of both streams: unmasked with the key, or as they are stored if there is none.

    >>> import usm
    >>> usm.digest("song.usm", 0x0123456789ABCDEF).video.sha256[:16]
    'f0af257b487d61db'
    """
    number = None if key is None else key_number(key)
    with open(film) as opened:
        return digests(opened, [number])[number]


def digests(film: Film, keys: Iterable[Optional[int]]) -> dict[Optional[int], Digests]:
    """The digests under each of the keys. The film is read once, however many there are."""
    sums = {key: _Sums() for key in keys}
    room = bytearray()
    for chunk, stored in film.payloads():
        if chunk.length > len(room):
            room = bytearray(chunk.length)
        for key, sum_of in sums.items():
            payload = stored
            if key is not None and chunk.mask is not None:
                payload = memoryview(room)[: chunk.length]
                payload[:] = stored
                clear(key, chunk.mask, payload)
            sum_of.add(chunk.kind, payload)
    return {key: sum_of.end() for key, sum_of in sums.items()}


class _Sums:
    """The digests of both streams, while payloads are added."""

    def __init__(self) -> None:
        self._hashes = {"video": hashlib.sha256(), "audio": hashlib.sha256()}
        self._sizes = {"video": 0, "audio": 0}

    def add(self, stream: str, payload: memoryview) -> None:
        self._hashes[stream].update(payload)
        self._sizes[stream] += len(payload)

    def end(self) -> Digests:
        video, audio = (Digest(self._sizes[stream], self._hashes[stream].hexdigest()) for stream in ("video", "audio"))
        return Digests(video, audio)
