"""What a bill needs to know about a film: the size and the digest of each stream under each key."""

from __future__ import annotations

import os
from collections.abc import Collection
from contextlib import AbstractContextManager, nullcontext
from typing import NamedTuple, Optional, Protocol

from usm._digest import Digests, digests
from usm._film import open
from usm._refusal import Refusal
from usm._source import FilmLike


class Identity(NamedTuple):
    """What shows whether a file has changed: its size, and its modification time in nanoseconds."""

    size: int
    changed: int


class Scan(NamedTuple):
    """What was found out about a film.

    identity: None where it could not be read
    streams: its digests under each key
    trouble: why it can't be billed; None where it can
    """

    identity: Optional[Identity]
    streams: dict[Optional[int], Digests]
    trouble: Optional[str] = None


class Place(Protocol):
    """Where a film is stored."""

    def identity(self) -> Identity:
        """The identity of the file as it is now."""

    def film(self) -> AbstractContextManager[FilmLike]:
        """The film, to be opened."""


class LocalFile:
    """A film at a path of this machine."""

    def __init__(self, path: str) -> None:
        self._path = path

    def identity(self) -> Identity:
        try:
            found = os.stat(self._path)
        except ValueError as error:
            # A path with a zero byte, which no file has.
            raise OSError(str(error)) from None
        return Identity(found.st_size, found.st_mtime_ns)

    def film(self) -> AbstractContextManager[FilmLike]:
        return nullcontext(self._path)


def scan(place: Place, keys: Collection[Optional[int]]) -> Scan:
    """Reads a film once, whatever the number of keys."""
    seen = None
    try:
        seen = place.identity()
        with place.film() as film:
            streams = streams_under(film, keys)
        if place.identity() != seen:
            return Scan(None, {}, "it changed while it was read")
        return Scan(seen, streams)
    except Refusal as refusal:
        return Scan(seen, {}, str(refusal))
    except OSError as error:
        return Scan(None, {}, error.strerror or str(error))


def streams_under(film: FilmLike, keys: Collection[Optional[int]]) -> dict[Optional[int], Digests]:
    """The digests under each key. Keys that agree in the bits that the film shows are one, and are unmasked once."""
    with open(film) as opened:
        bits = opened.key_bits
        classes = {key: None if key is None else key & bits for key in keys}
        found = digests(opened, set(classes.values()))
        return {key: found[shown] for key, shown in classes.items()}
