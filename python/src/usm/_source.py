"""Where the bytes of a film come from: memory, an open file, or a path."""

from __future__ import annotations

import os
import stat
import threading
from typing import BinaryIO, Protocol, Union, cast

from usm._lent import Buffer
from usm._native import ffi, lib
from usm._reading import DEFAULT
from usm._refusal import refusal

# A film: its path, a binary file that can seek, or its bytes.
FilmLike = Union[str, "os.PathLike[str]", BinaryIO, Buffer]


class Source(Protocol):
    """The bytes of a film. Several threads may read them at once."""

    size: int

    def read_into(self, place: int, room: memoryview) -> None:
        """Fills the room with the bytes that start at a place."""

    def whole(self) -> Buffer:
        """All bytes."""

    def close(self) -> None:
        """Closes the file, if it was opened here."""


def source(film: FilmLike) -> Source:
    """The bytes of a film."""
    if isinstance(film, (str, os.PathLike)):
        return _Path(film)
    if hasattr(film, "read") and hasattr(film, "seek"):
        return _File(cast(BinaryIO, film))
    try:
        return _Memory(film)
    except TypeError:
        kind = type(film).__name__
        raise TypeError(f"a film is a path, a binary file that can seek, or bytes, and not of type {kind}") from None


def whole(film: FilmLike) -> Buffer:
    """All bytes of a film, if it is not too long to be read at all."""
    found = source(film)
    try:
        reply = lib.usm_open(ffi.NULL, 0, found.size, DEFAULT.lent()).film
        if reply.number == lib.USM_TOO_LONG:
            raise refusal(reply)
        return found.whole()
    finally:
        found.close()


class _Memory:
    def __init__(self, film: Buffer) -> None:
        self._film = film
        self._bytes = memoryview(film).cast("B")
        self.size = len(self._bytes)

    def read_into(self, place: int, room: memoryview) -> None:
        room[:] = self._bytes[place : place + len(room)]

    def whole(self) -> Buffer:
        return self._film

    def close(self) -> None:
        self._bytes.release()


class _Path:
    def __init__(self, path: Union[str, os.PathLike[str]]) -> None:
        # Opening a pipe would wait for somebody to write to it.
        if not stat.S_ISREG(os.stat(path).st_mode):
            raise OSError(f"{os.fspath(path)} is no regular file")
        self._file = open(path, "rb", buffering=0)
        self.size = os.fstat(self._file.fileno()).st_size

    def read_into(self, place: int, room: memoryview) -> None:
        done = 0
        while done < len(room):
            done += _some(os.preadv(self._file.fileno(), [room[done:]], place + done))

    def whole(self) -> Buffer:
        return _all(self)

    def close(self) -> None:
        self._file.close()


class _File:
    def __init__(self, file: BinaryIO) -> None:
        self._file = file
        self._turn = threading.Lock()
        self.size = file.seek(0, os.SEEK_END)

    def read_into(self, place: int, room: memoryview) -> None:
        with self._turn:
            self._file.seek(place)
            done = 0
            while done < len(room):
                piece = self._file.read(len(room) - done)
                if not isinstance(piece, bytes):
                    raise TypeError("the file gives text; it has to be opened as a binary file")
                room[done : done + _some(len(piece))] = piece
                done += len(piece)

    def whole(self) -> Buffer:
        return _all(self)

    def close(self) -> None:
        """Leaves the file open: it is the caller's."""


def _some(count: int) -> int:
    if count == 0:
        raise OSError("the film became shorter while it was read")
    return count


def _all(found: Source) -> Buffer:
    room = bytearray(found.size)
    found.read_into(0, memoryview(room))
    return room
