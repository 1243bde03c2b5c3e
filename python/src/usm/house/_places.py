"""Where the films of a house are stored: in folders that the workers see, or at addresses that fsspec reads."""

from __future__ import annotations

import functools
import hashlib
import os
from contextlib import AbstractContextManager
from typing import Any, Callable, cast

from usm._scan import Identity, LocalFile, Place
from usm._source import FilmLike


def is_address(film: str) -> bool:
    return "://" in film


def place(film: str) -> Place:
    if is_address(film):
        return Address(film)
    return LocalFile(film)


class Folder:
    """The folder from which the paths of HOLDINGS start."""

    def __init__(self, folder: str) -> None:
        self._folder = folder
        # A film has many holdings, often in lines next to each other.
        self.resolved: Callable[[str], str] = functools.lru_cache(maxsize=1 << 16)(self._resolve)

    def _resolve(self, film: str) -> str:
        """The path of a film for workers in other folders. Two paths of one file are one film."""
        if is_address(film):
            return film
        folder, name = os.path.split(os.path.join(self._folder, film))
        path = os.path.join(_real_path(folder), name)
        return os.path.realpath(path) if os.path.islink(path) else path


@functools.lru_cache(maxsize=1 << 12)
def _real_path(folder: str) -> str:
    """The path of a folder without links. It is cached: a folder has many films, and every part of its path is looked up."""
    return os.path.realpath(folder)


class Address:
    """A film at an address."""

    def __init__(self, address: str) -> None:
        self._address = address

    def _find(self) -> tuple[Any, str]:
        """The file system, and the path there."""
        import fsspec

        try:
            system, path = fsspec.core.url_to_fs(self._address)
        except (ImportError, ValueError) as error:
            raise OSError(str(error)) from error
        return system, path

    def identity(self) -> Identity:
        system, path = self._find()
        system.invalidate_cache()
        info = system.info(path)
        # Not every system knows when a file was changed. So this is a digest of all that it says about the file.
        digest = hashlib.sha256(str(sorted(info.items(), key=str)).encode()).digest()
        return Identity(info["size"], int.from_bytes(digest[:7], "big"))

    def film(self) -> AbstractContextManager[FilmLike]:
        system, path = self._find()
        return cast("AbstractContextManager[FilmLike]", system.open(path, "rb"))
