"""How numbers, keys and films are stored in a database.

A number of 64 bits is stored less 2^63, as a signed one: none is lost, and their order is kept.
"""

from __future__ import annotations

import os
from typing import Optional


def stored(unsigned: int) -> int:
    return unsigned - (1 << 63)


def number(signed: int) -> int:
    return signed + (1 << 63)


def stored_key(key: Optional[int]) -> tuple[int, int]:
    """A key in two columns: whether there is one, and which."""
    return int(key is not None), stored(key or 0)


def key_of(given: int, key: int) -> Optional[int]:
    return number(key) if given else None


# The path of a film is stored as the bytes that the system has for it, which need not be text.
stored_film = os.fsencode
film_of = os.fsdecode
