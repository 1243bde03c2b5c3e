"""Arguments for the library: buffers, which it uses in place, and numbers, which have to fit."""

from __future__ import annotations

import operator
from typing import TYPE_CHECKING, Any, Optional, SupportsIndex, Union

from usm._native import ffi

if TYPE_CHECKING:
    import array
    import mmap

    # What the standard library has with the buffer protocol; numpy's arrays and others have it too.
    Buffer = Union[bytes, bytearray, memoryview, "array.array[Any]", mmap.mmap, Any]
else:
    Buffer = object


def lend(buffer: Buffer) -> Any:
    """The bytes of a buffer, for reading. Until this is released the buffer can't be resized."""
    return ffi.from_buffer("uint8_t[]", _view(buffer))


def lend_writable(buffer: Buffer) -> Any:
    """The bytes of a buffer, for writing in place."""
    view = _view(buffer)
    if view.readonly:
        raise TypeError(f"a writable buffer is needed, and this {type(buffer).__name__} is read-only")
    return ffi.from_buffer("uint8_t[]", view, require_writable=True)


def _view(buffer: Buffer) -> memoryview:
    view = memoryview(buffer)
    if not view.c_contiguous:
        raise ValueError("the buffer is not contiguous")
    return view


def unsigned(number: SupportsIndex, bits: int, what: str) -> int:
    """An unsigned number of at most so many bits."""
    if isinstance(number, bool):
        raise TypeError(f"{what} is a number, and not {number}")
    found = operator.index(number)
    if not 0 <= found < 1 << bits:
        raise ValueError(f"{what} {found} is not an unsigned number of {bits} bits")
    return found


def key_number(key: SupportsIndex) -> int:
    """A key: every unsigned number of 64 bits is one."""
    return unsigned(key, 64, "the key")


def optional_key(key: Optional[SupportsIndex]) -> Any:
    """A struct usm_key, which holds a key or none."""
    return (0, 0) if key is None else (key_number(key), 1)
