"""The masks of payloads, in place."""

from __future__ import annotations

from typing import Any, Callable, SupportsIndex

from usm._lent import Buffer, key_number, lend_writable
from usm._native import lib

_MASKS: dict[str, Callable[..., Any]] = {"video": lib.usm_mask_video, "audio": lib.usm_mask_audio}
_UNMASKS: dict[str, Callable[..., Any]] = {"video": lib.usm_unmask_video, "audio": lib.usm_unmask_audio}


def unmask(payload: Buffer, key: SupportsIndex, stream: str = "video") -> None:
    """Unmasks a whole payload in place: a bytearray, a numpy array, or anything else with a writable buffer.

    payload: the whole payload of one chunk, never a part of it
    stream: "video" or "audio"

    The interpreter lock is released meanwhile, so no other thread may use the payload until it returns.

    >>> import usm
    >>> payload = bytearray(0x300)
    >>> usm.mask(payload, 0x0123456789ABCDEF)
    >>> payload == bytes(0x300)
    False
    >>> usm.unmask(payload, 0x0123456789ABCDEF)
    >>> payload == bytes(0x300)
    True
    """
    _act(_UNMASKS, payload, key, stream)


def mask(payload: Buffer, key: SupportsIndex, stream: str = "video") -> None:
    """Masks a whole payload in place. unmask undoes it."""
    _act(_MASKS, payload, key, stream)


def _act(acts: dict[str, Callable[..., Any]], payload: Buffer, key: SupportsIndex, stream: str) -> None:
    if stream not in acts:
        raise ValueError(f"stream is one of {', '.join(acts)}, and not {stream!r}")
    number = key_number(key)
    with lend_writable(payload) as lent:
        acts[stream](number, lent, len(lent))
