"""Keys as they are typed."""

from __future__ import annotations

import re
from typing import Optional

_KEY = re.compile(r"(?:0[xX])?([0-9A-Fa-f]{1,16})")
_DECIMAL = re.compile(r"0*([0-9]{1,20})")
_RULE = "no key: a key is 1 to 16 hex digits, with or without 0x"


def key(text: str) -> int:
    """The key of 1 to 16 hex digits, with or without 0x.

    >>> import usm
    >>> hex(usm.key("0123456789ABCDEF"))
    '0x123456789abcdef'
    >>> usm.key("lark")
    Traceback (most recent call last):
        ...
    ValueError: 'lark' is no key: a key is 1 to 16 hex digits, with or without 0x
    """
    found = typed(text)
    if found is None:
        raise ValueError(f"{text!r} is {why_none(text)}")
    return found


def typed(text: str) -> Optional[int]:
    """The key that a text is, if it is one."""
    found = _KEY.fullmatch(text)
    return int(found.group(1), 16) if found else None


def why_none(text: str) -> str:
    """Why a text is no key. A decimal number is shown as the key that may be meant."""
    decimal = _DECIMAL.fullmatch(text)
    if decimal and int(decimal.group(1)) < 1 << 64:
        return f"{_RULE}; the decimal number {text} is the key {int(decimal.group(1)):016X}"
    return _RULE
