"""Refusals: every film has an answer, and some are refused."""

from __future__ import annotations

from typing import Any

from usm._native import ffi, lib


class Refusal(Exception):
    """A film, a table or an argument that the library refuses.

    number: why; include/usm.h lists the numbers, docs/RULES.md explains them
    place: the byte of the film at which it is refused; 0 where it is refused as a whole
    reason: the number in words

    >>> import usm
    >>> try:
    ...     usm.open(b"no film at all")
    ... except usm.Refusal as refusal:
    ...     print(refusal.number, refusal.place, refusal.reason)
    2 0 no CRID at the start
    """

    number: int
    place: int
    reason: str

    def __init__(self, number: int, place: int, unknown_type: int = 0) -> None:
        super().__init__(number, place, unknown_type)
        self.number = number
        self.place = place
        self.unknown_type = unknown_type
        self.reason = ffi.string(lib.usm_reason(number)).decode("ascii")
        if number == lib.USM_UNKNOWN_TYPE:
            self.reason += f" {unknown_type}"

    def __str__(self) -> str:
        return f"refused {self.number} at {self.place}: {self.reason}"


def accepted(reply: Any) -> Any:
    """The reply, if it is not a refusal. A refusal is raised."""
    if reply.number != lib.USM_ACCEPTED:
        raise refusal(reply)
    return reply


def refusal(reply: Any) -> Refusal:
    return Refusal(reply.number, reply.refused_at, reply.unknown_type)
