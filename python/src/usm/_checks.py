"""Checks of a film: how much of a cut one can be kept, and whether one is plain."""

from __future__ import annotations

from typing import NamedTuple, Optional

from usm import _film
from usm._lent import lend
from usm._native import lib
from usm._refusal import accepted
from usm._source import FilmLike, whole


class Salvage(NamedTuple):
    """How much of a film can be kept.

    kept: how many bytes are kept, from the first on
    dropped: how many bytes after them are not
    cause: the number of the refusal that they caused; 0 where nothing is dropped
    """

    kept: int
    dropped: int
    cause: int


def salvage(film: FilmLike) -> Salvage:
    """How much can be kept of a film that was cut or damaged: the longest beginning that is accepted.

    >>> import usm
    >>> film = open("song.usm", "rb").read()
    >>> usm.salvage(film[:3000])
    Salvage(kept=2464, dropped=536, cause=1)
    """
    with lend(whole(film)) as lent:
        reply = accepted(lib.usm_salvage(lent, len(lent)))
    return Salvage(reply.kept, reply.dropped, reply.cause)


class Profile(NamedTuple):
    """Whether a film is plain, by the delivery profile.

    is_plain: whether it keeps all rules; what follows is None where it does
    rule: the first rule that is broken: 1 header size, 2 block size, 3 ends of streams, 4 letters
    place: the start of the chunk that breaks it; the film's length where an end is missing
    stream: of rule 3 the stream, "video" or "audio"
    """

    is_plain: bool
    rule: Optional[int] = None
    place: Optional[int] = None
    stream: Optional[str] = None


def profile(film: FilmLike) -> Profile:
    """Whether a film is plain, or the first rule of the delivery profile that it breaks.

    >>> import usm
    >>> usm.profile("song.usm")
    Profile(is_plain=False, rule=1, place=3104, stream=None)
    >>> usm.profile(usm.pack("lark", b"picture")).is_plain
    True
    """
    with _film.open(film) as opened:
        reply = accepted(opened._profile_reply())
    if reply.rule == 0:
        return Profile(True)
    streams = {lib.USM_CHUNK_VIDEO: "video", lib.USM_CHUNK_AUDIO: "audio"}
    return Profile(False, reply.rule, reply.place, streams[reply.stream] if reply.rule == 3 else None)
