"""Writing films."""

from __future__ import annotations

from typing import Any, Callable, Optional, SupportsIndex, Union

from usm._lent import Buffer, lend, optional_key, unsigned
from usm._native import ffi, lib
from usm._refusal import accepted, refusal
from usm._source import FilmLike, whole


def pack(
    name: Union[str, bytes],
    video: Buffer,
    audio: Optional[Buffer] = None,
    *,
    video_codec: Optional[SupportsIndex] = None,
    audio_codec: Optional[SupportsIndex] = None,
    key: Optional[SupportsIndex] = None,
) -> bytes:
    """Makes a film of a name and of unmasked streams. Extracting it with the same key gives the streams again.

    >>> import usm
    >>> film = usm.pack("lark", b"picture", b"sound", video_codec=1, audio_codec=2, key=0x0123456789ABCDEF)
    >>> usm.open(film).streams(0x0123456789ABCDEF)
    Streams(video=b'picture', audio=b'sound')
    """
    name = name.encode() if isinstance(name, str) else name
    packing = (
        optional_key(key),
        *(0 if codec is None else unsigned(codec, 32, "the codec") for codec in (video_codec, audio_codec)),
        *(int(given is not None) for given in (audio, video_codec, audio_codec)),
    )
    with lend(name) as lent_name, lend(video) as lent_video, lend(b"" if audio is None else audio) as lent_audio:
        lent = [part for each in (lent_name, lent_video, lent_audio) for part in (each, len(each))]
        return written(lambda out, size: lib.usm_write(*lent, packing, out, size))


def from_old(
    film: FilmLike, video_codec: Optional[SupportsIndex] = None, audio_codec: Optional[SupportsIndex] = None
) -> bytes:
    """Converts a film of the old builder to one that can be read. The builder stores no codecs, so they are given here.

    >>> import usm
    >>> film = usm.from_old("old.usm", video_codec=1, audio_codec=2)
    >>> usm.open(film).name
    b'songs/lark.usm'
    """
    codecs = (
        *(0 if codec is None else unsigned(codec, 32, "the codec") for codec in (video_codec, audio_codec)),
        *(int(codec is not None) for codec in (video_codec, audio_codec)),
    )
    with lend(whole(film)) as lent:
        return written(lambda out, size: lib.usm_from_old(lent, len(lent), codecs, out, size))


def to_old(film: FilmLike) -> bytes:
    """Converts a film that from_old made back to the old builder's: the same bytes.

    >>> import usm
    >>> usm.to_old(usm.from_old("old.usm")) == open("old.usm", "rb").read()
    True
    """
    with lend(whole(film)) as lent:
        return written(lambda out, size: lib.usm_to_old(lent, len(lent), out, size))


def written(write: Callable[[Any, int], Any]) -> bytes:
    """What a call writes. It is called twice: the first time for the size alone."""
    asked = write(ffi.NULL, 0)
    if asked.number not in (lib.USM_ACCEPTED, lib.USM_SHORT_ROOM):
        raise refusal(asked)
    out = ffi.new("uint8_t[]", asked.size)
    accepted(write(out, asked.size))
    return bytes(ffi.buffer(out))
