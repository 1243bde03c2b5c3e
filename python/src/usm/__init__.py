"""USM films for Python, by proved functions.

    with usm.open("film.usm") as film:
        film.extract(key, video=video_file, audio=audio_file)

Every rule of the format is in the libraries that this package calls; include/usm.h says what each function promises.
A film, wherever one is asked for, is a path, a binary file that can seek, or the film's bytes. A film that is refused
raises usm.Refusal. The interpreter lock is released in every call.
"""

from usm._bill import Bill, bill
from usm._books import Line, Unbilled
from usm._checks import Profile, Salvage, profile, salvage
from usm._digest import Digest, Digests, digest
from usm._film import Chunk, Codecs, Film, Streams, open
from usm._holdings import Holding, WrongHoldings
from usm._key import key
from usm._masks import mask, unmask
from usm._native import ffi as _ffi, lib as _lib
from usm._packing import from_old, pack, to_old
from usm._reading import Reading
from usm._refusal import Refusal
from usm._statement import Share, statement
from usm._tables import Column, Table

__version__: str = _ffi.string(_lib.usm_version()).decode("ascii")

__all__ = [
    "Bill",
    "Chunk",
    "Codecs",
    "Column",
    "Digest",
    "Digests",
    "Film",
    "Holding",
    "Line",
    "Profile",
    "Reading",
    "Refusal",
    "Salvage",
    "Share",
    "Streams",
    "Table",
    "Unbilled",
    "WrongHoldings",
    "bill",
    "digest",
    "from_old",
    "key",
    "mask",
    "open",
    "pack",
    "profile",
    "salvage",
    "statement",
    "to_old",
    "unmask",
]
