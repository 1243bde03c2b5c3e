"""How films and tables are read."""

from __future__ import annotations

from dataclasses import dataclass
from typing import Any, Union

from usm._lent import unsigned
from usm._native import lib

_AUDIO = {"none": lib.USM_AUDIO_NONE, "all": lib.USM_AUDIO_ALL}
_PAYLOADS = {"original": lib.USM_PAYLOADS_ORIGINAL, "after-header": lib.USM_PAYLOADS_AFTER_HEADER}
_TABLES = {"original": lib.USM_TABLES_ORIGINAL, "zero-columns": lib.USM_TABLES_ZERO_COLUMNS}


@dataclass(frozen=True)
class Reading:
    """How a film or a table is read. usm.h says what each choice means.

    audio: "all", "none", or the number of the one channel that is taken
    payloads: "original", or "after-header" where headers have other sizes than usual
    tables: "original", or "zero-columns" where columns of storage 1 store nothing

    >>> import usm
    >>> usm.Reading(audio=3)
    Reading(audio=3, payloads='original', tables='original')
    """

    audio: Union[str, int] = "all"
    payloads: str = "original"
    tables: str = "original"

    def __post_init__(self) -> None:
        self.lent()

    def lent(self) -> Any:
        """A struct usm_reading."""
        if isinstance(self.audio, str):
            audio, channel = _choice("audio", self.audio, _AUDIO), 0
        else:
            audio, channel = lib.USM_AUDIO_CHANNEL, unsigned(self.audio, 8, "the channel")
        return (audio, channel, _choice("payloads", self.payloads, _PAYLOADS), _choice("tables", self.tables, _TABLES))


def _choice(what: str, word: str, choices: dict[str, int]) -> int:
    if word not in choices:
        raise ValueError(f"{what} is one of {', '.join(choices)}, and not {word!r}")
    return choices[word]


DEFAULT = Reading()
