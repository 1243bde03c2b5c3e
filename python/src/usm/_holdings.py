"""HOLDINGS: which tenant holds which film under which key.

The command reads the same files (host/command/src/commands/bill/holdings.rs), and the package is installed without it. What
both have to make of a file is in host/command/tests/holdings.json, by which both are tested.
"""

from __future__ import annotations

import builtins
import os
from collections.abc import Iterable, Iterator
from typing import IO, NamedTuple, Optional, Union

from usm._key import typed, why_none
from usm._lent import key_number, unsigned

_NEEDED = (b"tenant", b"key", b"film")
_BYTE_ORDER_MARK = b"\xef\xbb\xbf"
_BLANKS = b" \t\n\r\f"
# No line has more bytes.
_LONGEST = 1 << 20


class Holding(NamedTuple):
    """This tenant holds this film under this key.

    key: None where the streams are held as they are stored
    line: the line of HOLDINGS that says so, or its number in the order that they are given
    """

    tenant: int
    key: Optional[int]
    film: str
    line: int = 0


class WrongHoldings(ValueError):
    """Lines of HOLDINGS that are wrong, all of them: faults has their numbers, each with what is wrong."""

    faults: list[tuple[int, str]]

    def __init__(self, faults: list[tuple[int, str]]) -> None:
        super().__init__(faults)
        self.faults = faults

    def __str__(self) -> str:
        return "\n".join(f"line {line}: {why}" for line, why in self.faults)


# A tenant, a key and the path of a film.
HoldingLike = Union["tuple[int, Optional[int], Union[str, os.PathLike[str]]]", Holding]
# The path of a CSV file, or holdings.
HoldingsLike = Union[str, "os.PathLike[str]", Iterable[HoldingLike]]


def holdings(given: HoldingsLike) -> Iterator[Holding]:
    """The holdings, each of them checked. The films of a CSV file are paths that start from its folder."""
    if not isinstance(given, (str, os.PathLike)):
        return (_checked(line, holding) for line, holding in enumerate(given, 1))
    return _in_file(given)


def _checked(line: int, holding: HoldingLike) -> Holding:
    try:
        tenant, key, film, *_ = holding
    except (TypeError, ValueError):
        raise TypeError(f"a holding is a tenant, a key and a film, and not {holding!r}") from None
    number = unsigned(tenant, 64, "the tenant")
    return Holding(number, None if key is None else key_number(key), os.fspath(film), line)


def _in_file(path: Union[str, os.PathLike[str]]) -> Iterator[Holding]:
    folder = os.path.dirname(os.fspath(path))
    with builtins.open(path, "rb") as file:
        for holding in in_csv(file):
            yield holding._replace(film=os.path.join(folder, holding.film))


def in_csv(file: IO[bytes]) -> Iterator[Holding]:
    """The holdings of a CSV file, with films as they are written there. Wrong lines are raised together, at the end of the
    file: none of the holdings may be used before that."""
    lines = _lines(file)
    number, heading = next(lines, (1, b""))
    try:
        columns = _Columns(heading)
    except ValueError as wrong:
        raise WrongHoldings([(number, str(wrong))]) from None
    faults = []
    for number, line in lines:
        try:
            holding = columns.holding(number, line)
        except ValueError as wrong:
            faults.append((number, str(wrong)))
        else:
            yield holding
    if faults:
        raise WrongHoldings(faults)


def _lines(file: IO[bytes]) -> Iterator[tuple[int, bytes]]:
    """The lines that are not blank, with their numbers. The first is the heading, and may be blank. Each line is a record, so
    that an open quotation mark spoils no other line."""
    for number, line in enumerate(iter(lambda: file.readline(_LONGEST), b""), 1):
        if len(line) == _LONGEST:
            raise WrongHoldings([(number, "it is longer than 1 MiB")])
        if number == 1:
            line = line.removeprefix(_BYTE_ORDER_MARK)
        if number == 1 or line.strip(_BLANKS):
            yield number, line.rstrip(b"\r\n")


class _Columns:
    """Which column is which, by the heading. The delimiter is a comma or a semicolon, whichever the heading has more of."""

    def __init__(self, heading: bytes) -> None:
        if heading.startswith((b"\xff\xfe", b"\xfe\xff")):
            raise ValueError("it is UTF-16: it has to be saved as CSV in UTF-8")
        self._delimiter = b";" if heading.count(b";") > heading.count(b",") else b","
        names = [name.lower() for name in _fields(heading, self._delimiter)]
        for word in _NEEDED:
            if names.count(word) == 0:
                raise ValueError(f"the heading has no column `{word.decode()}`; it needs tenant, key and film")
            if names.count(word) > 1:
                raise ValueError(f"the heading has the column `{word.decode()}` twice")
        self._count = len(names)
        self._tenant, self._key, self._film = map(names.index, _NEEDED)

    def holding(self, number: int, line: bytes) -> Holding:
        """What a line says. All that is wrong with it is raised together."""
        fields = _fields(line, self._delimiter)
        if len(fields) != self._count:
            raise ValueError(f"it has {_counted(len(fields), 'field')}, and the heading has {self._count}")
        words = fields[self._tenant], fields[self._key], fields[self._film]
        tenant, key, film = _tenant(words[0]), typed(words[1].decode("latin-1")), os.fsdecode(words[2])
        if tenant is None or (key is None and words[1]) or not film:
            raise ValueError("; ".join(_faults(*words)))
        return Holding(tenant, key, film, number)


def _counted(count: int, thing: str) -> str:
    return f"{count} {thing}{'' if count == 1 else 's'}"


def _fields(line: bytes, delimiter: bytes) -> list[bytes]:
    """The fields of a line by RFC 4180, without the blanks around them."""
    fields = _quoted_fields(line, delimiter) if b'"' in line else _plain_fields(line, delimiter)
    return [field.strip(_BLANKS) for field in fields]


def _plain_fields(line: bytes, delimiter: bytes) -> list[bytes]:
    return _without_return(line).split(delimiter)


def _quoted_fields(line: bytes, delimiter: bytes) -> list[bytes]:
    """The fields of a line that has quotation marks. Only where a field begins with one does it mean anything."""
    fields, at = [], 0
    while True:
        quoted, at = _quoted(line, at + 1) if line.startswith(b'"', at) else (b"", at)
        rest, found, _ = line[at:].partition(delimiter)
        fields.append(quoted + _without_return(rest))
        if not found:
            return fields
        at += len(rest) + len(delimiter)


def _quoted(line: bytes, start: int) -> tuple[bytes, int]:
    """What begins behind a quotation mark and ends before another, and the place behind that one. Two of them are one."""
    end = line.find(b'"', start)
    while end >= 0 and line.startswith(b'"', end + 1):
        end = line.find(b'"', end + 2)
    if end < 0:
        raise ValueError("a quotation mark is left open")
    return line[start:end].replace(b'""', b'"'), end + 1


def _without_return(text: bytes) -> bytes:
    if b"\r" in text:
        raise ValueError("it contains a carriage return; lines end in LF or CR LF")
    return text


def _tenant(word: bytes) -> Optional[int]:
    """The number of 64 bits that decimal digits are. Python itself refuses to read thousands of them."""
    digits = word.lstrip(b"0") or word[-1:]
    if not digits.isdigit() or len(digits) > 20 or int(digits) >= 1 << 64:
        return None
    return int(digits)


def _faults(tenant: bytes, key: bytes, film: bytes) -> Iterator[str]:
    """All that is wrong with the fields of a line."""
    if not tenant:
        yield "no tenant"
    elif _tenant(tenant) is None:
        yield f"{_shown(tenant)} is no tenant's number"
    text = key.decode("latin-1")
    if key and typed(text) is None:
        yield f"{_shown(key)} is {why_none(text)}"
    if not film:
        yield "no film"


def _shown(word: bytes) -> str:
    """A word for a message, in which nothing moves the cursor of a terminal."""
    text = word.decode("utf-8", "backslashreplace")
    return "".join(letter if letter.isprintable() else f"\\u{{{ord(letter):x}}}" for letter in text)
