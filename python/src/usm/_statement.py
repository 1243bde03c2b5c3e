"""Which tenants share a copy of one film."""

from __future__ import annotations

from collections.abc import Iterable, Mapping
from typing import NamedTuple, SupportsIndex, Union

from usm._lent import key_number, lend, unsigned
from usm._native import ffi, lib
from usm._refusal import accepted
from usm._source import FilmLike, whole


class Share(NamedTuple):
    """A tenant, the lowest tenant that shares its copy, and the tenant's share of the copy in bytes."""

    tenant: int
    group: int
    share: int


def statement(
    film: FilmLike, tenants: Union[Mapping[int, int], Iterable[tuple[SupportsIndex, SupportsIndex]]]
) -> list[Share]:
    """Which tenants share a copy of a film, and what each bears of it: a line for each tenant, by rising number.

    tenants: their numbers and keys, at most 16. usm.bill has no such limit.

    >>> import usm
    >>> for line in usm.statement("song.usm", {10: 0x0123456789ABCDEF, 20: 0xFF23456789ABCDEF, 30: 0x0123456789ABCDEE}):
    ...     print(line)
    Share(tenant=10, group=10, share=1095)
    Share(tenant=20, group=10, share=1094)
    Share(tenant=30, group=30, share=2189)
    """
    pairs = tenants.items() if isinstance(tenants, Mapping) else tenants
    held = ffi.new("struct usm_tenant[]", [(unsigned(tenant, 64, "the tenant"), key_number(key)) for tenant, key in pairs])
    lines = ffi.new("struct usm_share[]", len(held))
    with lend(whole(film)) as lent:
        accepted(lib.usm_statement(lent, len(lent), held, len(held), lines, len(lines)))
    return [Share(line.tenant, line.group, line.share) for line in lines]
