"""The recorded films, and the command."""

from __future__ import annotations

import os
from pathlib import Path

import pytest
from hypothesis import settings

# Leaves no folder of examples behind.
settings.register_profile("here", database=None, deadline=None)
settings.load_profile("here")

REPOSITORY = Path(__file__).resolve().parents[2]
FILMS = REPOSITORY / "host" / "usm" / "tests"
KEY = 0x0123456789ABCDEF


def recorded(name: str) -> bytes:
    return (FILMS / name).read_bytes()


@pytest.fixture
def command() -> str:
    """The command `usm`, to compare the package with."""
    found = os.environ.get("USM_COMMAND")
    if not found:
        pytest.skip("USM_COMMAND names no command to compare with")
    return found
