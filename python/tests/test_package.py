"""What is installed: the version, the types, every function of usm.h, and the examples in the docstrings."""

from __future__ import annotations

import doctest
import importlib
import pkgutil
import re
from pathlib import Path

import pytest
import usm
from conftest import FILMS, REPOSITORY
from usm._native import lib

HEADER = (REPOSITORY / "include" / "usm.h").read_text()
PACKAGE = Path(usm.__file__).parent


def test_the_version_is_that_of_the_header() -> None:
    assert f'#define USM_VERSION "{usm.__version__}"' in HEADER
    assert importlib.import_module("importlib.metadata").version("usm") == usm.__version__


def test_every_function_and_number_of_the_header_is_there() -> None:
    functions = set(re.findall(r"^[a-z].*?\b(usm_\w+)\(", HEADER, flags=re.MULTILINE)) - {"usm_version"}
    numbers = dict(re.findall(r"^#define (USM_\w+) (0x[0-9A-F]+|\d+)", HEADER, flags=re.MULTILINE))
    assert len(functions) > 25 and functions <= set(dir(lib))
    assert len(numbers) > 50 and all(getattr(lib, name) == int(number, 0) for name, number in numbers.items())


def test_the_types_are_for_checkers() -> None:
    assert (PACKAGE / "py.typed").is_file() and (PACKAGE / "_native.pyi").is_file()


def test_groups_and_shares_are_computed_by_the_text_of_the_command() -> None:
    text = (REPOSITORY / "host" / "command" / "src" / "commands" / "bill" / "bill.sql").read_text()
    assert (PACKAGE / "bill.sql").read_text() == text


def test_everything_public_is_documented() -> None:
    assert [name for name in usm.__all__ if not getattr(usm, name).__doc__] == []
    assert sorted(usm.__all__, key=lambda name: (not name[0].isupper(), name)) == usm.__all__


MODULES = ["usm"] + [f"usm.{module.name}" for module in pkgutil.iter_modules(usm.__path__) if module.name != "_native"]


def test_the_examples_in_the_docstrings(monkeypatch: pytest.MonkeyPatch) -> None:
    monkeypatch.chdir(FILMS)
    results = [doctest.testmod(importlib.import_module(name)) for name in MODULES]
    assert sum(result.failed for result in results) == 0
    assert sum(result.attempted for result in results) > 40
