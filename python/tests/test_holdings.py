"""HOLDINGS as it is read, by the list that the command is tested by too."""

from __future__ import annotations

import io
import json
import os
import random
import subprocess
from pathlib import Path
from typing import Any

import pytest
import usm
from conftest import FILMS, KEY, REPOSITORY
from usm._holdings import in_csv

RECORDED = json.loads((REPOSITORY / "host" / "command" / "tests" / "holdings.json").read_text())["cases"]


def read(file: bytes) -> "dict[str, list[Any]]":
    """What is made of a file, in the words of the list."""
    try:
        return {"holdings": [as_recorded(holding) for holding in in_csv(io.BytesIO(file))]}
    except usm.WrongHoldings as wrong:
        return {"wrong": [list(fault) for fault in wrong.faults]}


def as_recorded(holding: usm.Holding) -> "list[Any]":
    key = None if holding.key is None else f"{holding.key:016X}"
    return [holding.line, str(holding.tenant), key, os.fsencode(holding.film).decode("latin-1")]


@pytest.mark.parametrize("case", RECORDED, ids=[case["case"] for case in RECORDED])
def test_every_recorded_file_is_read_as_recorded(case: "dict[str, Any]") -> None:
    expected = {name: case[name] for name in ("holdings", "wrong") if name in case}
    assert read(case["file"].encode("latin-1")) == expected


WORDS = ["1", "", "-1", "x", "0x12", '"a""b"', " 7 ", "18446744073709551615", "99999999999999999999", "é", '"1"', "f;g"]
ODD = ['"', '""', "\r", "\f", "\ufeff", "0", "\0", "a\"b", '"c"d', "5613126134333697", "18446744073709551616"]


def random_file(rng: random.Random, words: "list[str]") -> bytes:
    """Lines of words; now and then two words stand in one field."""
    fields = [[rng.choice(words) + rng.choice(["", "", rng.choice(words)]) for _ in range(3)] for _ in range(30)]
    return "\n".join(["tenant,key,film", *(",".join(line[: rng.choice([2, 3, 3, 3])]) for line in fields)]).encode()


@pytest.mark.parametrize("words", [WORDS, WORDS + ODD])
def test_random_files_are_read_as_the_command_reads_them(command: str, words: "list[str]", tmp_path: Path) -> None:
    rng = random.Random(29)
    path = tmp_path / "holdings.csv"
    for _ in range(60):
        path.write_bytes(random_file(rng, words))
        result = subprocess.run([command, "bill", "--json", path], capture_output=True, text=True, encoding="utf-8")
        assert read(path.read_bytes()) == what_the_command_says(result, f"usm: {path}: line ")


def what_the_command_says(result: "subprocess.CompletedProcess[str]", beginning: str) -> "dict[str, list[Any]]":
    wrong = [line[len(beginning) :].partition(": ") for line in result.stderr.split("\n") if line.startswith(beginning)]
    if wrong:
        return {"wrong": [[int(line), why] for line, _, why in wrong]}
    objects = [json.loads(line) for line in result.stdout.splitlines()]
    held = [each for each in objects if each["kind"] == "holding"]
    return {"holdings": [[each["line"], each["tenant"], each["key"], path_of(each["file_hex"])] for each in held]}


def path_of(hex_digits: str) -> str:
    return bytes.fromhex(hex_digits).decode("latin-1")


def test_a_line_that_is_too_long() -> None:
    heading = b"tenant,key,film\n"
    longest = heading + b"1,," + b"a" * ((1 << 20) - 5) + b"\n"
    assert len(list(in_csv(io.BytesIO(longest)))) == 1
    with pytest.raises(usm.WrongHoldings, match="line 2: it is longer than 1 MiB"):
        list(in_csv(io.BytesIO(heading + b"1,," + b"a" * (1 << 20))))


def test_thousands_of_digits_are_no_tenant() -> None:
    faults = read(b"tenant,key,film\n" + b"1" * 5000 + b",,a\n" + b"0" * 5000 + b"7,,a\n")
    assert [line for line, _ in faults["wrong"]] == [2]


def test_all_wrong_lines_are_raised_together(tmp_path: Path) -> None:
    path = tmp_path / "holdings.csv"
    path.write_text("tenant,key,film\n1,2\n-1,,a.usm\n1,,a.usm\n")
    with pytest.raises(usm.WrongHoldings) as raised:
        usm.bill(path)
    faults = [(2, "it has 2 fields, and the heading has 3"), (3, "-1 is no tenant's number")]
    assert raised.value.faults == faults
    assert str(raised.value) == "\n".join(f"line {line}: {why}" for line, why in faults)


def test_films_are_paths_that_start_from_the_folder_of_the_file(tmp_path: Path, monkeypatch: pytest.MonkeyPatch) -> None:
    (tmp_path / "song.usm").write_bytes((FILMS / "song.usm").read_bytes())
    (tmp_path / "holdings.csv").write_text(f"tenant,key,film\n10,{KEY:X},song.usm\n20,{KEY:X},{FILMS / 'song.usm'}\n")
    for folder, path in ((FILMS, tmp_path / "holdings.csv"), (tmp_path, Path("holdings.csv"))):
        monkeypatch.chdir(folder)
        assert [(line.tenant, line.share) for line in usm.bill(path).lines] == [(10, 1095), (20, 1094)]
        assert usm.bill(str(path)).unbilled == []
