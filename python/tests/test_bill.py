"""The bill, compared with a brute force that unpacks for every holding, and with the command."""

from __future__ import annotations

import csv
import hashlib
import io
import os
import random
import subprocess
from collections.abc import Iterable
from pathlib import Path
from typing import Any, Optional

import pytest
import usm
from conftest import FILMS, KEY, recorded
from usm._held import Held
from usm._holdings import holdings

House = list[tuple[int, Optional[int], str]]


def unpacked(film: str, key: Optional[int]) -> Optional[tuple[bytes, bytes]]:
    try:
        with usm.open(film) as opened:
            streams = opened.streams(key)
        return streams.video, streams.audio or b""
    except (usm.Refusal, OSError):
        return None


def brute_force(house: Iterable[tuple[int, Optional[int], str]]) -> list[tuple[Any, ...]]:
    """The lines of a bill by comparing streams themselves."""
    holders: dict[tuple[bytes, bytes], set[int]] = {}
    for tenant, key, film in house:
        streams = unpacked(film, key)
        if streams is not None:
            holders.setdefault(streams, set()).add(tenant)
    lines = []
    for (video, audio), tenants in holders.items():
        even, remainder = divmod(len(video) + len(audio), len(tenants))
        sums = (hashlib.sha256(video).hexdigest(), hashlib.sha256(audio).hexdigest())
        for place, tenant in enumerate(sorted(tenants)):
            lines.append((tenant, min(tenants), len(video), len(audio), even + (place < remainder), *sums))
    return sorted(lines, key=lambda line: (line[0], line[5], line[6]))


def make_films(folder: Path, rng: random.Random) -> list[str]:
    """Films of some streams under some keys: many of them share streams; one is refused, one missing."""
    streams = [rng.randbytes(rng.choice([0, 300, 700])) for _ in range(3)]
    for number in range(5):
        audio = rng.choice([None, b"", *streams])
        codec = rng.choice([None, 2]) if audio is not None else None
        film = usm.pack(str(number), rng.choice(streams), audio, audio_codec=codec, key=rng.choice([None, KEY, 5]))
        (folder / f"{number}.usm").write_bytes(film)
    (folder / "cut.usm").write_bytes(recorded("song.usm")[:2000])
    return [str(folder / name) for name in ("0.usm", "1.usm", "2.usm", "3.usm", "4.usm", "cut.usm", "missing.usm")]


TENANTS = [0, 1, 2, 3, 9, 10, (1 << 63) - 1, 1 << 63, (1 << 64) - 1]
KEYS = [None, 0, 5, KEY, KEY | 0xFF << 56, KEY ^ 1, KEY ^ 0xFF << 8]


def random_house(films: list[str], rng: random.Random) -> House:
    count = rng.randrange(40)
    return [(rng.choice(TENANTS), rng.choice(KEYS), rng.choice(films)) for _ in range(count)]


@pytest.mark.parametrize("seed", range(60))
def test_random_houses_against_a_brute_force(seed: int, tmp_path: Path) -> None:
    rng = random.Random(seed)
    films = make_films(tmp_path, rng)
    for _ in range(5):
        house = random_house(films, rng)
        made = usm.bill(house)
        assert made.lines == brute_force(house)
        left_out = [(at, tenant) for at, (tenant, key, film) in enumerate(house, 1) if unpacked(film, key) is None]
        assert [(unbilled.line, unbilled.tenant) for unbilled in made.unbilled] == left_out
        assert made.is_complete == (not left_out)
        rng.shuffle(house)
        assert usm.bill(house).lines == made.lines


def test_one_film_against_the_statement() -> None:
    rng = random.Random(7)
    for _ in range(50):
        tenants = {tenant: rng.choice(KEYS[1:]) for tenant in rng.sample(TENANTS, rng.randint(1, 9))}
        made = usm.bill((tenant, key, str(FILMS / "song.usm")) for tenant, key in tenants.items())
        shares = [(line.tenant, line.group, line.share) for line in made.lines]
        assert shares == usm.statement(FILMS / "song.usm", {tenant: key or 0 for tenant, key in tenants.items()})


def test_the_csv_is_that_of_the_command(command: str, tmp_path: Path) -> None:
    rng = random.Random(30)
    for _ in range(10):
        films = make_films(tmp_path, rng)
        house = random_house(films, rng)
        path = write(tmp_path, house)
        result = subprocess.run([command, "bill", "--csv", path], capture_output=True)
        made = usm.bill(path)
        assert made.csv().encode() == result.stdout
        assert result.returncode == (0 if made.is_complete else 1)


def write(folder: Path, house: House) -> Path:
    path = folder / "holdings.csv"
    with path.open("w", newline="") as file:
        writer = csv.writer(file)
        writer.writerow(["tenant", "key", "film"])
        for tenant, key, film in house:
            writer.writerow([tenant, "" if key is None else f"{key:016X}", os.path.relpath(film, folder)])
    return path


def test_totals() -> None:
    song = str(FILMS / "song.usm")
    made = usm.bill([(10, KEY, song), (20, KEY, song), (10, None, song), (20, KEY, song)])
    assert made.totals() == {10: 1095 + 2189, 20: 1094}
    assert sum(made.totals().values()) == 2 * 2189


def test_names_that_are_no_text(tmp_path: Path) -> None:
    film = os.fsdecode(os.fsencode(tmp_path) + b"/\xff\xfe.usm")
    Path(film).write_bytes(recorded("song.usm"))
    (tmp_path / "holdings.csv").write_bytes(b"tenant,key,film\n1,,\xff\xfe.usm\n1,,\xfd.usm\n")
    made = usm.bill(tmp_path / "holdings.csv")
    assert len(made.lines) == 1
    assert [os.fsencode(unbilled.film).rsplit(b"/")[-1] for unbilled in made.unbilled] == [b"\xfd.usm"]


def test_a_path_that_no_file_can_have() -> None:
    made = usm.bill([(1, None, "a\0b"), (1, KEY, str(FILMS / "song.usm"))])
    assert [unbilled.why for unbilled in made.unbilled] == ["embedded null byte"] and len(made.lines) == 1


def test_each_film_and_each_key_of_it_are_scanned_once() -> None:
    house = [(1, None, "b"), (2, 5, "a"), (3, 5, "a"), (1, (1 << 64) - 1, "a"), (2, 0, "b"), (2, None, "b")]
    with Held(holdings(house)) as held:
        assert list(held.films()) == [("a", [5, (1 << 64) - 1]), ("b", [None, 0])]
        assert [row[0] for row in held.rows()] == [1, 2, 3, 4, 5, 6]


def test_a_holding_is_three_things() -> None:
    with pytest.raises(TypeError, match=r"a holding is a tenant, a key and a film, and not \(1, 2\)"):
        usm.bill([(1, 2)])  # type: ignore[list-item]


def test_the_file_of_lines_has_the_ends_of_the_command() -> None:
    assert usm.bill([]).csv() == "tenant,group,video_bytes,audio_bytes,share,video_sha256,audio_sha256\r\n"
    rows = list(csv.reader(io.StringIO(usm.bill([(3, KEY, str(FILMS / "song.usm"))]).csv(), newline="")))
    assert rows[1][:5] == ["3", "3", "1453", "736", "2189"]
