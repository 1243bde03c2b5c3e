"""The Python example of README.md runs as it is."""

from __future__ import annotations

import re
import shutil
from pathlib import Path

import pytest
from conftest import FILMS, REPOSITORY, recorded


def test_the_example_of_the_readme(
    tmp_path: Path, monkeypatch: pytest.MonkeyPatch, capsys: pytest.CaptureFixture[str]
) -> None:
    example = re.search(r"```python\n(.*?)```", (REPOSITORY / "README.md").read_text(), flags=re.DOTALL)
    assert example is not None
    monkeypatch.chdir(tmp_path)
    shutil.copyfile(FILMS / "song.usm", "film.usm")
    Path("holdings.csv").write_text("tenant,key,film\n10,0123456789ABCDEF,film.usm\n")
    exec(example.group(1), {})
    assert (Path("lark.m2v").read_bytes(), Path("lark.adx").read_bytes()) == (recorded("song.video"), recorded("song.audio"))
    printed = capsys.readouterr().out.splitlines()
    assert printed[0] == "b'songs/lark.usm' Codecs(video=1, audio=2) 00FFFF0FFFFFFFFF"
    assert printed[1].startswith("10 10 2189 f0af257b")
