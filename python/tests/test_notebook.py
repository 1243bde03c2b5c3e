"""examples/notebook.py: what it prints, and its picture."""

from __future__ import annotations

import subprocess
import sys
import xml.etree.ElementTree as ElementTree
from pathlib import Path

import usm
from conftest import REPOSITORY

EXAMPLE = REPOSITORY / "examples" / "notebook.py"


def test_the_notebook(tmp_path: Path) -> None:
    result = subprocess.run([sys.executable, EXAMPLE, tmp_path], capture_output=True, text=True, check=True)
    assert result.stdout == EXAMPLE.with_suffix(".expected").read_text()
    picture = ElementTree.parse(tmp_path / "chunks.svg").getroot()
    bars = picture.findall("{http://www.w3.org/2000/svg}rect")
    said = [bar[0].text.split(":")[0] for bar in bars if bar[0].text]
    assert said == [f"{chunk.kind} at {chunk.start}" for chunk in usm.open(tmp_path / "lark-10.usm").chunks()]
    right = max(float(bar.get("x", 0)) + float(bar.get("width", 0)) for bar in bars)
    assert 0 < right <= 985
