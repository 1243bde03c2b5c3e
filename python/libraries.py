"""Finds the header and the two static libraries that the package is built with."""

import os
import subprocess
from pathlib import Path
from typing import NamedTuple, Optional

REPOSITORY = Path(__file__).resolve().parent.parent
ARCHIVES = ("libusm.a", "libplayer.a")


class Libraries(NamedTuple):
    header: Path
    archives: "list[Path]"


def find() -> Libraries:
    """The folder that USM_LIBRARIES names, that of the repository, or the installed one, in this order."""
    for header, folder in ((_header(), _named()), (_header(), _built()), (_asked("includedir"), _asked("libdir"))):
        if header and folder and all((folder / archive).is_file() for archive in ARCHIVES):
            return Libraries(header / "usm.h", [folder / archive for archive in ARCHIVES])
    raise SystemExit(
        "libusm.a and libplayer.a were not found: run `examples/run` in the repository, or its"
        " `./install PREFIX` with PREFIX/lib/pkgconfig in PKG_CONFIG_PATH, or name their folder in USM_LIBRARIES"
    )


def _header() -> Path:
    return REPOSITORY / "include"


def _named() -> Optional[Path]:
    named = os.environ.get("USM_LIBRARIES")
    return Path(named) if named else None


def _built() -> Path:
    return REPOSITORY / "target" / "staticlib"


def _asked(variable: str) -> Optional[Path]:
    """A variable of the installed library, as pkg-config knows it."""
    try:
        asked = subprocess.run(["pkg-config", f"--variable={variable}", "usm"], capture_output=True, text=True)
    except FileNotFoundError:
        return None
    return Path(asked.stdout.strip()) if asked.stdout.strip() else None
