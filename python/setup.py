"""Builds the package with the static libraries, and copies the command's bill.sql into it."""

import re
import shutil
import sys
from pathlib import Path

from setuptools import setup
from setuptools.command.build_py import build_py

HERE = Path(__file__).resolve().parent
sys.path.insert(0, str(HERE))
import libraries  # noqa: E402

BILL = HERE.parent / "host" / "command" / "src" / "commands" / "bill" / "bill.sql"


class WithBill(build_py):
    """Takes bill.sql from the command: one text computes groups and shares in both."""

    def run(self) -> None:
        super().run()
        if not self.editable_mode:
            shutil.copyfile(BILL, Path(self.build_lib) / "usm" / "bill.sql")


def version() -> str:
    header = libraries.find().header.read_text(encoding="utf-8")
    return re.search(r'^#define USM_VERSION "(.*)"$', header, flags=re.MULTILINE).group(1)


# Intermediate files go where all other built files are.
MADE = HERE.parent / "target" / "python"
MADE.mkdir(parents=True, exist_ok=True)

setup(
    version=version(),
    cffi_modules=["build_native.py:builder"],
    cmdclass={"build_py": WithBill},
    options={"build": {"build_base": str(MADE)}, "egg_info": {"egg_base": str(MADE)}},
)
