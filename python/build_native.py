"""The module usm._native: usm.h for Python. Its declarations are taken from usm.h, and the C compiler checks them."""

import re
import sys
from pathlib import Path

from cffi import FFI

sys.path.insert(0, str(Path(__file__).resolve().parent))
import libraries  # noqa: E402

# The functions of the static libraries stay within the module.
COMPILED = ["-O2", "-Wall", "-Werror"]
LINKED = ["-Wl,--exclude-libs,ALL"]

SOURCE = """
#include "usm.h"

static const char *usm_version(void)
{
    return USM_VERSION;
}
"""


def declarations(header: str) -> str:
    """The numbers, structs and functions of usm.h, in the C that cffi reads: without comments, bodies and conditions."""
    text = re.sub(r"/\*.*?\*/", "", header, flags=re.DOTALL)
    text = re.sub(r"#ifdef __cplusplus.*?#endif", "", text, flags=re.DOTALL)
    text = re.sub(r"^(?!#define USM_\w+ (?:0x[0-9A-F]+|\d+)\s*$)#.*$", "", text, flags=re.MULTILINE)
    text = re.sub(r"^static const .*$", "", text, flags=re.MULTILINE)
    text = re.sub(r"^static inline (.*?)\n\{.*?^\}", r"\1;", text, flags=re.DOTALL | re.MULTILINE)
    return text + "\nstatic const char *usm_version(void);\n"


def builder() -> FFI:
    found = libraries.find()
    native = FFI()
    native.cdef(declarations(found.header.read_text(encoding="utf-8")))
    native.set_source(
        "usm._native",
        SOURCE,
        include_dirs=[str(found.header.parent)],
        extra_objects=[str(archive) for archive in found.archives],
        extra_compile_args=COMPILED,
        extra_link_args=LINKED,
        depends=[str(found.header), *map(str, found.archives)],
    )
    return native
