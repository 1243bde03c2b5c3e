# The compiled module: every function, struct and number of usm.h.
from typing import Any

ffi: Any
lib: Any
