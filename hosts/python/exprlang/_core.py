"""What compiles and runs: the extension `_native`, or ctypes where there is none.

Both have a Program, a Context and an Environment, whose methods begin with `_`. The classes that
users see are over these, and say what they do.
"""

from __future__ import annotations

import os
import sys
from typing import TYPE_CHECKING

if TYPE_CHECKING:
    from ._native import Context, Environment, Program, counts, version
elif os.environ.get("EXPRLANG_LIB") or sys.version_info < (3, 10):
    from ._by_ctypes import Context, Environment, Program, counts, version
else:
    try:
        from ._native import Context, Environment, Program, counts, version
    except ImportError as _fault:
        try:
            from ._by_ctypes import Context, Environment, Program, counts, version
        except ImportError as _other:
            raise ImportError(f"{_other}\nThere is no extension either: {_fault}") from None

__all__ = ["Context", "Environment", "Program", "counts", "version"]
BACKEND = "extension" if Program.__module__.endswith("._native") else "ctypes"
