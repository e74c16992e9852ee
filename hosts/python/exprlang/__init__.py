"""exprlang: an expression language for rules, filters and checks, whose engine is proved.

>>> import exprlang
>>> rule = exprlang.compile("price * count > 100 and not blocked")
>>> rule.run({"price": 60, "count": 2, "blocked": False})
True
>>> exprlang.evaluate("map(1..3, # * 2)")
[2, 4, 6]

Expressions may come from anyone: limits bound what they take. Set others, or lift them.

>>> exprlang.evaluate("len(1..2000000)")
Traceback (most recent call last):
exprlang.LimitError: ...
>>> exprlang.evaluate("len(1..2000000)", limits=exprlang.UNLIMITED)
2000000

Program.run says which values you can hand in, and what they are in Python.

The engine is in an extension for CPython from 3.10 on. Where there is none, the module calls
libexprlang.so.0 by ctypes: it looks beside itself, then in hosts/out/lib of the repository, then
where the system has its libraries. If EXPRLANG_LIB names a folder, the module takes the library of
that folder. An ImportError says where it looked.

Threads may share rules, programs, contexts and environments. Each run takes an idle engine and
gives it back, so threads that come and go leave nothing behind. A run of more than 10,000 steps
lets other threads run, and so does Rule.lines. In asyncio, call short runs as they are, and hand
long ones to asyncio.to_thread. All objects can be pickled, so multiprocessing, concurrent.futures
and Dask work, and so does a fork.
"""

from __future__ import annotations

from typing import Any, Optional

from . import _core
from ._checks import Missing
from ._context import Context
from ._environment import Environment
from ._errors import Error, LimitError, Syntax
from ._limits import UNLIMITED, USUAL, AnyLimits, Limits, Unlimited, Used
from ._program import Program, Record
from ._rule import Rule
from ._values import Key, KeyedMap, Month, Weekday

# without `compile`, with which a star import would replace the built-in
__all__ = [
    "Context",
    "Environment",
    "Error",
    "Key",
    "KeyedMap",
    "LimitError",
    "Limits",
    "Month",
    "Program",
    "Rule",
    "Syntax",
]
__all__ += ["UNLIMITED", "Unlimited", "Used", "Weekday", "evaluate", "library_version"]


def library_version() -> str:
    """Returns the library's version, kit and sources, and whether it is proved.

    >>> exprlang.library_version().split(", ")[0] == exprlang.__version__
    True
    """
    return _core.version()


__version__ = library_version().partition(",")[0]


def compile(text: str, limits: AnyLimits = USUAL, missing: Missing = "error") -> Program:
    """Compiles an expression.

    `limits` hold here and for each run: Limits, or UNLIMITED for expressions that you trust.
    `missing` says what a name is that a context lacks: "error", or "nil" for sparse records.

    Errors: Syntax for a string that is no expression. Error of kind "literal" or "pattern" for a
    number that is too large, or a pattern that is no regular expression. LimitError at a limit.
    TypeError and ValueError for an argument of the wrong kind.

    >>> rule = exprlang.compile("status >= 500 or seconds > 10", missing="nil")
    >>> rule.names
    ['seconds', 'status']
    >>> exprlang.compile(b"status")
    Traceback (most recent call last):
    TypeError: an expression is a str, not bytes
    """
    return Program(text, limits, missing)


def evaluate(
    text: str,
    context: Record = None,
    environment: Optional[Environment] = None,
    limits: AnyLimits = USUAL,
    missing: Missing = "error",
) -> Any:
    """Returns the value of an expression: `compile` and Program.run in one, with their errors.

    >>> exprlang.evaluate("price * count", {"price": 60, "count": 2})
    120
    """
    return Program(text, limits, missing).run(context, environment)
