"""Checks of arguments, and of what is handed in under names."""

from __future__ import annotations

from collections.abc import Mapping
from typing import Any, Literal

from ._errors import Unfit
from ._values import utf8

Missing = Literal["error", "nil"]


def record(values: Any) -> Mapping[str, Any]:
    """Returns names and their values, as they were handed in."""
    if isinstance(values, Mapping):
        return values
    if not isinstance(values, str):
        try:
            return dict(values)
        except (TypeError, ValueError):
            pass
    raise TypeError(
        f"a context is a dict of names and their values, or a Context, not {type(values).__name__}"
    )


def checked_name(name: Any) -> str:
    """Returns a name of a context, if it is one."""
    if not isinstance(name, str):
        raise TypeError(f"a name of a context is a str, not {type(name).__name__}: {name!r}")
    return name


def checked_utf8(text: str) -> bytes:
    """Returns the bytes of a string, where it has some."""
    try:
        return utf8(text)
    except Unfit as fault:
        raise fault.kind(str(fault)) from None


def checked_missing(missing: Any) -> Missing:
    """Returns what a missing name is, if it is handed in well."""
    if missing == "error":
        return "error"
    if missing == "nil":
        return "nil"
    raise ValueError(f'missing is "error" or "nil", not {missing!r}')


def no_environment(environment: object) -> TypeError:
    """Returns why something isn't taken as an environment."""
    why = f"an environment is an Environment, not {type(environment).__name__}"
    return TypeError(f"{why}: hand functions in as Environment(functions={{..}})")
