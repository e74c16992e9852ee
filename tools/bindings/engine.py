"""Reads what the engine has at its border."""

from __future__ import annotations

import dataclasses
import pathlib
import re
from collections.abc import Callable

TOP = pathlib.Path(__file__).resolve().parents[2]
EXCHANGE = "crates/expr_exchange/src"
LAST_KIND = "KeyedMap"
"""The last kind that a value may have. Those behind it are for what is passed in."""


class Unreadable(Exception):
    """A file that doesn't have what it should have."""


def text_of(path: str) -> str:
    return (TOP / path).read_text(encoding="utf-8")


def read(path: str) -> str:
    """Returns a file's text without comments."""
    comment = {"c": r"/\*.*?\*/", "h": r"/\*.*?\*/", "py": r"\n *#[^\n]*"}.get(
        path.rpartition(".")[2], r"//[^\n]*"
    )
    return re.sub(comment, "", text_of(path), flags=re.S)


def read_all(pattern: str) -> str:
    return "".join(read(str(it.relative_to(TOP))) for it in sorted(TOP.glob(pattern)))


@dataclasses.dataclass(frozen=True)
class Border:
    """The names of the engine's enums, each at the place of its number."""

    asks: list[str]
    kinds: list[str]
    statuses: list[str]
    limits: list[str]

    @property
    def value_kinds(self) -> list[str]:
        return self.kinds[: self.kinds.index(LAST_KIND) + 1]

    @property
    def other_kinds(self) -> list[str]:
        return self.kinds[self.kinds.index(LAST_KIND) + 1 :]

    def is_limit(self, status: str) -> bool:
        return status in self.limits

    def kind_numbers(self) -> dict[str, int]:
        return {upper(it): number for number, it in enumerate(self.kinds)}

    def limit_numbers(self) -> dict[str, int]:
        return {upper(it): number for number, it in enumerate(self.limits)}

    def status_numbers(self) -> dict[str, int]:
        """Returns the number of each status, and of LIMITS, the first status of a limit."""
        found = {upper(it): number for number, it in enumerate(self.statuses)}
        return {**found, "LIMITS": self.statuses.index(self.limits[0])}


def border_of(read: Callable[[str], str]) -> Border:
    """Returns the border, by the text without comments of each file that is read."""
    call, kind, error = (read(f"{EXCHANGE}/{it}.rt") for it in ("call", "kind", "host_error"))
    numbered = re.findall(r"(\d+) => Some\(Limit::(\w+)\)", read(f"{EXCHANGE}/limit.rt"))
    limits = [name for _, name in sorted(numbered, key=lambda it: int(it[0]))]
    return Border(variants(call, "Ask"), variants(kind, "Kind"), variants(error, "Status"), limits)


def variants(text: str, name: str) -> list[str]:
    return re.findall(r"\w+", within(text, f"pub enum {name} {{", "\n}"))


def within(text: str, front: str, end: str) -> str:
    """Returns what is in a text between two others, of which the first comes in it once."""
    if text.count(front) != 1:
        raise Unreadable(f"{front!r} comes {text.count(front)} times where it should come once")
    return text.partition(front)[2].partition(end)[0]


def upper(name: str) -> str:
    """Returns a name of the engine as a constant is spelt: `KeyedMap` as KEYED_MAP."""
    return re.sub(r"(?<=[a-z])(?=[A-Z])", "_", name.replace("DateTime", "Datetime")).upper()


def word(name: str) -> str:
    """Returns the word for a kind or a status in Python: maps of both kinds are `map`."""
    return {"Done": "ok", "KeyedMap": "map"}.get(name, name.lower())
