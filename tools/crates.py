"""Reads crates.txt: the crates, and which are below which."""

from __future__ import annotations

import pathlib

TOP = pathlib.Path(__file__).resolve().parents[1]


class Crates:
    """The crates of a repository."""

    def __init__(self, top: pathlib.Path = TOP) -> None:
        self.top = top
        self.lines: dict[str, str] = {}
        """The line of each crate, as it is in crates.txt, in its order."""
        self.uses: dict[str, list[str]] = {}
        """What the line of each crate names: crates of the repository and of the kit."""
        for line in (top / "crates.txt").read_text(encoding="utf-8").splitlines():
            sides = line.split("#")[0].split(":")
            if len(sides) == 2:
                name = sides[0].split()[0]
                self.lines[name], self.uses[name] = line, sides[1].split()
        self._below: dict[str, list[str]] = {}

    def __contains__(self, name: object) -> bool:
        return name in self.uses

    def folder(self, name: str) -> pathlib.Path:
        return self.top / "crates" / name

    def below(self, name: str) -> list[str]:
        """Returns the crates of the repository that a crate is made of, the lowest first."""
        if name not in self._below:
            right_below = [it for it in self.uses[name] if it in self]
            order = dict.fromkeys(it for use in right_below for it in [*self.below(use), use])
            self._below[name] = list(order)
        return self._below[name]

    def from_lowest(self) -> list[str]:
        """Returns all crates: one that has fewer below it comes before one that has more."""
        return sorted(self.uses, key=lambda it: (len(self.below(it)), it))
