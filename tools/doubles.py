"""Finds names that two crates define, and compares them with a list. bin/names runs it."""

from __future__ import annotations

import collections
import dataclasses
import pathlib
import re

from crates import TOP

LIST = TOP / "tools/doubles.txt"

MOST = 80
"""The most names that the list may have. Whoever takes one off lowers this number."""

PATTERNS = {
    "spec": (
        "specs/**/*.antt",
        re.compile(r"(?m)^\s*(?:(?:abbrev|unfoldable)\s+pub|pub\s+(?:record|data))\s+([^\s:({]+)"),
    ),
    "code": (
        "src/**/*.rt",
        re.compile(r"(?m)^pub (?:const )?(?:unsafe )?(?:fn|struct|enum|trait|type) (\w+)"),
    ),
}
"""The files of each kind of name, and its definitions: in specs, and in code outside of impls."""


@dataclasses.dataclass(frozen=True, order=True)
class Double:
    """A name that several crates define."""

    kind: str
    name: str
    crates: tuple[str, ...]

    def __str__(self) -> str:
        return f"{self.kind} {self.name}: {' '.join(self.crates)}"


class Unreadable(Exception):
    """A line of the list that can't be read."""


def doubles_of(top: pathlib.Path) -> dict[Double, list[str]]:
    """Returns the names that two crates or more define, each with the files that do."""
    found: dict[Double, list[str]] = {}
    for kind, (files, pattern) in PATTERNS.items():
        where: dict[str, dict[str, list[str]]] = collections.defaultdict(dict)
        for path in sorted((top / "crates").glob(f"*/{files}")):
            file = path.relative_to(top)
            for name in pattern.findall(path.read_text(encoding="utf-8")):
                where[name].setdefault(file.parts[1], []).append(str(file))
        for name, crates in where.items():
            if len(crates) > 1:
                double = Double(kind, name, tuple(crates))
                found[double] = [it for own in crates.values() for it in own]
    return found


def exceptions_in(text: str) -> dict[Double, str]:
    """Returns the exceptions of a list, each with its reason.

    A line is `KIND NAME..: CRATE.. | REASON`. Empty lines and comments (#) are skipped.
    Raises Unreadable if a line is none of these.
    """
    found: dict[Double, str] = {}
    for number, line in enumerate(text.splitlines(), 1):
        if not line.strip() or line.startswith("#"):
            continue
        parts = re.fullmatch(r"(spec|code) ([^:|]+): (\w+(?: \w+)+) \| (\S.*)", line)
        if not parts:
            raise Unreadable(f"line {number} is not `KIND NAME..: CRATE.. | REASON`")
        for name in parts[2].split():
            double = Double(parts[1], name, tuple(sorted(parts[3].split())))
            if double in found:
                raise Unreadable(f"line {number} has {double} once more")
            found[double] = parts[4]
    return found


def findings_of(doubles: dict[Double, list[str]], exceptions: dict[Double, str]) -> list[str]:
    """Returns what is wrong: doubles without an exception, and exceptions without a double."""
    found = []
    for double in sorted(doubles.keys() - exceptions.keys()):
        found.append(f"{double}: two crates define it: {', '.join(doubles[double])}")
    for double in sorted(exceptions.keys() - doubles.keys()):
        found.append(f"{double}: these crates don't both define it: take it off the list")
    if len(exceptions) != MOST:
        found.append(
            f"the list has {len(exceptions)} names where MOST of tools/doubles.py is {MOST}"
        )
    return found


def check(lists_all: bool) -> int:
    """Prints the findings, and all doubles if that is asked for, and returns the status."""
    doubles = doubles_of(TOP)
    try:
        exceptions = exceptions_in(LIST.read_text(encoding="utf-8"))
    except Unreadable as fault:
        print(f"names: tools/doubles.txt: {fault}")
        return 1
    if lists_all:
        for double, files in sorted(doubles.items()):
            print(f"{double} | {exceptions.get(double, '')}")
            print("\n".join(f"    {file}" for file in files))
    findings = findings_of(doubles, exceptions)
    for finding in findings:
        print(f"names: {finding}")
    print(f"names: {len(doubles)} names in two crates or more, {len(findings)} findings")
    return 1 if findings else 0
