"""The crates of crates.txt and of the kit, and the files of each."""

from __future__ import annotations

import functools
import hashlib
import pathlib
import re

from .made import TOP, run

ROOTS = {"libexprlang": "expr_c", "exprlang": "expr_program", "expr_lines": "expr_lines", "expr_check": "expr_check"}
"""The crate of which each product is made."""


@functools.cache
def uses() -> dict[str, list[str]]:
    """The crates that each line of crates.txt names behind its own."""
    lines = re.sub(r"#.*", "", (TOP / "crates.txt").read_text(encoding="utf-8"))
    return {words[0]: words[1].split() for words in re.findall(r"(?m)^(\w+)[^:\n]*:(.*)$", lines)}


@functools.cache
def below(name: str) -> tuple[str, ...]:
    """A crate of the repository and those that it is made of, the lowest first."""
    order = dict.fromkeys(it for use in uses()[name] if use in uses() for it in below(use))
    return (*order, name)


@functools.cache
def kit() -> pathlib.Path:
    return pathlib.Path(run("rt", "doc").strip()).parent


def of_kit(names: list[str]) -> list[str]:
    """The kit's crates that are in these crates, sorted."""
    found = ["std", *(use for name in names for it in below(name) for use in uses()[it] if use not in uses())]
    for name in found:
        text = (kit() / f"rlibs/{name}.rlib/format").read_text(encoding="utf-8")
        found += [it for it in re.findall(r"(?m)^dep (\w+)$", text) if it not in found]
    return sorted(set(found))


def files_of(name: str) -> list[pathlib.Path]:
    folders = (TOP / "crates" / name / part for part in ("src", "specs", "proofs"))
    return sorted(path for folder in folders for path in folder.rglob("*") if path.is_file())


@functools.cache
def sum_of_file(path: pathlib.Path) -> str:
    return hashlib.sha256(path.read_bytes()).hexdigest()


@functools.cache
def sum_of(name: str) -> str:
    """A checksum of all that a crate's proof reads: the kit, its own files, and those of the crates below."""
    whole = hashlib.sha256((kit() / "KIT-ID").read_bytes() + (kit() / "WHAT").read_bytes())
    for it in below(name):
        whole.update(repr((it, uses()[it])).encode())
        for path in files_of(it):
            whole.update(f"{path.relative_to(TOP)} {sum_of_file(path)}\n".encode())
    return whole.hexdigest()[:32]
