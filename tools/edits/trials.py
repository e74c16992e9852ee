"""Tries the edits of a crate: several at once, and one by itself if that doesn't tell."""

from __future__ import annotations

import pathlib
import tempfile
from collections.abc import Callable
from typing import Protocol

from .checker import Checker, Said
from .edit import Edit, Texts, together
from .places import Place, places_of
from .verdict import Kind, Verdict, failed_to_read, is_unknown_name, verdict_of, verdict_of_module

Tell = Callable[[Edit, Verdict], None]
"""What is called with what became of an edit."""


class Checks(Protocol):
    """What checks functions with other text in them: a Checker, or a recording in tests."""

    def check(self, folder: pathlib.Path, texts: Texts, asked: list[str]) -> Said:
        ...


def try_edits(
    checker: Checker, edits: list[Edit], tell: Tell, *, in_gate: bool, one_by_one: bool
) -> None:
    """Tries edits of the checker's crate in a copy of it."""
    ready: list[Edit] = []
    for edit in edits:
        why = edit.put_into({}, checker.crates.folder(edit.crate))
        if why:
            tell(edit, Verdict(Kind.BAD, why))
        else:
            ready.append(edit)
    unread = checker.is_ready(in_gate) if ready else ""
    if unread:
        for edit in ready:
            why = f"the crate can't be read without it: {unread}"
            tell(edit, Verdict(Kind.UNTRIED, why))
        return
    if not ready:
        return
    with tempfile.TemporaryDirectory(prefix="edits-") as room:
        folder = checker.copy_to(pathlib.Path(room))
        if not one_by_one:
            groups = groups_of(ready, folder)
            ready = [it for group in groups for it in try_group(checker, group, folder, tell)]
        for edit in ready:
            tell(edit, try_alone(checker, edit, folder))


def groups_of(edits: list[Edit], folder: pathlib.Path) -> list[list[Edit]]:
    """Returns the edits in groups whose proofs are distinct, and whose texts apply together.

    A change outside of all functions is a group by itself.
    """
    found: list[tuple[list[Edit], set[tuple[str, str]]]] = []
    for edit in edits:
        units = {(it.file, it.unit(folder)) for it in places_of(edit, folder)}
        for group, taken in found:
            has_functions = all(name for _, name in [*units, *taken])
            is_apart = not units & taken
            if has_functions and is_apart and together([*group, edit], folder) is not None:
                group.append(edit)
                taken |= units
                break
        else:
            found.append(([edit], units))
    return [group for group, _ in found]


def try_group(checks: Checks, edits: list[Edit], folder: pathlib.Path, tell: Tell) -> list[Edit]:
    """Tries edits at once, and returns those whose outcome isn't plain."""
    texts = together(edits, folder)
    if len(edits) == 1 or texts is None:
        return edits
    places = {it: places_of(it, folder) for it in edits}
    said = checks.check(folder, texts, [place.path for it in edits for place in places[it]])
    if said.status == 2 or failed_to_read(said.lines):
        half = len(edits) // 2
        parts = (edits[:half], edits[half:])
        return [it for part in parts for it in try_group(checks, part, folder, tell)]
    left: list[Edit] = []
    for edit in edits:
        verdict = verdict_of(edit.crate, texts, places[edit], said)
        if verdict and verdict.kind in (Kind.AT_CLAUSE, Kind.AT_ANSWER):
            tell(edit, verdict)
        else:
            left.append(edit)
    return left


def try_alone(checks: Checks, edit: Edit, folder: pathlib.Path) -> Verdict:
    """Tries an edit by itself.

    Its functions are checked, then, where the prover has none of that name, their modules. If it
    changes no function (a constant, say, of which a law speaks elsewhere), the whole crate is.
    """
    places = places_of(edit, folder)
    texts: Texts = {}
    edit.put_into(texts, folder)
    lines: list[str] = []
    for asked in names_of(places):
        said = checks.check(folder, texts, asked)
        lines = said.lines
        if is_unknown_name(said):
            continue
        verdict = verdict_of(edit.crate, texts, places, said) or verdict_of_module(said)
        if verdict:
            return verdict
    return Verdict(Kind.UNTRIED, " / ".join(it for it in lines[-4:] if it)[:300])


def names_of(places: list[Place]) -> tuple[list[str], list[str]]:
    """Returns what is asked for: the functions of an edit, or "" for all, and their modules."""
    functions = [it.path for it in places] if all(it.name for it in places) else [""]
    return functions, [it.module for it in places]
