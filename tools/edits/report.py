"""Prints what edits came to: a table, and the names to look at."""

from __future__ import annotations

import collections

from .edit import Edit
from .verdict import Kind, Verdict

HEADS = ["Crate", "Edits", *(kind.value[0].upper() + kind.value[1:] for kind in Kind)]


def line_of(edit: Edit, verdict: Verdict) -> str:
    return f"{edit}: {verdict.kind.value}: {verdict.why}"


def report_of(edits: dict[str, list[Edit]], verdicts: dict[Edit, Verdict]) -> str:
    """Returns the table of the edits, and lists of those that no clause or goal rejects."""
    return "\n".join([*table_of(edits, verdicts), *lists_of(edits, verdicts)])


def table_of(edits: dict[str, list[Edit]], verdicts: dict[Edit, Verdict]) -> list[str]:
    lines = ["", f"| {' | '.join(HEADS)} |", "|" + "---|" * len(HEADS)]
    rows = {f"`{crate}`": own for crate, own in edits.items() if own}
    if len(rows) > 1:
        rows["all of these"] = [it for own in rows.values() for it in own]
    for name, own in rows.items():
        count = collections.Counter(verdicts[it].kind for it in own)
        cells = [name, str(len(own)), *(str(count[kind] or "") for kind in Kind)]
        lines.append(f"| {' | '.join(cells)} |")
    return lines


def lists_of(edits: dict[str, list[Edit]], verdicts: dict[Edit, Verdict]) -> list[str]:
    lines: list[str] = []
    for kind in list(Kind)[1:]:
        named = [it for own in edits.values() for it in own if verdicts[it].kind == kind]
        if kind == Kind.UNTRIED and not any(verdicts[it].why for it in named):
            continue
        if named:
            title = kind.value[0].upper() + kind.value[1:]
            lines += ["", f"{title}:", "", *(f"- {it}: {verdicts[it].why}" for it in named)]
    return lines
