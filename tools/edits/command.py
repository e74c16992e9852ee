"""Reads the command line of bin/edits, and tries what it names."""

from __future__ import annotations

import concurrent.futures
import subprocess
import sys

from crates import Crates
from lanes import seconds_of

from .checker import Checker
from .edit import Edit, Unreadable, edits_of
from .notes import Notes
from .report import line_of, report_of
from .trials import try_edits
from .verdict import Kind, Verdict

FLAGS = {"--all", "--gate", "--told", "--alone"}


def main(help_text: str, words: list[str]) -> int:
    """Does what bin/edits is asked for, and returns its status."""
    if "--help" in words:
        print(help_text.strip())
        return 0
    crates = Crates()
    flags = {it for it in words if it.startswith("--")}
    names = [it for it in words if not it.startswith("--")]
    wrong = [it for it in words if it.startswith("--") and it not in FLAGS]
    wrong += [it for it in names if it.split("/")[0] not in crates]
    if wrong:
        sys.exit(f"edits: no such crate or flag: {' '.join(wrong)}")
    if not names and not flags & {"--all", "--gate", "--told"}:
        sys.exit(help_text)
    try:
        edits = wanted(crates, names, in_gate="--gate" in flags)
    except Unreadable as fault:
        sys.exit(f"edits: {fault}")
    verdicts = try_all(crates, edits, flags)
    print(report_of(edits, verdicts))
    return status_of(verdicts, flags)


def wanted(crates: Crates, names: list[str], *, in_gate: bool) -> dict[str, list[Edit]]:
    """Returns the edits that are asked for, of each crate, the lowest first."""
    named = {it.split("/")[0] for it in names}
    edits: dict[str, list[Edit]] = {}
    for crate in crates.from_lowest():
        if named and crate not in named:
            continue
        edits[crate] = [
            it
            for it in edits_of(crate, crates.folder(crate) / "must-fail")
            if (not names or crate in names or str(it) in names)
            and (not in_gate or it.file == "GATE.md")
        ]
    return edits


def try_all(crates: Crates, edits: dict[str, list[Edit]], flags: set[str]) -> dict[Edit, Verdict]:
    """Tries what no note tells of, and returns what each edit came to.

    In the gate there is a crate for each lane of bin/lanes, those first whose edits take longest.
    """
    notes = Notes(crates)
    verdicts: dict[Edit, Verdict] = {}

    def tell(edit: Edit, verdict: Verdict) -> None:
        verdicts[edit] = verdict
        print(line_of(edit, verdict), flush=True)
        if verdict.kind != Kind.UNTRIED:
            notes.add(edit, verdict)

    def settle(crate: str) -> None:
        verdicts.update({it: notes.of(it) for it in edits[crate]})
        fresh = [it for it in edits[crate] if verdicts[it].kind == Kind.UNTRIED]
        if "--told" not in flags and fresh:
            checker = Checker(crate, crates)
            try_edits(
                checker, fresh, tell, in_gate="--gate" in flags, one_by_one="--alone" in flags
            )

    lanes, order = 1, list(edits)
    if "--gate" in flags:
        seconds = seconds_of(crates.top / "docs/GATE.md", of_edits=True)
        lanes, order = lanes_of(crates), sorted(edits, key=lambda it: -seconds.get(it, 0))
    with concurrent.futures.ThreadPoolExecutor(lanes) as pool:
        list(pool.map(settle, order))
    return verdicts


def lanes_of(crates: Crates) -> int:
    words = [crates.top / "bin/lanes"]
    return int(subprocess.run(words, stdout=subprocess.PIPE, text=True, check=True).stdout)


def status_of(verdicts: dict[Edit, Verdict], flags: set[str]) -> int:
    """Returns 1 if an edit was let through, doesn't apply or wasn't tried.

    In the gate it is 1 too if one was not rejected at a clause or goal.
    """
    bad = {Kind.BAD, Kind.THROUGH}
    if "--gate" in flags:
        bad |= {Kind.AT_ANSWER, Kind.AT_LIMIT}
    if "--told" not in flags:
        bad.add(Kind.UNTRIED)
    return 1 if any(it.kind in bad for it in verdicts.values()) else 0
