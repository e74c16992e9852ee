"""Judges what the prover prints of a wrong body."""

from __future__ import annotations

import dataclasses
import enum
import re

from .checker import Said
from .edit import Texts
from .functions import Function, functions_in
from .places import Place


class Kind(enum.Enum):
    """What became of an edit."""

    AT_CLAUSE = "at a clause or goal"
    AT_ANSWER = "at an answer"
    AT_LIMIT = "at a limit"
    BAD = "doesn't apply"
    THROUGH = "let through"
    UNTRIED = "not tried"


@dataclasses.dataclass(frozen=True)
class Verdict:
    kind: Kind
    why: str


UNTRIED = Verdict(Kind.UNTRIED, "")

NAMING = re.compile(r"has no field|is not in scope|has no `|was not admitted|is no name|no goal")
"""What is printed if an answer names a goal, a step or a field that isn't there any more."""

LIMIT = re.compile(r"antt ran out of|outgrew the memory limit|stopped at the step limit")
OPEN_GOAL = re.compile(r"note: (\S+?):(\d+):(\d+): (it is not proved|.*not proved that)")
FUNCTION = re.compile(r"fn (\S+): (proved|not proved|no proof|could not tell)(.*)")


@dataclasses.dataclass
class Findings:
    """What is printed of the functions that an edit changes."""

    goals: list[str] = dataclasses.field(default_factory=list)
    """The lines of goals of the code that are open."""
    answers: list[str] = dataclasses.field(default_factory=list)
    """The lines of answers, invariants and lemmas that are rejected."""
    ends: list[str] = dataclasses.field(default_factory=list)
    """How the proof of each function ended."""


def verdict_of(crate: str, texts: Texts, places: list[Place], said: Said) -> Verdict | None:
    """Returns what a check says of an edit at these places, or None if it doesn't tell."""
    found = Findings()
    for place in places:
        gather(found, crate, place, texts[place.file], said.lines)
    named = ", ".join(
        dict.fromkeys(it for goal in found.goals for it in re.findall(r"\(`([^`]+)`\)", goal))
    )
    if found.goals and not any(NAMING.search(it) for it in found.answers):
        gave_up = all("gave up" in it for it in found.goals)
        where = f"{found.goals[0].split()[1]} {named}"
        return Verdict(Kind.AT_CLAUSE, where + (" (search gave up at a limit)" if gave_up else ""))
    if found.answers:
        first = next((it for it in found.answers if NAMING.search(it)), found.answers[0])
        beside = f" (open beside it: {named})" if found.goals else ""
        return Verdict(Kind.AT_ANSWER, cut(first) + beside)
    if found.ends and len(found.ends) == len(places) and set(found.ends) == {"proved"}:
        return Verdict(Kind.THROUGH, "proved with it")
    if "could not tell" in found.ends or said.status == 3:
        limit = next((it for it in said.lines if LIMIT.search(it)), "it could not tell")
        return Verdict(Kind.AT_LIMIT, cut(limit))
    return None


def gather(found: Findings, crate: str, place: Place, text: str, lines: list[str]) -> None:
    """Adds what is printed of one place of an edit."""
    functions = functions_in(text)
    if place.name:
        functions = {name: it for name, it in functions.items() if name == place.name}
    answer = answers_of(place, functions)
    own_name = re.compile(rf"{crate}::(\S+::)?{re.escape(place.path)}")
    for line in lines:
        goal = OPEN_GOAL.match(line)
        if goal and goal[1] == place.file:
            at = offset(text, int(goal[2]), int(goal[3]))
            if any(it.after <= at < it.end for it in functions.values()):
                found.goals.append(line)
        if answer.match(line) and ": error" in line:
            found.answers.append(line)
        end = FUNCTION.match(line)
        if end and own_name.fullmatch(end[1]):
            found.ends.append(end[2])


def answers_of(place: Place, functions: dict[str, Function]) -> re.Pattern[str]:
    """Returns a pattern of the folders of proofs/ that have answers of these functions.

    A cycle of calls has one folder.
    """
    cycles = [it.cycle for it in functions.values()] or [""]
    paths = {re.sub(r"\w+$", f"+{it}", place.path) if it else place.path for it in cycles}
    folders = "|".join(re.escape(it.replace("::", "/")) for it in sorted(paths))
    return re.compile(rf"(\./)?proofs/(\S+/)?({folders})/")


def failed_to_read(lines: list[str]) -> str:
    """Returns the first line that says that the sources can't be read or compiled, or ""."""
    error = re.compile(r".*\berror\[[\w-]+\]|(\./)?(src|specs)/\S+: error", re.S)
    return next((it for it in lines if error.match(it)), "")


def is_unknown_name(said: Said) -> bool:
    """Returns whether the prover has no function of a name that it was asked for."""
    return said.status == 2 and any("--only" in it or "names no" in it for it in said.lines)


def verdict_of_module(said: Said) -> Verdict | None:
    """Returns what else a check of a single edit says, or None if it doesn't tell."""
    bad = failed_to_read(said.lines)
    if bad:
        return Verdict(Kind.BAD, cut(bad))
    for line in said.lines:
        # (a derived or generated proof of the module, say)
        if re.match(r"(note: )?\S+:\d+:\d+:", line) and ("error" in line or "not proved" in line):
            is_goal = line.startswith("note: src/")
            return Verdict(Kind.AT_CLAUSE if is_goal else Kind.AT_ANSWER, cut(line))
    return Verdict(Kind.THROUGH, "proved with it") if said.status == 0 else None


def offset(text: str, line: int, column: int) -> int:
    return sum(len(it) + 1 for it in text.split("\n")[: line - 1]) + column - 1


def cut(line: str) -> str:
    return re.sub(r"\s+", " ", line)[:200]
