"""Tests of edits/trials.py: which edits are tried together, and what is asked of the prover."""

from __future__ import annotations

import pathlib

from edits.checker import Said
from edits.edit import Edit, Texts, edits_of
from edits.trials import groups_of, try_alone, try_group
from edits.verdict import Kind, Verdict

from .made import Repository

GOAL = "note: src/held.rt:12:5: it is not proved that the result is as promised (`answer`)"


class Recording:
    """Gives what was recorded in place of a prover, and keeps what it was asked for."""

    def __init__(self, *said: Said) -> None:
        self.said, self.asked = list(said), list[list[str]]()

    def check(self, folder: pathlib.Path, texts: Texts, asked: list[str]) -> Said:
        self.asked.append(asked)
        return self.said.pop(0)


class TrialsTest(Repository):
    def setUp(self) -> None:
        super().setUp()
        found = edits_of("top", self.folder / "must-fail")
        self.edits = {it.name: it for it in found if it.name != "not_there"}
        self.told: dict[str, Verdict] = {}

    def tell(self, edit: Edit, verdict: Verdict) -> None:
        self.told[edit.name] = verdict

    def names(self, groups: list[list[Edit]]) -> list[list[str]]:
        return [[it.name for it in group] for group in groups]

    def test_edits_of_several_functions_are_tried_together(self) -> None:
        groups = groups_of(list(self.edits.values()), self.folder)
        together = ["makes_none", "bound_is_less", "step_ends"]
        self.assertEqual(self.names(groups), [together, ["most_is_six"]])

    def test_edits_of_one_function_or_cycle_are_not(self) -> None:
        text = "file: src/held.rt\nold:         self.step()\nnew:         1"
        walk = Edit("top", "walk_ends", text, "GATE.md")
        groups = groups_of([self.edits["step_ends"], walk], self.folder)
        self.assertEqual(self.names(groups), [["step_ends"], ["walk_ends"]])

    def test_a_group_is_tried_by_its_functions(self) -> None:
        group = [self.edits["bound_is_less"], self.edits["step_ends"]]
        recording = Recording(Said(1, [GOAL, "fn top::Held::step: proved"]))
        left = try_group(recording, group, self.folder, self.tell)
        self.assertEqual(recording.asked, [["held::bounded", "Held::step"]])
        self.assertEqual(self.told["bound_is_less"].kind, Kind.AT_CLAUSE)
        self.assertEqual(left, [self.edits["step_ends"]])

    def test_a_group_that_cannot_be_read_is_halved(self) -> None:
        group = [self.edits[it] for it in ("makes_none", "bound_is_less", "step_ends")]
        recording = Recording(Said(2, ["error"]), Said(1, [GOAL]))
        left = try_group(recording, group, self.folder, self.tell)
        self.assertEqual(recording.asked[1], ["held::bounded", "Held::step"])
        self.assertEqual([it.name for it in left], ["makes_none", "step_ends"])

    def test_one_edit_of_a_group_is_left(self) -> None:
        group = [self.edits["step_ends"]]
        self.assertEqual(try_group(Recording(), group, self.folder, self.tell), group)

    def test_an_edit_is_tried_by_its_function(self) -> None:
        recording = Recording(Said(1, [GOAL]))
        verdict = try_alone(recording, self.edits["bound_is_less"], self.folder)
        self.assertEqual(verdict, Verdict(Kind.AT_CLAUSE, "src/held.rt:12:5: answer"))
        self.assertEqual(recording.asked, [["held::bounded"]])

    def test_and_by_its_module_if_the_prover_has_no_such_function(self) -> None:
        recording = Recording(Said(2, ["--only held::bounded names no function"]), Said(1, [GOAL]))
        verdict = try_alone(recording, self.edits["bound_is_less"], self.folder)
        self.assertEqual(verdict.kind, Kind.AT_CLAUSE)
        self.assertEqual(recording.asked, [["held::bounded"], ["held"]])

    def test_a_change_outside_has_the_whole_crate_checked(self) -> None:
        recording = Recording(Said(0, ["fn top::held::bounded: proved"]))
        verdict = try_alone(recording, self.edits["most_is_six"], self.folder)
        self.assertEqual(verdict, Verdict(Kind.THROUGH, "proved with it"))
        self.assertEqual(recording.asked, [[""]])

    def test_what_tells_nothing_was_not_tried(self) -> None:
        recording = Recording(Said(1, ["killed"]), Said(1, ["a", "b", "", "killed"]))
        verdict = try_alone(recording, self.edits["bound_is_less"], self.folder)
        self.assertEqual(verdict, Verdict(Kind.UNTRIED, "a / b / killed"))
