"""Tests of edits/verdict.py: what the lines of a check say of an edit."""

from __future__ import annotations

from edits.checker import Said
from edits.edit import Edit, Texts, edits_of
from edits.places import places_of
from edits.verdict import (
    Kind,
    Verdict,
    cut,
    failed_to_read,
    is_unknown_name,
    offset,
    verdict_of,
    verdict_of_module,
)

from .made import Repository

OPEN = "note: src/held.rt:{line}:5: it is not proved that the result is as promised (`{goal}`)"


class VerdictTest(Repository):
    def setUp(self) -> None:
        super().setUp()
        self.edits = {it.name: it for it in edits_of("top", self.folder / "must-fail")}

    def verdict(self, name: str, *lines: str, status: int = 1) -> Verdict | None:
        edit: Edit = self.edits[name]
        texts: Texts = {}
        edit.put_into(texts, self.folder)
        places = places_of(edit, self.folder)
        return verdict_of("top", texts, places, Said(status, list(lines)))

    def test_an_open_goal_of_the_function_is_at_a_clause(self) -> None:
        said = self.verdict("bound_is_less", OPEN.format(line=12, goal="answer"))
        self.assertEqual(said, Verdict(Kind.AT_CLAUSE, "src/held.rt:12:5: answer"))

    def test_goals_are_named_once(self) -> None:
        line = OPEN.format(line=12, goal="answer")
        said = self.verdict("bound_is_less", line, line, OPEN.format(line=11, goal="more"))
        self.assertEqual(said, Verdict(Kind.AT_CLAUSE, "src/held.rt:12:5: answer, more"))

    def test_a_goal_of_another_function_says_nothing(self) -> None:
        self.assertIsNone(self.verdict("bound_is_less", OPEN.format(line=18, goal="answer")))
        other = OPEN.replace("held.rt", "other.rt").format(line=12, goal="answer")
        self.assertIsNone(self.verdict("bound_is_less", other))

    def test_says_where_search_gave_up(self) -> None:
        line = OPEN.format(line=12, goal="answer") + "; `search` gave up at one of its limits"
        said = self.verdict("bound_is_less", line)
        assert said is not None
        self.assertTrue(said.why.endswith("answer (search gave up at a limit)"))

    def test_an_answer_alone_is_at_an_answer(self) -> None:
        line = "./proofs/held/bounded/Answers.antt:7:3: error: it has another type"
        self.assertEqual(self.verdict("bound_is_less", line), Verdict(Kind.AT_ANSWER, line))

    def test_a_goal_beside_an_answer_is_at_a_clause(self) -> None:
        answer = "proofs/held/bounded/Answers.antt:7:3: error: it has another type"
        said = self.verdict("bound_is_less", answer, OPEN.format(line=12, goal="answer"))
        assert said is not None
        self.assertEqual(said.kind, Kind.AT_CLAUSE)

    def test_a_goal_beside_an_answer_of_lost_names_is_at_an_answer(self) -> None:
        answer = "proofs/held/bounded/Answers.antt:7:3: error: `goal.x` is not in scope"
        said = self.verdict("bound_is_less", OPEN.format(line=12, goal="answer"), answer)
        self.assertEqual(said, Verdict(Kind.AT_ANSWER, f"{answer} (open beside it: answer)"))

    def test_answers_of_a_cycle_are_in_one_folder(self) -> None:
        line = "proofs/Held/+walk/Answers.antt:2:1: error: it has another type"
        said = self.verdict("step_ends", line)
        self.assertEqual(said, Verdict(Kind.AT_ANSWER, line))
        self.assertIsNone(self.verdict("step_ends", line.replace("+walk", "step")))

    def test_a_function_that_is_proved_is_let_through(self) -> None:
        said = self.verdict("bound_is_less", "fn top::held::bounded: proved", status=0)
        self.assertEqual(said, Verdict(Kind.THROUGH, "proved with it"))
        self.assertIsNone(self.verdict("bound_is_less", "fn top::held::other: proved", status=0))

    def test_a_change_outside_of_functions_is_not_let_through_by_one(self) -> None:
        lines = ["fn top::held::bounded: proved", "fn top::Held::walk: proved"]
        self.assertIsNone(self.verdict("most_is_six", *lines, status=0))

    def test_a_limit_gives_no_verdict(self) -> None:
        could_not = "fn top::held::bounded: could not tell"
        limit = "antt ran out of steps at   proofs/held"
        said = self.verdict("bound_is_less", could_not, limit, status=3)
        self.assertEqual(said, Verdict(Kind.AT_LIMIT, "antt ran out of steps at proofs/held"))
        said = self.verdict("bound_is_less", could_not)
        self.assertEqual(said, Verdict(Kind.AT_LIMIT, "it could not tell"))


class ModuleTest(Repository):
    def test_sources_that_cannot_be_read(self) -> None:
        line = "src/held.rt:12:5: error[E0425]: there is no `MOST`"
        self.assertEqual(failed_to_read(["fn x: proved", line]), line)
        self.assertEqual(
            failed_to_read(["specs/Held.antt:1:1: error: no"]), "specs/Held.antt:1:1: error: no"
        )
        self.assertEqual(failed_to_read(["proofs/held/Answers.antt:1:1: error: no"]), "")
        self.assertEqual(verdict_of_module(Said(1, [line])), Verdict(Kind.BAD, line))

    def test_other_proofs_of_the_module(self) -> None:
        goal = "note: src/held.rt:3:1: it is not proved that the law holds (`law`)"
        self.assertEqual(verdict_of_module(Said(1, [goal])), Verdict(Kind.AT_CLAUSE, goal))
        answer = "proofs/Lib.antt:3:1: error: it has another type"
        self.assertEqual(verdict_of_module(Said(1, [answer])), Verdict(Kind.AT_ANSWER, answer))
        self.assertEqual(verdict_of_module(Said(0, [""])), Verdict(Kind.THROUGH, "proved with it"))
        self.assertIsNone(verdict_of_module(Said(1, ["killed"])))

    def test_unknown_names(self) -> None:
        self.assertTrue(is_unknown_name(Said(2, ["rattle: --only x names no function"])))
        self.assertFalse(is_unknown_name(Said(1, ["rattle: --only x names no function"])))
        self.assertFalse(is_unknown_name(Said(2, ["rattle: it can't read src/lib.rt"])))

    def test_offsets_begin_at_line_1_and_column_1(self) -> None:
        self.assertEqual(offset("ab\ncd\n", 1, 1), 0)
        self.assertEqual(offset("ab\ncd\n", 2, 2), 4)

    def test_long_lines_are_cut(self) -> None:
        self.assertEqual(cut("a \t b" + "x" * 300), "a b" + "x" * 197)
