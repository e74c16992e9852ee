"""Tests of edits over recorded/CASE/[0-9].txt, what a prover printed of a small crate."""

from __future__ import annotations

import pathlib

from edits.checker import Said
from edits.edit import Edit, Texts, edits_of
from edits.trials import groups_of, try_alone, try_group
from edits.verdict import Kind, Verdict

from .made import Repository

RECORDED = pathlib.Path(__file__).parent / "recorded"


class Prover:
    """Prints what the prover printed when it was asked for the same, in the same order."""

    def __init__(self, case: str) -> None:
        self.files = sorted((RECORDED / case).glob("[0-9].txt"))

    def check(self, folder: pathlib.Path, texts: Texts, asked: list[str]) -> Said:
        lines = self.files.pop(0).read_text(encoding="utf-8").split("\n")
        if lines[0].split()[1:] != list(filter(None, asked)):
            raise AssertionError(f"asked for {asked} where the recording has {lines[0]}")
        return Said(int(lines[1].split()[1]), lines[2:])


class RecordedTest(Repository):
    def verdicts(self, case: str) -> dict[str, Verdict]:
        """Returns what the edits of a case come to. All its recordings must be used."""
        for name, file in {"src/lib.rt": "lib.rt.txt", "must-fail/GATE.md": "GATE.md"}.items():
            text = (RECORDED / case / file).read_text(encoding="utf-8")
            self.write(f"crates/tiny/{name}", text)
        folder, told = self.root / "crates/tiny", dict[str, Verdict]()

        def tell(edit: Edit, verdict: Verdict) -> None:
            told[edit.name] = verdict

        prover, ready = Prover(case), list[Edit]()
        for edit in edits_of("tiny", folder / "must-fail"):
            why = edit.put_into({}, folder)
            if why:
                tell(edit, Verdict(Kind.BAD, why))
            else:
                ready.append(edit)
        groups = groups_of(ready, folder)
        for edit in [it for group in groups for it in try_group(prover, group, folder, tell)]:
            tell(edit, try_alone(prover, edit, folder))
        self.assertEqual(prover.files, [])
        return told

    def test_each_edit_comes_to_what_it_came_to(self) -> None:
        unknown = "error[unknown-name]: cannot find value `MOST` in this scope"
        goal = "returns-then-x-lt-LEAST"
        expected = {
            "echo_is_zero": Verdict(Kind.BAD, "an `old:` text stands in src/lib.rt 2 times"),
            "no_such_text": Verdict(Kind.BAD, "an `old:` text stands in src/lib.rt 0 times"),
            "second_is_first": Verdict(Kind.AT_CLAUSE, "src/lib.rt:25:5: returns"),
            "keeps_all": Verdict(Kind.AT_CLAUSE, f"src/lib.rt:40:1: {goal}"),
            "first_is_second": Verdict(Kind.AT_CLAUSE, "src/lib.rt:32:5: returns"),
            "keeps_less": Verdict(Kind.THROUGH, "proved with it"),
            "does_not_compile": Verdict(Kind.BAD, f"src/lib.rt:43:10: {unknown}"),
            "another_constant": Verdict(Kind.THROUGH, "proved with it"),
        }
        self.assertEqual(self.verdicts("tiny"), expected)

    def test_an_answer_that_names_a_lost_goal(self) -> None:
        verdict = self.verdicts("answer")["echo_is_zero"]
        self.assertEqual(verdict.kind, Kind.AT_ANSWER)
        self.assertTrue(verdict.why.startswith("./proofs/echo/Answers.antt:6:15: error: `returns`"))
        beside = "(open beside it: returns-then-number-eq7, returns-else-number-eq7)"
        self.assertTrue(verdict.why.endswith(beside))
