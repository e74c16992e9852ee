"""Tests of edits/report.py, edits/notes.py and edits/command.py."""

from __future__ import annotations

import unittest.mock

from edits.command import status_of, wanted
from edits.edit import edits_of
from edits.notes import Notes
from edits.report import line_of, report_of
from edits.verdict import UNTRIED, Kind, Verdict

from .made import Repository

REPORT = """
| Crate | Edits | At a clause or goal | At an answer | At a limit | Doesn't apply | Let through | Not tried |
|---|---|---|---|---|---|---|---|
| `top` | 5 | 2 |  |  | 1 | 1 | 1 |

Doesn't apply:

- top/not_there: an `old:` text stands in src/held.rt 0 times

Let through:

- top/most_is_six: proved with it"""


class ReportTest(Repository):
    def setUp(self) -> None:
        super().setUp()
        self.edits = edits_of("top", self.folder / "must-fail")
        why = "an `old:` text stands in src/held.rt 0 times"
        self.verdicts = dict.fromkeys(
            self.edits, Verdict(Kind.AT_CLAUSE, "src/held.rt:12:5: answer")
        )
        self.verdicts[self.edits[0]] = UNTRIED
        self.verdicts[self.edits[3]] = Verdict(Kind.THROUGH, "proved with it")
        self.verdicts[self.edits[4]] = Verdict(Kind.BAD, why)

    def test_a_line_for_each(self) -> None:
        line = line_of(self.edits[1], self.verdicts[self.edits[1]])
        self.assertEqual(line, "top/bound_is_less: at a clause or goal: src/held.rt:12:5: answer")

    def test_a_table_and_lists(self) -> None:
        self.assertEqual(report_of({"low": [], "top": self.edits}, self.verdicts), REPORT)

    def test_edits_that_were_not_tried_are_listed_with_a_reason(self) -> None:
        self.verdicts[self.edits[0]] = Verdict(Kind.UNTRIED, "killed")
        text = report_of({"top": self.edits}, self.verdicts)
        self.assertTrue(text.endswith("Not tried:\n\n- top/makes_none: killed"))

    def test_several_crates_have_a_sum(self) -> None:
        text = report_of({"top": self.edits[:1], "low": self.edits[1:]}, self.verdicts)
        self.assertIn("| all of these | 5 | 2 |  |  | 1 | 1 | 1 |", text)


class NotesTest(Repository):
    def setUp(self) -> None:
        super().setUp()
        self.edits = edits_of("top", self.folder / "must-fail")
        version = unittest.mock.patch("edits.notes.subprocess.run")
        version.start().return_value.stdout = b"a kit"
        self.addCleanup(version.stop)

    def test_keeps_what_an_edit_came_to(self) -> None:
        verdict = Verdict(Kind.AT_ANSWER, "with a\ttab")
        Notes(self.crates).add(self.edits[1], verdict)
        again = Notes(self.crates)
        self.assertEqual(again.of(self.edits[1]), Verdict(Kind.AT_ANSWER, "with a tab"))
        self.assertEqual(again.of(self.edits[2]), UNTRIED)

    def test_forgets_it_if_a_source_below_changes(self) -> None:
        Notes(self.crates).add(self.edits[1], Verdict(Kind.THROUGH, ""))
        self.write("crates/low/specs/Low.antt", "pub mod Other")
        self.assertEqual(Notes(self.crates).of(self.edits[1]), UNTRIED)


class CommandTest(Repository):
    def test_names_crates_and_edits(self) -> None:
        found = wanted(self.crates, ["top/step_ends"], in_gate=False)
        self.assertEqual([str(it) for it in found["top"]], ["top/step_ends"])
        self.assertEqual(list(wanted(self.crates, [], in_gate=False)), ["low", "middle", "top"])

    def test_the_gate_tries_its_page_alone(self) -> None:
        found = wanted(self.crates, [], in_gate=True)["top"]
        self.assertEqual([it.name for it in found], ["bound_is_less", "step_ends"])

    def test_the_status_depends_on_the_flags(self) -> None:
        edit = edits_of("top", self.folder / "must-fail")[0]
        table = {
            Kind.AT_CLAUSE: (0, 0, 0),
            Kind.AT_ANSWER: (0, 1, 0),
            Kind.AT_LIMIT: (0, 1, 0),
            Kind.BAD: (1, 1, 1),
            Kind.THROUGH: (1, 1, 1),
            Kind.UNTRIED: (1, 1, 0),
        }
        for kind, expected in table.items():
            verdicts = {edit: Verdict(kind, "")}
            flags = [set[str](), {"--gate"}, {"--told"}]
            self.assertEqual(tuple(status_of(verdicts, it) for it in flags), expected, kind)
