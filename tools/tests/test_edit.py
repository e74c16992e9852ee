"""Tests of edits/edit.py: reading edits, and putting them into text."""

from __future__ import annotations

from edits.edit import Edit, Pair, Texts, Unreadable, edits_of, together

from .made import GATE, Repository


class ReadTest(Repository):
    def test_reads_files_and_pages(self) -> None:
        found = edits_of("top", self.folder / "must-fail")
        names = ["makes_none", "bound_is_less", "step_ends", "most_is_six", "not_there"]
        files = ["makes_none.edit", "GATE.md", "GATE.md", "TRIED.md", "TRIED.md"]
        self.assertEqual([it.name for it in found], names)
        self.assertEqual([it.file for it in found], files)
        self.assertEqual(str(found[1]), "top/bound_is_less")

    def test_a_crate_may_have_none(self) -> None:
        self.assertEqual(edits_of("low", self.crates.folder("low") / "must-fail"), [])

    def test_two_of_one_name_are_an_error(self) -> None:
        self.write("crates/top/must-fail/step_ends.edit", "")
        with self.assertRaisesRegex(
            Unreadable, "crates/top/must-fail has two edits named step_ends"
        ):
            edits_of("top", self.folder / "must-fail")

    def test_pairs_keep_spaces_at_the_front(self) -> None:
        edit = Edit("top", "it", "file: src/held.rt\nold:     x\nnew:  y", "it.edit")
        self.assertEqual(edit.pairs(), [Pair("src/held.rt", "    x", " y")])

    def test_new_may_be_empty_and_files_may_change(self) -> None:
        text = "file: a\nold: x\nnew:\nold: y\nnew: z\nfile: b\nold: v\nnew: w\nnew: no old"
        pairs = [Pair("a", "x", ""), Pair("a", "y", "z"), Pair("b", "v", "w")]
        self.assertEqual(Edit("top", "it", text, "it.edit").pairs(), pairs)


class PutTest(Repository):
    def setUp(self) -> None:
        super().setUp()
        self.edits = {it.name: it for it in edits_of("top", self.folder / "must-fail")}

    def test_puts_new_text_in_place_of_old(self) -> None:
        texts: Texts = {}
        self.assertEqual(self.edits["bound_is_less"].put_into(texts, self.folder), "")
        self.assertIn("{ MOST - 1 } else", texts["src/held.rt"])

    def test_says_why_it_does_not_apply(self) -> None:
        texts: Texts = {}
        why = self.edits["not_there"].put_into(texts, self.folder)
        self.assertEqual(why, "an `old:` text stands in src/held.rt 0 times")
        why = Edit("top", "it", "file: src/no.rt\nold: x\nnew: y", "").put_into(texts, self.folder)
        self.assertEqual(why, "there is no file src/no.rt")
        why = Edit("top", "it", "", "").put_into(texts, self.folder)
        self.assertEqual(why, "it has no pair of `old:` and `new:`")
        self.assertEqual(texts, {})

    def test_text_that_comes_twice_does_not_apply(self) -> None:
        edit = Edit("top", "it", "file: src/held.rt\nold:     #[cycle(walk)]\nnew: ", "")
        self.assertIn("2 times", edit.put_into({}, self.folder))

    def test_several_apply_together(self) -> None:
        both = [self.edits["bound_is_less"], self.edits["makes_none"]]
        texts = together(both, self.folder)
        assert texts is not None
        self.assertIn("MOST - 1", texts["src/held.rt"])
        self.assertIn("Vec::new()", texts["src/held.rt"])
        self.assertIsNone(together([both[0], both[0]], self.folder))

    def test_pages_may_have_prose(self) -> None:
        self.assertIn("The bound is 6.", GATE)
        self.assertNotIn("The bound", self.edits["bound_is_less"].text)
