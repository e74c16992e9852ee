"""Tests of doubles.py: names that two crates define."""

from __future__ import annotations

import unittest
import unittest.mock

import doubles

from .made import Repository


class DoublesTest(Repository):
    def test_finds_definitions_of_specs_and_code(self) -> None:
        self.write("crates/low/specs/Low.antt", "abbrev pub text_of : A → B\ntext_of a = b\n")
        self.write("crates/top/specs/Top.antt", "pub record text_of (a : A) : Type 0 where\n")
        self.write("crates/top/src/lib.rt", "pub fn text_of(a: A) -> B {\n")
        self.write("crates/low/src/lib.rt", "impl A {\n    pub fn text_of(a: A) -> B {\n")
        files = ["crates/low/specs/Low.antt", "crates/top/specs/Top.antt"]
        self.assertEqual(
            doubles.doubles_of(self.root), {doubles.Double("spec", "text_of", ("low", "top")): files}
        )

    def test_skips_what_is_private_or_in_one_crate(self) -> None:
        self.write(
            "crates/low/specs/Low.antt", "abbrev text_of : A → B\npub data Kind : Type 0 where\n"
        )
        self.write("crates/low/specs/formers/Low.antt", "pub data Kind : Type 0 where\n")
        self.write("crates/top/specs/Top.antt", "abbrev pub text_of : A → B\n")
        self.assertEqual(doubles.doubles_of(self.root), {})


class ExceptionsTest(unittest.TestCase):
    def test_reads_lines(self) -> None:
        found = doubles.exceptions_in(
            "# a comment\n\nspec a b: low top | one reason\ncode c: low top | another\n"
        )
        crates = ("low", "top")
        spec = [doubles.Double("spec", "a", crates), doubles.Double("spec", "b", crates)]
        self.assertEqual(
            found,
            {**dict.fromkeys(spec, "one reason"), doubles.Double("code", "c", crates): "another"},
        )

    def test_refuses_lines_without_a_reason_and_lines_that_come_twice(self) -> None:
        for text in (
            "spec a: low top",
            "spec a: low top | ",
            "spec a: low | why",
            "word a: low top | why",
        ):
            with self.assertRaises(doubles.Unreadable, msg=text):
                doubles.exceptions_in(text)
        with self.assertRaisesRegex(doubles.Unreadable, "line 2 has spec a: low top once more"):
            doubles.exceptions_in("spec a: low top | why\nspec a: low top | why")

    def test_finds_new_doubles_and_lines_that_are_needed_no_more(self) -> None:
        old, new = doubles.Double("spec", "old", ("low", "top")), doubles.Double(
            "spec", "new", ("low", "top")
        )
        with unittest.mock.patch("doubles.MOST", 1):
            self.assertEqual(doubles.findings_of({old: []}, {old: "why"}), [])
            findings = doubles.findings_of({new: ["a", "b"]}, {old: "why"})
        self.assertEqual(len(findings), 2)
        self.assertIn("two crates define it: a, b", findings[0])
        self.assertIn("take it off the list", findings[1])

    def test_the_list_does_not_grow(self) -> None:
        new = doubles.Double("spec", "new", ("low", "top"))
        with unittest.mock.patch("doubles.MOST", 0):
            self.assertEqual(len(doubles.findings_of({new: []}, {new: "why"})), 1)
