"""Tests of tools/rows.py: rows are read as they are written, and the bench has them."""
from __future__ import annotations

import os
import subprocess
import unittest

import rows
from rows import Fault, Row, escaped, expanded, read, row_written, unescaped, written

TOP = os.path.realpath(os.path.join(os.path.dirname(os.path.abspath(__file__)), "../.."))


def rows_of(text: str) -> list[Row]:
    return list(read("file", text.split("\n")))


class Reading(unittest.TestCase):
    def test_rows_have_texts_words_and_answers(self) -> None:
        (row,) = rows_of("a + b with a=1 with b=2 => 3")
        self.assertEqual((row.text, row.words, row.answer), ("a + b", ("a=1", "b=2"), "3"))

    def test_sections_have_kinds(self) -> None:
        text = "# a comment\n## Sums\n1 + 1 => 2\n## %tokens Signs\n+ => +\n## Rest\n1 - 1 => 0"
        self.assertEqual([row.kind for row in rows_of(text)], ["", "tokens", ""])

    def test_words_before_rows_hold_up_to_an_empty_line(self) -> None:
        found = rows_of("with a=1\na => 1\na + b with b=2 => 3\n\na => error: evaluation")
        self.assertEqual([row.words for row in found], [("a=1",), ("a=1", "b=2"), ()])

    def test_texts_and_answers_may_have_several_lines(self) -> None:
        (first, second) = rows_of("let x\n= 2;\nx =>\n    one\n      two\n3 => 3")
        self.assertEqual((first.text, first.answer), ("let x\n= 2;\nx", "one\n  two"))
        self.assertEqual(first.line, 1)
        self.assertEqual((second.text, second.line), ("3", 6))

    def test_the_last_arrow_counts(self) -> None:
        (row,) = rows_of('"a => b" => "c"')
        self.assertEqual(row.text, '"a => b"')

    def test_faults_have_places(self) -> None:
        with self.assertRaisesRegex(Fault, "file:2: no answer"):
            rows_of("1 => 1\n2\n\n3 => 3")
        with self.assertRaisesRegex(Fault, "file:1: no kind: nope"):
            rows_of("## %nope")


class Writing(unittest.TestCase):
    def test_what_is_written_is_read(self) -> None:
        odd = ["", " ", "#", "# a", " a", "a ", "with x", "a with b", " with ", "<<", "<<9*a>>"]
        odd += ["a => b", " => ", "=>", "a =>", "error: x"]
        odd += ["a\tb\r\n", "\0\x7f", "\ufeff1", "a\\nb"]
        for text in odd:
            (row,) = rows_of(row_written(text, [text], text))
            parts = [expanded(part) for part in (row.text, *row.words, row.answer)]
            self.assertEqual(parts, [text] * 3)

    def test_pieces_are_expanded(self) -> None:
        self.assertEqual(expanded("<<3*ab>>c"), "abababc")
        self.assertEqual(expanded("<<2+k########=<<2*x>>,>>"), "k00000001=xx,k00000002=xx,")
        sign = expanded("<<xE2>><<x82>><<xAC>>")
        self.assertEqual(sign.encode("utf-8", "surrogateescape"), "€".encode())

    def test_lines_for_the_bench(self) -> None:
        for text in ["a\\b", "a\nb\tc\r", "\0"]:
            self.assertEqual(unescaped(escaped(text)), text)
        (row,) = rows_of(written("%a\tb") + " with c => error: syntax")
        self.assertEqual((row.wire(), row.wanted()), ("\\%a\\tb\tc", "!syntax"))


class Files(unittest.TestCase):
    def test_the_bench_has_the_rows(self) -> None:
        subprocess.run([f"{TOP}/bin/rows", "--check"], check=True)

    def test_every_file_has_rows(self) -> None:
        for path in rows.files(TOP):
            with open(path, encoding="utf-8") as file:
                self.assertTrue(list(read(path, file)), path)

    def test_generated_rows_are_what_their_script_makes(self) -> None:
        folder = f"{TOP}/rows/generated"
        made = subprocess.check_output([f"{folder}/reading_back.py"])
        with open(f"{folder}/reading_back.rows", "rb") as file:
            self.assertEqual(file.read(), made)


if __name__ == "__main__":
    unittest.main()
