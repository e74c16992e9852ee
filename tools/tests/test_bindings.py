"""Tests of bindings: the parts of files that are made of the engine's enums."""

from __future__ import annotations

import dataclasses
import unittest

from bindings import parts
from bindings.engine import Border, Unreadable, border_of, read, text_of, upper, within, word

BORDER = Border(
    asks=["Compile", "ContextOf", "UsesEnv"],
    kinds=["Nil", "DateTime", "Map", "KeyedMap", "Json", "Built"],
    statuses=["Done", "Syntax", "Asks", "Nesting", "Steps"],
    limits=["Nesting", "Steps"],
)

IN_C = """\
    EXPR_OK,
    EXPR_SYNTAX, /* the string is no expression */
    EXPR_ASKS,   /* a run waits */
    EXPR_LIMIT_NESTING, /* too high */
    EXPR_LIMIT_STEPS    /* too long */
"""


class EngineTest(unittest.TestCase):
    def test_reads_the_order_of_enums(self) -> None:
        files = {
            "call": "pub enum Ask {\n    Compile,\n    Names,\n}",
            "kind": "pub enum Kind {\n    Nil,\n    KeyedMap,\n}",
            "host_error": "pub enum Status {\n    Done,\n    Nesting,\n}",
            "limit": "        1 => Some(Limit::Steps),\n        0 => Some(Limit::Nesting),",
        }
        border = border_of(lambda path: files[path.rpartition("/")[2].removesuffix(".rt")])
        self.assertEqual(border.asks, ["Compile", "Names"])
        self.assertEqual(border.limits, ["Nesting", "Steps"])

    def test_a_missing_enum_is_an_error(self) -> None:
        with self.assertRaisesRegex(Unreadable, "comes 0 times"):
            within("pub enum Other {}", "pub enum Ask {", "}")

    def test_spells_names(self) -> None:
        self.assertEqual(
            [upper(it) for it in ("Nil", "DateTime", "KeyedMap")], ["NIL", "DATETIME", "KEYED_MAP"]
        )
        self.assertEqual(
            [word(it) for it in ("Done", "DateTime", "KeyedMap")], ["ok", "datetime", "map"]
        )

    def test_numbers_are_places(self) -> None:
        self.assertEqual(BORDER.kind_numbers()["KEYED_MAP"], 3)
        self.assertEqual(BORDER.limit_numbers(), {"NESTING": 0, "STEPS": 1})
        self.assertEqual(
            BORDER.status_numbers(),
            {"DONE": 0, "SYNTAX": 1, "ASKS": 2, "NESTING": 3, "STEPS": 4, "LIMITS": 3},
        )


class PartsTest(unittest.TestCase):
    def test_enumerators_keep_their_comments(self) -> None:
        self.assertEqual(parts.statuses_in_c(BORDER, IN_C), IN_C)

    def test_a_new_status_has_no_comment_at_first(self) -> None:
        border = dataclasses.replace(
            BORDER, statuses=["Done", "Syntax", "Gone", "Asks", "Nesting", "Steps"]
        )
        expected = IN_C.replace("    EXPR_ASKS,", "    EXPR_GONE,\n    EXPR_ASKS,")
        self.assertEqual(parts.statuses_in_c(border, IN_C), expected)

    def test_comments_move_with_a_longer_name(self) -> None:
        old = "    EXPR_MAP,      /* strings */\n    EXPR_KEYED_MAP /* scalars */\n"
        expected = "    EXPR_NIL,\n    EXPR_DATETIME,\n" + old
        self.assertEqual(parts.kinds_in_c(BORDER, old), expected)

    def test_kinds_that_are_passed_in_follow_the_others(self) -> None:
        self.assertEqual(
            parts.other_kinds_in_c(BORDER, ""),
            "enum { KIND_JSON = EXPR_KEYED_MAP + 1, KIND_BUILT };\n",
        )

    def test_limits(self) -> None:
        self.assertEqual(parts.limits_in_c(BORDER, ""), "enum { LIMIT_NESTING, LIMIT_STEPS };\n")

    def test_asks(self) -> None:
        self.assertEqual(parts.asks_in_c(BORDER, ""), "    COMPILE, CONTEXT_OF, USES_ENV\n")
        self.assertEqual(
            parts.asks_in_rust(BORDER, ""), "    Compile,\n    ContextOf,\n    UsesEnv,\n"
        )

    def test_words_in_c(self) -> None:
        made = parts.words_in_c("KINDS", lambda it: it.value_kinds)(BORDER, "")
        self.assertEqual(
            made, 'static const char *const KINDS[] = {"nil", "datetime", "map", "map"};\n'
        )

    def test_sets_the_numbers_of_constants(self) -> None:
        made = parts.numbers_in_rust(Border.status_numbers)
        old = "/// Why.\npub const ASKS: u32 = 7;\npub const LIMITS: u32 = 8;\n"
        self.assertEqual(
            made(BORDER, old), "/// Why.\npub const ASKS: u32 = 2;\npub const LIMITS: u32 = 3;\n"
        )
        with self.assertRaisesRegex(Unreadable, "the engine has no GONE"):
            made(BORDER, "pub const GONE: u32 = 7;\n")

    def test_python_can_be_run(self) -> None:
        border = dataclasses.replace(BORDER, kinds=BORDER.kinds)
        found: dict[str, object] = {}
        exec(parts.border_in_python(border, ""), found)  # pylint: disable=exec-used
        self.assertEqual(
            [found[it] for it in ("_OK", "_SYNTAX", "_ASKS", "_LIMITS")], [0, 1, 2, 3]
        )
        self.assertEqual(found["_STATUS"], ["ok", "syntax", "asks", "nesting", "steps"])
        self.assertEqual((found["_NIL"], found["_KEYED_MAP"]), (0, 3))
        self.assertEqual(found["_WORDS"], ["nil", "datetime", "map", "map"])


class PartTest(unittest.TestCase):
    def setUp(self) -> None:
        self.part = parts.Part("it.rs", "asks", parts.asks_in_rust)

    def test_only_the_part_is_written(self) -> None:
        begin, end = "    // begin: asks, by hosts/border.py --write\n", "    // end: asks\n}\n"
        made = self.part.written(BORDER, f"enum Ask {{\n{begin}    Old,\n{end}")
        self.assertEqual(
            made, f"enum Ask {{\n{begin}    Compile,\n    ContextOf,\n    UsesEnv,\n{end}"
        )

    def test_a_file_without_it_is_an_error(self) -> None:
        for text in ("", "// begin: other, by hosts/border.py --write\n// end: other\n"):
            with self.assertRaisesRegex(Unreadable, "it.rs has 0 parts 'asks'"):
                self.part.written(BORDER, text)

    def test_all_files_are_current(self) -> None:
        border = border_of(read)
        for part in parts.PARTS:
            text = text_of(part.file)
            self.assertEqual(
                part.written(border, text), text, f"{part.file}: hosts/border.py --write"
            )
