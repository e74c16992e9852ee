"""Tests rule_lines.py. The expected results are those of Python's own operators, and of one process."""
from __future__ import annotations

import json
import multiprocessing
import os
import subprocess
import sys
import tempfile
import unittest
from concurrent.futures import ProcessPoolExecutor
from typing import Any

sys.path.insert(0, os.path.join(os.path.dirname(os.path.abspath(__file__)), ".."))

import dask
import dask.bag as db
import exprlang
from rule_lines import joined, part_of, parts_of

RULE, CODE = 'age > 18 and country == "DE"', "{id: id, year: 2026 - age}"
COUNT = 2000
BROKEN = {
    b'{"id": 1': "Expecting",
    b'{"age": "old", "country": "DE"}': "Integer",
    b'{"age": 20}': "unknown name country",
    b'{"age": 20.5, "country": "DE"}': "no fractions",
    b'{"age": 20, "country": "\xff"}': "utf-8",
    b"[1, 2]": "",
}


def record(number: int) -> dict[str, Any]:
    return {"id": number, "age": number % 60, "country": "DE" if number % 3 == 0 else "US", "height": 1.5}


def lines_of() -> tuple[list[bytes], list[Any], list[tuple[int, str]]]:
    """Returns lines, what the rule finds in them, and the number and a word of each line with an error."""
    lines, found, errors = list[bytes](), list[Any](), list[tuple[int, str]]()
    broken = dict(zip(range(123, COUNT, COUNT // len(BROKEN)), BROKEN.items()))
    for number in range(1, COUNT + 1):
        if number in broken:
            lines.append(broken[number][0])
            errors.append((number, broken[number][1]))
        elif number % 500 == 0:
            lines.append(b" \r")
        else:
            it = record(number)
            lines.append(json.dumps(it).encode() + (b"\r" if number % 7 == 0 else b""))
            if it["age"] > 18 and it["country"] == "DE":
                found.append({"id": number, "year": 2026 - it["age"]})
    return lines, found, errors


class Case(unittest.TestCase):
    """The scheduler of processes, which are kept from test to test."""

    pool: ProcessPoolExecutor

    @classmethod
    def setUpClass(cls) -> None:
        cls.pool = ProcessPoolExecutor(2, mp_context=multiprocessing.get_context("spawn"))
        cls.settings = dask.config.set(scheduler="processes", pool=cls.pool)
        cls.folder = tempfile.TemporaryDirectory()
        cls.path = os.path.join(cls.folder.name, "people.jsonl")
        cls.lines, cls.found, cls.errors = lines_of()
        cls.rule, cls.program = exprlang.Rule(RULE), exprlang.compile(CODE)

    @classmethod
    def tearDownClass(cls) -> None:
        dask.config.set(scheduler=None, pool=None)
        cls.pool.shutdown()
        cls.folder.cleanup()

    def write(self, data: bytes) -> None:
        with open(self.path, "wb") as file:
            file.write(data)

    def compare(self, values: list[Any], errors: list[tuple[int, str]]) -> None:
        self.assertEqual(values, self.found)
        self.assertEqual([number for number, _ in errors], [number for number, _ in self.errors])
        for (number, message), (_, word) in zip(errors, self.errors):
            self.assertIn(word, message, number)

    def test_lines_in_processes(self) -> None:
        for end in (b"\n", b""):
            data = b"\n".join(self.lines) + end
            one = joined([part_of(data, self.rule, self.program)])
            self.compare(*one)
            self.write(data)
            for size in (1 << 24, len(data) // 7, 2000):
                with self.subTest(end=end, size=size):
                    parts = parts_of(self.path, self.rule, self.program, size).compute()
                    self.assertEqual(len(parts) > 1, size < len(data))
                    self.assertEqual(joined(parts), one)

    def test_a_last_line_with_an_error(self) -> None:
        for end in (b"\n", b""):
            self.write(b'{"age": 1, "country": "DE"}\n' * 300 + b"{" + end)
            values, errors = joined(parts_of(self.path, self.rule, self.program, 1000).compute())
            self.assertEqual((values, [number for number, _ in errors]), ([], [301]))

    def test_parts_shorter_than_a_line(self) -> None:
        self.write(b"\n".join(self.lines[:40]))
        parts = parts_of(self.path, self.rule, self.program, 10).compute()
        self.assertEqual(joined(parts)[0], [it for it in self.found if it["id"] <= 40])

    def test_records_in_a_bag(self) -> None:
        records = list(map(record, range(COUNT)))
        bag = db.from_sequence(records, npartitions=4)
        kept = [it for it in records if it["age"] > 18 and it["country"] == "DE"]
        self.assertEqual(bag.filter(self.rule.matches).compute(), kept)
        self.assertEqual(bag.filter(self.rule.matches).map(self.program.run).count().compute(), len(kept))
        self.assertEqual(bag.map_partitions(self.rule.filter).compute(), kept)

    def test_errors_reach_the_caller(self) -> None:
        with self.assertRaises(exprlang.Error) as caught:
            db.from_sequence([record(1)]).filter(exprlang.Rule("nope > 1").matches).compute()
        self.assertIn("unknown name nope", str(caught.exception))

    def test_the_command(self) -> None:
        self.write(b"\n".join(self.lines))
        script = os.path.join(os.path.dirname(os.path.abspath(__file__)), "../rule_lines.py")
        ended = subprocess.run([sys.executable, script, RULE, CODE, self.path, "20000"], capture_output=True, text=True)
        self.assertEqual(ended.returncode, 3, ended.stderr)
        self.assertEqual(list(map(json.loads, ended.stdout.splitlines())), self.found)
        said = [line.removeprefix(self.path + ":").split(": ")[0] for line in ended.stderr.splitlines()]
        self.assertEqual(said, [str(number) for number, _ in self.errors])


if __name__ == "__main__":
    unittest.main()
