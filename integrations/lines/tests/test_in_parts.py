#!/usr/bin/env python3
"""Tests in_parts, and the ways to cut a file that it and docs/SCALE.md rely on.

    test_in_parts.py PROGRAM    over expr_lines, or rule_lines in this folder: then --map, --name and --fail-fast aren't tried
"""
from __future__ import annotations

import os
import random
import shutil
import subprocess
import sys
import tempfile
import unittest

HERE = os.path.dirname(os.path.abspath(__file__))
PROGRAM = ""
RULE = "age > 50"
COUNT = 3000
BROKEN = {2: b"{", 1500: b'{"id": 1500', 2222: b'{"ages": 1}', COUNT: b"[]"}


def line_of(number: int) -> bytes:
    return BROKEN.get(number) or (b"" if number % 100 == 0 else b'{"id": %d, "age": %d}' % (number, number % 60))


LINES = [line_of(number) for number in range(1, COUNT + 1)]
KEPT = [
    line_of(number)
    for number in range(1, COUNT + 1)
    if number not in BROKEN and number % 100 and number % 60 > 50
]


def run(*words: str, status: int = 0) -> tuple[bytes, bytes]:
    ended = subprocess.run(words, capture_output=True, env={**os.environ, "EXPR_LINES": PROGRAM})
    if ended.returncode != status:
        raise AssertionError(f"{words}: status {ended.returncode}, and not {status}: {ended.stderr.decode()}")
    return ended.stdout, ended.stderr


def numbers_of(errors: bytes, path: str) -> list[int]:
    """The numbers of lines with an error, each of which begins with the name of the file."""
    return [int(line.removeprefix(f"{path}:").split(":")[0]) for line in errors.decode().splitlines()]


class Cuts(unittest.TestCase):
    """A file is cut at line feeds: the parts are the file, and each but the last ends with one."""

    def setUp(self) -> None:
        self.folder = tempfile.TemporaryDirectory()
        self.addCleanup(self.folder.cleanup)
        self.path = os.path.join(self.folder.name, "it.jsonl")

    def write(self, data: bytes) -> str:
        with open(self.path, "wb") as file:
            file.write(data)
        return self.path

    def in_parts(self, parts: int, *words: str, status: int = 0) -> tuple[bytes, bytes]:
        return run(os.path.join(HERE, "../in_parts"), str(parts), self.path, *words, status=status)

    def check(self, parts: list[bytes], data: bytes) -> None:
        self.assertEqual(b"".join(parts), data)
        for part in [it for it in parts if it][:-1]:
            self.assertTrue(part.endswith(b"\n"))

    def files(self) -> list[bytes]:
        seeded = random.Random(1)
        made = [b"", b"\n", b"x", b"x\ny", b"\n\n\n", b"x" * 10_000 + b"\ny\n" + b"z" * 10_000]
        for _ in range(20):
            lengths = [seeded.choice((0, 1, 5, 50, 500, 5000)) for _ in range(seeded.randrange(1, 40))]
            made.append(b"\n".join(b"x" * length for length in lengths) + seeded.choice((b"", b"\n")))
        return made

    def test_split(self) -> None:
        for data in self.files():
            path, count = self.write(data), 5
            self.check([run("split", "-n", f"l/{k}/{count}", path)[0] for k in range(1, count + 1)], data)

    @unittest.skipUnless(shutil.which("parallel"), "there is no parallel here")
    def test_parallel(self) -> None:
        for data in self.files()[::6]:
            path = self.write(data)
            self.assertEqual(run("parallel", "-k", "--pipepart", "-a", path, "--block", "3k", "cat")[0], data)
            fed = run("parallel", "-k", "--pipepart", "-a", path, "--block", "3k", "wc -l")[0]
            self.assertEqual(sum(map(int, fed.split())), data.count(b"\n"))

    def test_as_one_process(self) -> None:
        for end in (b"\n", b""):
            path = self.write(b"\n".join(LINES) + end)
            one = run(PROGRAM, RULE, path, status=3)
            self.assertEqual(one[0], b"\n".join(KEPT) + b"\n")
            self.assertEqual(numbers_of(one[1], path), sorted(BROKEN))
            for parts in (1, 4, 9):
                self.assertEqual(self.in_parts(parts, RULE, status=3), one)

    def test_few_lines(self) -> None:
        self.write(b'{"age": 1}\n{"age": 60}')
        self.assertEqual(self.in_parts(6, RULE), (b'{"age": 60}\n', b""))
        self.write(b"")
        self.assertEqual(self.in_parts(2, RULE, status=1), (b"", b""))

    def test_statuses(self) -> None:
        self.write(b'{"age": 1}\n' * 9)
        self.in_parts(3, RULE, status=1)
        self.assertEqual(self.in_parts(3, "age >", status=2)[1], run(PROGRAM, "age >", status=2)[1])
        self.in_parts(0, RULE, status=2)
        self.path += "absent"
        self.in_parts(3, RULE, status=4)

    def test_count(self) -> None:
        self.write(b"\n".join(LINES))
        counted, _ = self.in_parts(4, "--count", RULE, status=3)
        self.assertEqual((len(counted.split()), sum(map(int, counted.split()))), (4, len(KEPT)))

    def test_options(self) -> None:
        if os.path.basename(PROGRAM) != "expr_lines":
            self.skipTest("the options of expr_lines")
        self.write(b'{"a": 1}\n{"a": 2}\n{\n' + b'{"a": 3}\n' * 5000)
        self.assertEqual(self.in_parts(3, "-n", "b=10", "--map", "[a + b, {}]", status=3)[0][:18], b"[11,{}]\n[12,{}]\n[1")
        written, errors = self.in_parts(3, "-f", "a > 0", status=3)
        self.assertEqual(written[:27], b'{"a": 1}\n{"a": 2}\n{"a": 3}\n')
        self.assertEqual(numbers_of(errors, self.path), [3])


if __name__ == "__main__":
    if len(sys.argv) < 2:
        sys.exit((__doc__ or "").strip())
    PROGRAM = os.path.abspath(sys.argv.pop(1))
    unittest.main()
