"""Tests of crates.py."""

from __future__ import annotations

from .made import Repository


class CratesTest(Repository):
    def test_reads_names_and_uses(self) -> None:
        self.assertEqual(list(self.crates.uses), ["top", "middle", "low"])
        self.assertEqual(self.crates.uses["middle"], ["low"])
        self.assertIn("low", self.crates)
        self.assertNotIn("jiff", self.crates)

    def test_keeps_lines_as_they_are(self) -> None:
        line = "middle staticlib backend=rattle: low  # behind the names"
        self.assertEqual(self.crates.lines["middle"], line)

    def test_below_has_the_lowest_first(self) -> None:
        self.assertEqual(self.crates.below("top"), ["low", "middle"])
        self.assertEqual(self.crates.below("low"), [])

    def test_many_ways_between_crates_take_no_time(self) -> None:
        names = [f"c{number:03}" for number in range(60)]
        lines = [f"{name}: {' '.join(names[:at])}" for at, name in enumerate(names)]
        self.write("crates.txt", "\n".join(lines))
        crates = type(self.crates)(self.root)
        self.assertEqual(crates.below(names[-1]), names[:-1])
        self.assertEqual(crates.from_lowest(), names)
