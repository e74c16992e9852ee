"""A small repository for tests."""

from __future__ import annotations

import pathlib
import tempfile
import unittest

from crates import Crates

LINES = """\
# comments and crates of the kit are there too
top: middle low jiff
middle staticlib backend=rattle: low  # behind the names
low: std_collections
"""

SOURCE = """\
//! A module. fn not_this_one() { }
use crate::other;

/// The greatest that is kept.
pub const MOST: u64 = 7;

/// The number, or `MOST`.
pub fn bounded(n: u64) -> u64
    requires { IsSmall n }
    ensures answer { result ≡ bounded_of n }
{
    if n > MOST { MOST } else { n }
}

impl<'a, T: Drop> From<Held<'a, T>> for Vec<T> {
    fn from(held: Held<'a, T>) -> Vec<T> {
        let brace = '{';
        held.items
    }
}

impl Held {
    #[cycle(walk)]
    fn walk(&self) -> u64 {
        self.step()
    }

    #[cycle(walk)]
    fn step(&self) -> u64 {
        self.walk()
    }
}

extern "C" {
    fn outside(n: u64) -> u64;
}
"""

GATE = """\
# Wrong bodies

## bound_is_less

The bound is 6.

    file: src/held.rt
    old:     if n > MOST { MOST } else { n }
    new:     if n > MOST { MOST - 1 } else { n }

## step_ends

    file: src/held.rt
    old:         self.walk()
    new:         0
"""

TRIED = """\
## most_is_six

    file: src/held.rt
    old: pub const MOST: u64 = 7;
    new: pub const MOST: u64 = 6;

## not_there

    file: src/held.rt
    old: no such line
    new:
"""

FILE = """\
# What this shows.
file: src/held.rt
old:         held.items
new:         Vec::new()
"""


class Repository(unittest.TestCase):
    """A test with a repository of three crates, of which `top` has sources and edits."""

    def setUp(self) -> None:
        room = tempfile.TemporaryDirectory(prefix="tools-tests-")
        self.addCleanup(room.cleanup)
        self.root = pathlib.Path(room.name)
        self.write("crates.txt", LINES)
        self.write("crates/top/src/held.rt", SOURCE)
        self.write("crates/top/must-fail/GATE.md", GATE)
        self.write("crates/top/must-fail/TRIED.md", TRIED)
        self.write("crates/top/must-fail/makes_none.edit", FILE)
        self.crates = Crates(self.root)
        self.folder = self.crates.folder("top")

    def write(self, name: str, text: str) -> None:
        path = self.root / name
        path.parent.mkdir(parents=True, exist_ok=True)
        path.write_text(text, encoding="utf-8")
