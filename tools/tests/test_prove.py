"""Tests of bin/prove: which tasks run, how often, and what they give."""

from __future__ import annotations

import contextlib
import importlib.machinery
import importlib.util
import io
import os
import pathlib
import unittest
from types import ModuleType
from typing import Any
from unittest import mock



def load(file: pathlib.Path) -> ModuleType:
    """Loads a program of bin/ as a module."""
    loader = importlib.machinery.SourceFileLoader(file.name, str(file))
    spec = importlib.util.spec_from_loader(file.name, loader)
    if spec is None:
        raise ImportError(str(file))
    module = importlib.util.module_from_spec(spec)
    loader.exec_module(module)
    return module


PROVE = load(pathlib.Path(__file__).resolve().parents[2] / "bin" / "prove")


class Runs(unittest.TestCase):
    def given(self, ends: dict[str, list[bool]]) -> tuple[dict[tuple[str, str], Any], dict[str, list[int]]]:
        """Runs a chain of proofs, each of which ends as its list says, and returns what they gave, and with how many jobs each was run."""
        names, ran = list(ends), {name: [] for name in ends}

        def proof(name: str, jobs: int) -> bool:
            ran[name].append(jobs)
            return ends[name][len(ran[name]) - 1]

        tasks = {
            (name, "proof"): ([(names[at - 1], "proof")] if at else [], 1, 1, lambda given, jobs, name=name: proof(name, jobs))
            for at, name in enumerate(names)
        }
        with mock.patch.dict(os.environ, {"RT_JOBS": "4"}), contextlib.redirect_stderr(io.StringIO()):
            return PROVE.in_lanes(tasks), ran

    def test_a_proof_that_fails_is_tried_once_more_with_one_job(self) -> None:
        given, ran = self.given({"one": [False, True], "two": [True]})
        self.assertEqual(given, {("one", "proof"): True, ("two", "proof"): True})
        self.assertEqual([len(ran["one"]), ran["one"][1], len(ran["two"])], [2, 1, 1])

    def test_what_fails_twice_has_failed_and_what_stands_on_it_runs_once(self) -> None:
        given, ran = self.given({"one": [False, False], "two": [False]})
        self.assertEqual(given, {("one", "proof"): False, ("two", "proof"): False})
        self.assertEqual([len(ran["one"]), len(ran["two"])], [2, 1])


if __name__ == "__main__":
    unittest.main()
