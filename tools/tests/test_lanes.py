"""Tests of lanes.py."""

from __future__ import annotations

import pathlib
import tempfile
import unittest

from lanes import Plan, seconds_of


def chain_and_leaves(lanes: int) -> Plan[str]:
    """A chain of three tasks, and four that nothing waits for."""
    seconds = {"low": 10.0, "middle": 10.0, "high": 10.0, "a": 1.0, "b": 1.0, "c": 1.0, "d": 1.0}
    waits = {"low": [], "middle": ["low"], "high": ["low", "middle"], "a": [], "b": [], "c": [], "d": []}
    return Plan(seconds, waits, lanes)


class PlanTest(unittest.TestCase):
    def test_reads_the_table(self) -> None:
        with tempfile.TemporaryDirectory() as folder:
            file = pathlib.Path(folder) / "GATE.md"
            file.write_text("| Crate | Edits | Proof, s |\n|---|---|---|\n| `low` | 0 | 33 |  | 1 |\n| `top` | 2 | 1,277 | 4 | 9 |\n", encoding="utf-8")
            self.assertEqual(seconds_of(file), {"low": 33, "top": 1277})
            self.assertEqual(seconds_of(file, of_edits=True), {"low": 0, "top": 4})

    def test_the_longest_chain_comes_first(self) -> None:
        plan = chain_and_leaves(4)
        self.assertEqual(plan.behind["low"], 30)
        self.assertEqual([plan.begin() for _ in range(5)], [("low", 1), ("a", 1), ("b", 1), ("c", 1), None])

    def test_a_lane_goes_to_one_task(self) -> None:
        plan = chain_and_leaves(2)
        self.assertEqual([plan.begin(), plan.begin(), plan.begin()], [("low", 1), ("a", 1), None])
        plan.end("low")
        self.assertEqual(plan.begin(), ("middle", 1))

    def test_a_task_waits_for_those_below(self) -> None:
        plan = chain_and_leaves(4)
        while plan.begin() is not None:
            pass
        self.assertNotIn("middle", plan.ready())
        plan.end("low")
        self.assertEqual(plan.begin(), ("middle", 1))

    def test_idle_lanes_go_to_who_is_alone(self) -> None:
        plan = Plan({"only": 5.0}, {"only": []}, 4)
        self.assertEqual(plan.begin(), ("only", 3))

    def test_one_lane_runs_one_job(self) -> None:
        plan = chain_and_leaves(1)
        self.assertEqual(plan.begin(), ("low", 1))
        self.assertIsNone(plan.begin())

    def test_all_tasks_end(self) -> None:
        for lanes in (1, 2, 4, 16):
            plan, ended = chain_and_leaves(lanes), []
            while len(ended) < 7:
                while plan.begin() is not None:
                    self.assertLessEqual(sum(plan.running.values()), lanes)
                task = next(iter(plan.running))
                plan.end(task)
                ended.append(task)
            self.assertEqual(set(ended), set(plan.seconds))
