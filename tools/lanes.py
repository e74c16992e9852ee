"""In which order proofs run side by side, and how many processors each gets."""

from __future__ import annotations

import pathlib
import re
from collections.abc import Mapping, Sequence
from typing import Generic, TypeVar

Task = TypeVar("Task")

# A proof gains little from more jobs than this.
MOST_JOBS = 3


def seconds_of(table: pathlib.Path, *, of_edits: bool = False) -> dict[str, int]:
    """Returns the seconds of each crate's proof, or of its edits, by docs/GATE.md: | `crate` | edits | proof | edits' seconds |."""
    found = re.findall(r"(?m)^\| `(\w+)` \| \d+ \| ([\d,]+) \| *([\d,]*) *\|", table.read_text(encoding="utf-8"))
    return {name: int((edits if of_edits else proof).replace(",", "") or 0) for name, proof, edits in found}


class Plan(Generic[Task]):
    """Which tasks come next. The order of the tasks is such that each comes after those that it waits for."""

    def __init__(self, seconds: Mapping[Task, float], waits: Mapping[Task, Sequence[Task]], lanes: int) -> None:
        self.seconds, self.waits, self.lanes = seconds, waits, lanes
        self.behind: dict[Task, float] = dict.fromkeys(seconds, 0.0)
        """The seconds of the longest chain that begins with a task."""
        for task in reversed(list(seconds)):
            self.behind[task] += seconds[task]
            for it in waits[task]:
                self.behind[it] = max(self.behind[it], self.behind[task])
        self.order = sorted(seconds, key=lambda it: -self.behind[it])
        self.running: dict[Task, int] = {}
        self.ended: set[Task] = set()

    def ready(self) -> list[Task]:
        """Returns the tasks that wait for nothing, those with the longest chain behind them first."""
        return [it for it in self.order if all(below in self.ended for below in self.waits[it])]

    def begin(self) -> tuple[Task, int] | None:
        """Returns a task that begins now, with the number of its jobs, or nothing where no lane is idle.

        A task has more than one job only where lanes would be idle: a second job costs more processor time than it saves.
        """
        idle, ready = self.lanes - sum(self.running.values()), self.ready()
        if idle <= 0 or not ready:
            return None
        task = ready[0]
        jobs = max(1, min(MOST_JOBS, idle - len(ready) + 1))
        self.order.remove(task)
        self.running[task] = jobs
        return task, jobs

    def end(self, task: Task) -> None:
        """Takes note that a task has ended."""
        del self.running[task]
        self.ended.add(task)
