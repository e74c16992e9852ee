#!/usr/bin/env python3
"""Measures maps and lists whose keys share one hash, beside as many keys of many hashes.

    EXPRLANG_LIB=hosts/out/lib tools/hostile/keys.py

The keys have one hash of the kind that the kit's maps use: 24 bytes that were searched for, then any bytes. Each line prints the
processor time of both kinds, the least of three runs, and how they compare. The status is 1 where the first takes more than four
times as long as the second.
"""
from __future__ import annotations

import json
import pathlib
import sys
import time
from collections.abc import Callable

sys.path.insert(0, str(pathlib.Path(__file__).resolve().parents[2] / "hosts" / "python"))
import exprlang  # noqa: E402

MOST = 4.0
# Beginnings that collide as keys of maps by names, and as keys of `in`, groupBy and uniq; short keys and keys of 16 KB.
NAMES, KEYS = "0000000000000788t)6tU(i)", "0000000000000620K]?}K8W2"
LONG_NAMES, LONG_KEYS = "0000000000012495j_H,t3>%", "0000000000002188FxFcwl4c"
SHORT, LONG = "x" * 16, "x" * 16352


def keys(start: str, count: int, end: str, is_chosen: bool) -> list[str]:
    """Returns keys of one hash, or keys of the same length that differ from their first byte on."""
    if is_chosen:
        return [f"{start}{10_000_000 + i}{end}" for i in range(count)]
    return [f"{i * 2_654_435_761 % 10**8:08}{start[8:]}{10_000_000 + i}{end}" for i in range(count)]


def seconds(call: Callable[[], object]) -> float:
    """Returns the processor time of a call, the least of three."""
    least = float("inf")
    for _ in range(3):
        begin = time.process_time()
        call()
        least = min(least, time.process_time() - begin)
    return least


def literal(before: str, after: str, value: str) -> Callable[[list[str]], float]:
    """Returns what measures compiling and running a literal of the keys."""

    def measure(names: list[str]) -> float:
        text = before + ", ".join(f'"{name}"{value}' for name in names) + after
        return seconds(lambda: exprlang.compile(text, limits=exprlang.UNLIMITED).run({}))

    return measure


def over(text: str, made: Callable[[list[str]], object]) -> Callable[[list[str]], float]:
    """Returns what measures running an expression over what is made of the keys."""

    def measure(names: list[str]) -> float:
        program = exprlang.compile(text, limits=exprlang.UNLIMITED)
        context = made(names)
        return seconds(lambda: program.run(context))

    return measure


def document(names: list[str]) -> dict[str, str]:
    return {"t": json.dumps(dict.fromkeys(names, 1))}


FORMS: list[tuple[str, bool, Callable[[list[str]], float]]] = [
    ("literal map", True, literal("len({", "})", ": 1")),
    ("in list", False, literal('"a" in [', "]", "")),
    ("fromJSON", True, over("len(fromJSON(t))", document)),
    ("groupBy", False, over("len(groupBy(t, {#}))", lambda names: {"t": names})),
    ("uniq", False, over("len(uniq(t))", lambda names: {"t": names})),
    ("record", True, over("len($env)", lambda names: dict.fromkeys(names, 1))),
]
SIZES = [(2_000, False), (8_000, False), (20_000, False), (1_000, True)]


def main() -> int:
    worst = 0.0
    for name, is_named, measure in FORMS:
        for count, is_long in SIZES:
            start = (LONG_NAMES if is_long else NAMES) if is_named else (LONG_KEYS if is_long else KEYS)
            end = LONG if is_long else SHORT
            chosen, other = (measure(keys(start, count, end, is_chosen)) for is_chosen in (True, False))
            worst = max(worst, chosen / other)
            print(f"{name:12} {count:6} of {24 + 8 + len(end):5} bytes: {chosen * 1e3:8.1f} ms and {other * 1e3:8.1f} ms, {chosen / other:.2f} times")
    print(f"the most: {worst:.2f} times")
    return int(worst > MOST)


if __name__ == "__main__":
    sys.exit(main())
