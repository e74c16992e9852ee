#!/usr/bin/env python3
"""Filters and maps a file of JSON lines with Dask, in processes. Each line with an error is reported with its number in the file.

    rule_lines.py RULE CODE FILE [BYTES]    prints the value of CODE, in JSON, for each record of which RULE is true

BYTES is about how much of the file a process takes at a time: each part ends at a line feed. The status is 3 if a line has an
error. In a program, call `parts_of`, compute its bag, and call `joined`.
"""
from __future__ import annotations

import json
import sys
from collections.abc import Iterable
from dataclasses import dataclass
from typing import Any

import dask.bag as db
import exprlang
from dask import delayed
from dask.bytes import read_bytes


@dataclass
class Part:
    """What was found in a part of a file."""

    values: list[Any]
    errors: list[tuple[int, str]]
    """The number of each line with an error, counted from 1 in the part, and the message."""
    line_feeds: int


def part_of(data: bytes, rule: exprlang.Rule, program: exprlang.Program) -> Part:
    """Returns the values of a program for those of some lines for which a rule is true. Blank lines are skipped."""
    values, errors = list[Any](), list[tuple[int, str]]()
    for number, line in enumerate(data.split(b"\n"), 1):
        if not line.strip():
            continue
        try:
            record = json.loads(line)
            if rule.matches(record):
                values.append(program.run(record))
        except (ValueError, TypeError, OverflowError, exprlang.Error) as error:
            errors.append((number, str(error)))
    return Part(values, errors, data.count(b"\n"))


def parts_of(path: str, rule: exprlang.Rule, program: exprlang.Program, size: int = 1 << 24) -> db.Bag:
    """Returns a bag of a Part for each part of a file, in their order. Nothing is read until the bag is computed."""
    _, [blocks] = read_bytes(path, delimiter=b"\n", blocksize=size, sample=False)
    one = delayed(lambda data: [part_of(data, rule, program)])
    return db.from_delayed([one(block) for block in blocks])


def joined(parts: Iterable[Part]) -> tuple[list[Any], list[tuple[int, str]]]:
    """Returns all values and all errors. The number of a line in the file is that in its part, and the line feeds before the part."""
    values, errors, before = list[Any](), list[tuple[int, str]](), 0
    for part in parts:
        values += part.values
        errors += [(before + number, message) for number, message in part.errors]
        before += part.line_feeds
    return values, errors


def main(rule: str, code: str, path: str, size: str = "16777216") -> int:
    bag = parts_of(path, exprlang.Rule(rule), exprlang.compile(code), int(size))
    values, errors = joined(bag.compute(scheduler="processes"))
    for value in values:
        print(json.dumps(value))
    for number, message in errors:
        print(f"{path}:{number}: {message}", file=sys.stderr)
    return 3 if errors else 0


if __name__ == "__main__":
    sys.exit(main(*sys.argv[1:]))
