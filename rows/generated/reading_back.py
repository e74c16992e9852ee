#!/usr/bin/env python3
"""Makes reading_back.rows: values of the seeds 0 to 4999, printed as the language prints them.

    rows/generated/reading_back.py > rows/generated/reading_back.rows

A value is a leaf in up to four arrays and maps. The same seeds give the same rows on any machine.
"""
from __future__ import annotations

import os
import sys
from collections.abc import Sequence
from typing import TypeVar

sys.dont_write_bytecode = True
sys.path.insert(0, os.path.join(os.path.dirname(os.path.abspath(__file__)), "../../tools"))
from rows import row_written

SEEDS = range(5000)
# Each character that is escaped, quotes, signs, and some past ASCII.
CHARACTERS = "an0 \"'\\\n\r\t`#{],:/*\0\x7fé日😀"
# Keys: words, reserved ones too.
WORDS = "a b B9 _ $x let not in nil true if matches".split()
INTEGERS = [0, 1, -1, 10, -255, 2**32, 2**63 - 1, 1 - 2**63]
ESCAPES = str.maketrans({"\\": "\\\\", '"': '\\"', "\n": "\\n", "\r": "\\r", "\t": "\\t"})

T = TypeVar("T")
Value = None | bool | int | str | list["Value"] | dict[str, "Value"]


class Dice:
    """Numbers of 31 bits that follow from a seed, by the linear congruence of Knuth's MMIX."""

    def __init__(self, seed: int) -> None:
        self.state = seed

    def next(self, sides: int) -> int:
        self.state = (self.state * 6364136223846793005 + 1442695040888963407) % 2**64
        return (self.state >> 33) % sides

    def pick(self, things: Sequence[T]) -> T:
        return things[self.next(len(things))]


def leaf(dice: Dice) -> Value:
    kind = dice.next(8)
    if kind < 3:
        return (None, True, False)[kind]
    if kind < 5:
        return dice.pick(INTEGERS)
    return "".join(dice.pick(CHARACTERS) for _ in range(dice.next(9)))


def array(dice: Dice, inside: Value) -> Value:
    """Up to two leaves, a value, and as many leaves again."""
    before = [leaf(dice) for _ in range(dice.next(3))]
    return [*before, inside, *(leaf(dice) for _ in range(dice.next(3)))]


def mapping(dice: Dice, inside: Value) -> Value:
    """Up to three leaves, and a value. A key that comes twice has its later value."""
    pairs: dict[str, Value] = {}
    for _ in range(dice.next(4)):
        key = dice.pick(WORDS)
        pairs[key] = leaf(dice)
    pairs[dice.pick(WORDS)] = inside
    return pairs


def value(seed: int) -> Value:
    dice = Dice(seed)
    made = leaf(dice)
    for _ in range(dice.next(5)):
        made = array(dice, made) if dice.next(2) == 0 else mapping(dice, made)
    return made


def printed(it: Value) -> str:
    if isinstance(it, str):
        return f'"{it.translate(ESCAPES)}"'
    if isinstance(it, list):
        return f"[{', '.join(map(printed, it))}]"
    if isinstance(it, dict):
        return f"{{{', '.join(f'{key}: {printed(part)}' for key, part in it.items())}}}"
    if it is None:
        return "nil"
    return str(it).lower()


def main() -> None:
    print("# Values of the seeds 0 to 4999, printed as the language prints them, and read again.")
    print("# rows/generated/reading_back.py makes this file.\n")
    print("## %printed Values, printed and read")
    for text in dict.fromkeys(printed(value(seed)) for seed in SEEDS):
        print(row_written(text, [], text))


if __name__ == "__main__":
    main()
