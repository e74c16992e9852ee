#!/usr/bin/env python3
"""Keeps what the libraries for C, Rust and Python write of the border as the engine has it.

    hosts/border.py            compares, and prints what differs. The status is 1 then
    hosts/border.py --write    writes the parts that are made

The numbers of what may be asked, of kinds and of statuses are those of the enums `Ask`, `Kind` and
`Status` in crates/expr_exchange/src, and those of limits are in limit.rt there. A part of a file is made of these if it is between the comments
`begin: NAME, by hosts/border.py --write` and `end: NAME`. Comments in it are kept. The layout of
structs, limits and versions are compared. The tests in C must call each function of exprlang.h.
bin/hosts runs it.
"""
from __future__ import annotations

import pathlib
import sys

sys.dont_write_bytecode = True
sys.path.insert(0, str(pathlib.Path(__file__).resolve().parent.parent / "tools"))
from bindings.compare import compare  # noqa: E402
from bindings.engine import Unreadable, border_of, read  # noqa: E402
from bindings.parts import write  # noqa: E402


def main(arguments: list[str]) -> int:
    if arguments not in ([], ["--write"]):
        print((__doc__ or "").strip())
        return 0 if arguments in (["--help"], ["-h"]) else 2
    try:
        border = border_of(read)
        return write(border) if arguments else compare(border)
    except Unreadable as fault:
        print(f"border: {fault}")
        return 1


if __name__ == "__main__":
    sys.exit(main(sys.argv[1:]))
