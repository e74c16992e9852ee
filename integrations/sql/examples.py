#!/usr/bin/env python3
"""Runs the examples of docs/DATABASES.md in SQL, and compares what they print.

    examples.py DATABASE COMMAND..    the blocks whose first line is `-- DATABASE`, as one input of a command

A comment `-- => LINE`, at the end of a line or alone on it, says that a line is printed. All lines are said, in their order.
"""
import os, re, subprocess, sys

TOP = os.path.join(os.path.dirname(os.path.abspath(__file__)), "../..")
sys.dont_write_bytecode = True
sys.path.insert(0, os.path.join(TOP, "tools"))
from markdown import blocks_of


def main(database: str, command: list[str]) -> int:
    with open(os.path.join(TOP, "docs/DATABASES.md"), encoding="utf-8") as file:
        blocks = [it for it in blocks_of(enumerate(file.read().split("\n"), 1)) if it.kind == "code" and it.language == "sql"]
    text = "".join(it.text for it in blocks if it.text.startswith(f"-- {database}\n"))
    expected = re.findall(r"-- => (.*)$", text, re.M)
    ended = subprocess.run(command, input=text, capture_output=True, text=True)
    printed = ended.stdout.splitlines()
    if ended.returncode or ended.stderr or not expected or printed != expected:
        print("\n".join([*printed, ended.stderr, "and not", *expected]))
        return 1
    print(f"{len(expected)} lines")
    return 0


if __name__ == "__main__":
    sys.exit(main(sys.argv[1], sys.argv[2:]))
