"""Writes the examples of docs/LANGUAGE.md as the file examples.js of the page.

    examples.py FILE
"""
from __future__ import annotations

import json
import os
import sys

TOP = os.path.realpath(os.path.join(os.path.dirname(os.path.abspath(__file__)), "../.."))
sys.dont_write_bytecode = True
sys.path.insert(0, os.path.join(TOP, "tools"))
from rows import Fault, Row, expanded, of_page

PAGE = f"{TOP}/docs/LANGUAGE.md"


def record_of(row: Row) -> str | None:
    """The names of a row as a JSON object, or none if the code of one isn't JSON."""
    pairs = []
    for word in map(expanded, row.words):
        name, _, code = word.partition("=")
        try:
            json.loads(code)
        except ValueError:
            return None
        pairs.append(f"{json.dumps(name)}: {code}")
    return "{" + ", ".join(pairs) + "}"


def sections() -> list[dict[str, object]]:
    """The sections of the page that have examples. The first is the page itself."""
    found: dict[str, list[dict[str, str]]] = {}
    for heading, row in of_page(TOP, PAGE):
        record = record_of(row)
        if record is None:
            raise Fault(f"{row.place()}: a name whose code isn't JSON, which the page in the browser takes")
        found.setdefault(heading.replace("`", ""), []).append({"text": expanded(row.text), "record": record})
    return [{"title": title, "examples": examples} for title, examples in found.items()]


def main(path: str) -> int:
    with open(path, "w", encoding="utf-8") as file:
        file.write(f'"use strict";\nconst EXPRLANG_EXAMPLES = {json.dumps(sections(), indent=1)};\n')
    return 0


if __name__ == "__main__":
    try:
        sys.exit(main(*sys.argv[1:]))
    except Fault as fault:
        sys.exit(f"examples: {fault}")
