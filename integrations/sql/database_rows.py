#!/usr/bin/env python3
"""Prints the test rows of rows/ to try in a database, with tabs between their columns, as COPY of PostgreSQL reads them.

    database_rows.py bench      the expressions whose answer is an error or has JSON: place, rule, record, answer
    database_rows.py hostile    the hostile expressions: place, rule, record. Of rules of megabytes the first HOSTILE_LENGTH
                                characters are printed, which are still too many

An answer is JSON, or `!` and the kind of the error. A place is FILE:LINE. The answers come from outside: from worked examples,
and from the engine that this language is a port of.
"""
import json, os, re, sys
from typing import Iterator, NamedTuple, Optional

TOP = os.path.realpath(os.path.join(os.path.dirname(os.path.abspath(__file__)), "../.."))
sys.path.insert(0, os.path.join(TOP, "tools"))
import rows

HOSTILE_LENGTH = 100_000


class BenchRow(NamedTuple):
    place: str
    rule: str
    record: dict
    answer: str  # JSON, or "!" and the kind of an error


class HostileRow(NamedTuple):
    place: str
    rule: str
    record: dict


def json_of(shown: str) -> Optional[str]:
    """The JSON of a value as the language prints it, or None if there is none."""
    keys = r"(?<=[{ ])(?!true:|false:|nil:)[A-Za-z_]\w*(?=: )"
    text = re.sub(rf'"(?:[^"\\]|\\.)*"|\bnil\b|{keys}', lambda match: {"nil": "null"}.get(match[0], quoted(match[0])), shown)
    try:
        return json.dumps(json.loads(text), sort_keys=True)
    except json.JSONDecodeError:
        return None


def quoted(word: str) -> str:
    return word if word.startswith('"') else f'"{word}"'


def record_of(names: list[str]) -> Optional[dict]:
    """The record of names, each written NAME=CODE, or None if the code of one isn't JSON."""
    record = {}
    for name, _, code in (it.partition("=") for it in names):
        text = json_of(code)
        if text is None:
            return None
        record[name] = json.loads(text)
    return record


def bench() -> Iterator[BenchRow]:
    for row in rows.all_rows(TOP, "".__eq__):
        rule, shown = rows.expanded(row.text), rows.expanded(row.answer)
        error = re.fullmatch(r"error: (\w+)", shown)
        answer = f"!{error[1]}" if error else json_of(shown)
        record = record_of([rows.expanded(word) for word in row.words])
        is_bytes = rule.startswith('b"') and shown.startswith("[")  # which print as an array of one number does
        if None not in (answer, record) and answer != "!memory" and not is_bytes and "\0" not in rule + json.dumps(record):
            yield BenchRow(row.place(), rule, record, answer)


def keyed(code: str) -> dict:
    """The map of a value in rows/hostile.rows, whose code stops at the limits: so many keys, each with a number in it."""
    form = r'toJSON\("(.*)" \+ string\((\d+) \+ #\) \+ repeat\("(.)", (\d+)\)\) \+ ":1"'
    match = re.fullmatch(rf'fromJSON\("{{" \+ join\(map\(1\.\.(\d+), {form}\), ","\) \+ "}}"\)', code)
    if not match:
        raise ValueError(f"a value of rows/hostile.rows that database_rows.py can't make: {code}")
    count, front, first, piece, times = match.groups()
    return {f"{front}{int(first) + i}{piece * int(times)}": 1 for i in range(1, int(count) + 1)}


def hostile() -> Iterator[HostileRow]:
    for row in rows.all_rows(TOP, "hostile".__eq__):
        record = {it.partition("=")[0]: keyed(it.partition("=")[2]) for it in row.words}
        yield HostileRow(row.place(), rows.expanded(row.text)[:HOSTILE_LENGTH], record)


def column(value: object) -> str:
    text = json.dumps(value) if isinstance(value, dict) else str(value)
    return text.translate({ord("\\"): "\\\\", ord("\n"): "\\n", ord("\r"): "\\r", ord("\t"): "\\t"})


def main(kinds: list[str]) -> int:
    if kinds not in (["bench"], ["hostile"]):
        print(__doc__.strip(), file=sys.stderr)
        return 2
    for row in bench() if kinds == ["bench"] else hostile():
        print("\t".join(map(column, row)))
    return 0


if __name__ == "__main__":
    sys.exit(main(sys.argv[1:]))
