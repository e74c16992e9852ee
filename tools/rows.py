"""Reads rows: texts and what they come to, one a line. bin/rows makes what the bench reads.

    # a comment
    ## Ranges                                     a section, by what its rows are about
    1..3 => [1, 2, 3]                             an expression, and what it prints
    a % b with a=1 with b=0 => error: evaluation  names, each with the code of its value; an error
    ## %tokens Words                              a section of rows of another kind, `%KIND`
    let x                                         a text of more than one line
    = 2 =>                                        ends where its answer begins,
        let! x                                    and an answer of more than one line
        = 2                                       is indented by four spaces

A line `with NAME=CODE` holds for all rows behind it, up to the next empty line. Backslashes are
themselves. These stand for something else:

    <<LF>> <<CR>> <<TAB>>   the end of a line, a carriage return, a tab
    <<BOM>>                 the mark that some editors put before a text, U+FEFF
    <<xFF>>                 a byte, by two digits of base 16
    <<>>                    nothing: `1 + <<>> => ..` ends in a space, `<<>>#` begins with `#`
    <<9*PIECE>>             so many pieces
    <<9+PIECE>>             so many pieces, numbered from 1 on by eight digits for ########
"""
from __future__ import annotations

import glob
import os
import re
from collections.abc import Callable, Iterable, Iterator
from dataclasses import dataclass

from markdown import blocks_of

# Who reads the rows of a kind. Those without one are expressions: the bench, hosts and the
# programs read them. hosts/c/rows.c reads those of HOSTS, bin/expr_runs and bin/lines_runs
# those of PROGRAMS, and bin/hostile its own. The bench and hosts/c/rows.c both read `once`,
# `printed`, `text` and `versions`.
BENCH = (
    "calls environment held name once order parts pattern places plain printed refusing scope text tokens "
    "topic versions within"
).split()
# What the bench calls some of them, and which it reads as an expression among names.
CALLED = {"printed": "once", "versions": "environment", "within": "text"}
EVALUATED = ("", "once", "printed")
HOSTS = (
    "added_function added_name added_zone context damaged limited names nest once printed "
    "text versions zone_name zones"
).split()
PROGRAMS = "exprlang expr_check expr_lines".split()
KINDS = {"", "hostile", *BENCH, *HOSTS, *PROGRAMS}

NAMED = {"": "", "LF": "\n", "CR": "\r", "TAB": "\t", "BOM": "\ufeff"}
WIRE = {"\\": "\\\\", "\n": "\\n", "\r": "\\r", "\t": "\\t", "\0": "\\0"}
SPECIAL = re.compile(
    r"<<(?:(?P<name>LF|CR|TAB|BOM|)>>|x(?P<byte>[0-9A-Fa-f]{2})>>|(?P<count>\d+)(?P<sign>[*+]))"
)


class Fault(Exception):
    """A line that is no row: FILE:LINE, and why."""


@dataclass(frozen=True)
class Row:
    """A text, the words behind it and what it comes to, as they are written."""

    path: str
    line: int
    kind: str
    text: str
    words: tuple[str, ...]
    answer: str

    def place(self) -> str:
        return f"{self.path}:{self.line}"

    def is_made(self) -> bool:
        """Whether a script made the row."""
        return "/generated/" in self.path

    def wire(self) -> str:
        """The row as the C host reads it: `%KIND TEXT`, each word behind a tab."""
        return self.on_wire(self.kind, [expanded(word) for word in self.words])

    def bench(self) -> str:
        """The row as the bench reads it: as `wire`, but the names of an expression are one map."""
        words = [expanded(word) for word in self.words]
        if words and self.kind in EVALUATED:
            pairs = [word.partition("=") for word in words]
            words = ["{" + ", ".join(f"{quoted(name)}: ({code})" for name, _, code in pairs) + "}"]
        return self.on_wire(CALLED.get(self.kind, self.kind), words)

    def on_wire(self, kind: str, words: list[str]) -> str:
        """The line of the row's text and of words behind it, as a row of a kind."""
        line = "\t".join(map(escaped, [expanded(self.text), *words]))
        return f"%{kind} {line}" if kind else re.sub("^%", r"\%", line)

    def wanted(self) -> str:
        """The answer as they print it: an error as `!` and its word."""
        return escaped(re.sub(r"^(?:error|stops): (?=\w+$)", "!", expanded(self.answer)))


def quoted(name: str) -> str:
    """A name as a string of the language."""
    return '"' + name.replace("\\", "\\\\").replace('"', '\\"') + '"'


def escaped(text: str) -> str:
    """A text on one line of the wire."""
    return "".join(WIRE.get(c, c) for c in text)


def unescaped(line: str) -> str:
    """The text of a line of the wire."""
    back = {written[1]: c for c, written in WIRE.items()}
    return re.sub(r"\\(.)", lambda found: back.get(found[1], found[1]), line)


# A longer answer is compared once. Shorter ones are also tried with each write failing, and with each growth refused.
MOST_TRIED = 200


def expanded(text: str) -> str:
    """A text with what `<<..>>` stands for. A byte is what `surrogateescape` makes of it."""
    made, at = [], 0
    while found := SPECIAL.search(text, at):
        made.append(text[at : found.start()])
        at = found.end()
        if found["name"] is not None:
            made.append(NAMED[found["name"]])
        elif found["byte"]:
            made.append(bytes.fromhex(found["byte"]).decode("utf-8", "surrogateescape"))
        else:
            end = closing(text, at)
            piece, count = expanded(text[at:end]), int(found["count"])
            made.append(piece * count if found["sign"] == "*" else numbered(piece, count))
            at = end + 2
    return "".join([*made, text[at:]])


def closing(text: str, at: int) -> int:
    """Where the `>>` stands that ends what begins at a place."""
    depth = 1
    for found in re.compile(SPECIAL.pattern + "|>>").finditer(text, at):
        depth += 1 if found["count"] else -1 if found[0] == ">>" else 0
        if depth == 0:
            return found.start()
    raise ValueError(f"no >> behind <<: {text}")


def numbered(piece: str, count: int) -> str:
    """So many pieces, each with its number."""
    before, _, behind = piece.partition("########")
    return "".join(f"{before}{number:08}{behind}" for number in range(1, count + 1))


def written(text: str, is_answer: bool = False) -> str:
    """How a text, a word or an answer is written in a row."""
    text = text.replace("<<", "<<<>><")
    for name in ("LF", "CR", "TAB", "BOM"):
        text = text.replace(NAMED[name], f"<<{name}>>")
    text = re.sub(r"[\0-\x1f\x7f]", lambda found: f"<<x{ord(found[0]):02X}>>", text)
    mark, first = ("=>", "$") if is_answer else ("with", "#|$")
    text = re.sub(rf"(?:^|(?<= ))(?={mark}(?: |$))|^(?={first})", "<<>>", text)
    return re.sub(r"^(?= )|(?<= )$", "<<>>", text)


def row_written(text: str, words: Iterable[str], answer: str) -> str:
    """The line of a row, of which an answer `!WORD` is an error."""
    answer = re.sub(r"^!(?=[a-z]+$)", "error: ", answer)
    return " with ".join(map(written, [text, *words])) + " => " + written(answer, is_answer=True)


class Reader:
    """Reads the lines of a file, or of a block of a page, which has no comments or sections."""

    def __init__(self, path: str, is_page: bool) -> None:
        self.path, self.is_page = path, is_page
        self.kind = ""
        self.common: list[str] = []
        # The lines of the text that is read, the number of the first, and the answer's lines.
        self.text: list[str] = []
        self.begun = 0
        self.answer: list[str] | None = None

    def take(self, number: int, line: str) -> Iterator[Row]:
        """Reads a line, and yields the row that it ends."""
        if self.answer is not None:
            if line.startswith("    "):
                self.answer.append(line[4:])
                return
            yield self.row("\n".join(self.answer))
        if not line.strip():
            self.end_paragraph()
        elif self.text:
            yield from self.take_row(line)
        elif line.startswith("#") and not self.is_page:
            self.take_heading(number, line)
        elif line.startswith("with "):
            self.common.append(line.removeprefix("with "))
        else:
            self.begun = number
            yield from self.take_row(line)

    def take_row(self, line: str) -> Iterator[Row]:
        """Reads a line of a text, up to the last arrow."""
        front, arrow, answer = (line + " ").rpartition(" => ")
        self.text.append(front if arrow else line)
        if arrow and answer.strip():
            yield self.row(answer.rstrip(" "))
        elif arrow:
            self.answer = []

    def row(self, answer: str) -> Row:
        text, *words = "\n".join(self.text).rstrip(" ").split(" with ")
        self.text, self.answer = [], None
        return Row(self.path, self.begun, self.kind, text, (*self.common, *words), answer)

    def take_heading(self, number: int, line: str) -> None:
        """Reads a comment, or the heading of a section."""
        found = re.match(r"## (?:%(\w+)(?: |$))?", line)
        if not found:
            return
        self.kind, self.common = found[1] or "", []
        if self.kind not in KINDS:
            raise Fault(f"{self.path}:{number}: no kind: {self.kind}")

    def end_paragraph(self) -> None:
        if self.text:
            raise Fault(f"{self.path}:{self.begun}: no answer: {self.text[0]}")
        self.common = []


def read(
    path: str, lines: Iterable[str], first: int = 1, is_page: bool = False
) -> Iterator[Row]:
    """The rows of some lines, of which the first has a number."""
    reader = Reader(path, is_page)
    for number, line in enumerate([*lines, ""], first):
        yield from reader.take(number, line.rstrip("\n"))


def read_block(path: str, text: str, first: int) -> Iterator[Row]:
    """The rows of a block of a page, whose first line has a number."""
    return read(path, text.split("\n"), first, is_page=True)


def of_page(top: str, page: str) -> Iterator[tuple[str, Row]]:
    """The examples in the language of a page, each with the heading above it."""
    heading = ""
    with open(page, encoding="utf-8") as file:
        for it in blocks_of(enumerate(file.read().split("\n"), 1)):
            if it.kind == "heading":
                heading = it.text
            if it.language == "expr":
                for row in read_block(os.path.relpath(page, top), it.text, it.line + 1):
                    yield heading, row


def files(top: str) -> list[str]:
    """The files of rows: those that people write, and then those that scripts made."""
    return [
        *sorted(glob.glob(f"{top}/rows/*.rows")),
        *sorted(glob.glob(f"{top}/rows/generated/*.rows")),
    ]


def all_rows(top: str, is_wanted: Callable[[str], bool] = lambda kind: True) -> list[Row]:
    """The rows of all files whose kind is wanted."""
    found = []
    for path in files(top):
        with open(path, encoding="utf-8") as file:
            found += [row for row in read(os.path.relpath(path, top), file) if is_wanted(row.kind)]
    return found
