#!/usr/bin/env python3
"""Writes programs in the normal form, over the libraries in hosts/out, and compiles that again.

    tools/texts.py [ROWS] [TREES]    every ROWS-th expression of rows/, and so many random ones; 20 and 2000 where nothing is
                                     said. All of them are `tools/texts.py 1 100000`

Of each expression that compiles, the normal form must compile to the same program: its own normal form is the same, and in the
row's context it comes to the same value or error. Its tree must be no higher, by the limit `nesting`. No pair of its brackets may
be left out. And however else a random expression is written, with more brackets and other spaces and signs, its normal form is the
same. The status is 1 if anything differs.
"""
from __future__ import annotations

import ctypes
import os
import random
import re
import sys
from collections.abc import Iterator
from typing import Any

TOP = os.path.realpath(os.path.join(os.path.dirname(os.path.abspath(__file__)), ".."))
sys.dont_write_bytecode = True
import rows  # noqa: E402

EXPR_Z = 2**64 - 1
NESTING_LIMIT, MOST_HEIGHT = 10, 2**31


class Handle(ctypes.Structure):
    _fields_ = [("tag", ctypes.c_uint32), ("place", ctypes.c_uint32), ("number", ctypes.c_uint64)]


class Limits(ctypes.Structure):
    _fields_ = [
        ("struct_size", ctypes.c_size_t),
        *[(name, ctypes.c_int64) for name in ("nesting", "patterns", "steps", "depth", "size")],
    ]


NONE = Handle(0, 0, 2**64 - 1)
SIZE, POINTER, TEXT = ctypes.c_size_t, ctypes.c_void_p, ctypes.c_char_p
TAKES: dict[str, list[Any]] = {
    "compile": [TEXT, SIZE, ctypes.POINTER(Handle), POINTER],
    "program_text": [Handle, ctypes.POINTER(SIZE), ctypes.POINTER(POINTER)],
    "run": [Handle, Handle, Handle, POINTER],
    "eval": [TEXT, SIZE, Handle, Handle, POINTER],
    "set_looked": [Handle, TEXT, SIZE],
    "set_limits": [ctypes.POINTER(Limits)],
    "context_new": [ctypes.POINTER(Handle)],
    "drop_program": [Handle],
    "drop_context": [Handle],
}


class Engine:
    """An engine of libexprlang.so.0, with the limits for untrusted expressions, but for nesting."""

    def __init__(self) -> None:
        self.library = ctypes.CDLL(f"{TOP}/hosts/out/lib/libexprlang.so.0")
        self.library.expr_open.restype = POINTER
        self.library.expr_shown.argtypes = [POINTER, ctypes.POINTER(SIZE)]
        self.library.expr_shown.restype = POINTER
        for name, takes in TAKES.items():
            getattr(self.library, f"expr_{name}").argtypes = [POINTER, *takes]
        self.at = self.library.expr_open()
        self.bound(MOST_HEIGHT)

    def ask(self, name: str, *words: object) -> int:
        status: int = getattr(self.library, f"expr_{name}")(self.at, *words)
        return status

    def bound(self, nesting: int) -> None:
        limits = Limits(ctypes.sizeof(Limits), nesting, 100_000, 1_000_000, 1_000, 1_000_000)
        if self.ask("set_limits", ctypes.byref(limits)):
            sys.exit("texts: no limits are set")

    def compiled(self, text: bytes) -> tuple[int, Handle]:
        program = Handle()
        return self.ask("compile", text, len(text), ctypes.byref(program), None), program

    def normal(self, program: Handle) -> bytes:
        """A program in the normal form."""
        length, text = SIZE(), POINTER()
        if self.ask("program_text", program, ctypes.byref(length), ctypes.byref(text)):
            sys.exit("texts: a program has no text")
        return ctypes.string_at(text.value or 0, length.value)

    def form(self, text: bytes) -> bytes | None:
        """The normal form of an expression, or None if it is none."""
        status, program = self.compiled(text)
        if status:
            return None
        form = self.normal(program)
        self.ask("drop_program", program)
        return form

    def fits(self, text: bytes, nesting: int) -> bool:
        """Whether the tree of an expression is at most so high."""
        self.bound(nesting)
        status, program = self.compiled(text)
        self.ask("drop_program", program)
        self.bound(MOST_HEIGHT)
        return status != NESTING_LIMIT

    def height(self, text: bytes) -> int:
        """The least nesting within which an expression compiles."""
        low, high = 0, 1
        while not self.fits(text, high):
            low, high = high, 2 * high
        while high - low > 1:
            middle = (low + high) // 2
            low, high = (low, middle) if self.fits(text, middle) else (middle, high)
        return high

    def value(self, text: bytes, names: list[tuple[bytes, bytes]]) -> tuple[int, bytes]:
        """How a run ends, and what its value prints."""
        context = Handle()
        self.ask("context_new", ctypes.byref(context))
        for name, code in names:
            if self.ask("eval", code, len(code), NONE, NONE, None) == 0:
                self.ask("set_looked", context, name, len(name))
        status = self.ask("eval", text, len(text), NONE, context, None)
        length = SIZE()
        shown = self.library.expr_shown(self.at, ctypes.byref(length)) if status == 0 else None
        self.ask("drop_context", context)
        return status, ctypes.string_at(shown, length.value) if shown else b""


class Fault(Exception):
    """What differs."""


def check(engine: Engine, text: bytes) -> bytes | None:
    """Checks the normal form of an expression, and returns it. It is None if this is no expression."""
    form = engine.form(text)
    if form is None:
        return None
    again = engine.form(form)
    if again != form:
        raise Fault(f"the normal form is another program: {form!r}, {again!r}")
    if len(text) < 10_000 and not engine.fits(form, engine.height(text)):
        raise Fault(f"the normal form is higher: {form!r}")
    return form


TOKEN = re.compile(rb'b?"(?:\\.|[^"\\])*"|[#$\w]+|[()]|.', re.S)
BEFORE_BRACKETS = re.compile(rb"(and|or|not|in|contains|startsWith|endsWith|matches|let|if|else|true|false|nil)$")


def pairs(form: bytes) -> Iterator[tuple[int, int]]:
    """Where the brackets stand in a normal form, without those of calls."""
    opened: list[tuple[int, bool]] = []
    before = b""
    for found in TOKEN.finditer(form):
        token = found[0]
        if token == b"(":
            # a space, a sign or a reserved word is before those of no call
            is_call = bool(re.match(rb"[$\w]", before)) and not BEFORE_BRACKETS.match(before)
            opened.append((found.start(), is_call))
        elif token == b")":
            start, is_call = opened.pop()
            if not is_call:
                yield start, found.start()
        before = token


def check_brackets(engine: Engine, form: bytes) -> None:
    """Checks that no pair of brackets may be left out."""
    for start, end in pairs(form):
        less = form[:start] + form[start + 1 : end] + form[end + 1 :]
        if engine.form(less) == form:
            raise Fault(f"brackets too many: {form!r}, {less!r}")


INFIX = [["or", "||"], ["and", "&&"], ["=="], ["!="], ["<"], ["<="], [">"], [">="], ["in"], ["not in"], ["contains"]]
INFIX += [["startsWith"], ["endsWith"], ["matches"], [".."], ["+"], ["-"], ["*"], ["/"], ["%"], ["^", "**"], ["??"]]
PREFIX = [["not ", "!", "! "], ["-"], ["+"]]
NAMES = ["a", "b", "xs", "_c", "$d", "long_name", "$env"]
KEYS = ["a", "b9", "if", "not", "in", "b c", "9", "", 'say "so"', "é", "back\\slash", "line\nend"]
CALLS = ["f", "len", "upper", "max"]
PREDICATES = ["filter", "map", "all", "any", "count", "sum", "sortBy", "groupBy", "find"]
SPACES = ["", "", " ", "  ", "\n", "\t", " /* a comment */ ", " // to the end\n"]

# A node: its kind, and its parts, each a node, a list of nodes, a string or None.
Node = tuple[Any, ...]


def leaf(dice: random.Random, item: bool) -> Node:
    kind = dice.randrange(9)
    if kind < 3:
        return ("name", dice.choice(NAMES))
    if kind == 3 and item:
        return ("name", dice.choice(["#", "#", "#acc", "#index"]))
    if kind < 6:
        return ("integer", dice.choice([0, 1, 2, 7, 10, 255, 4096, 2**63 - 1]))
    if kind == 6:
        return ("word", dice.choice(["nil", "true", "false"]))
    return ("string", dice.choice(KEYS)) if kind == 7 else ("bytes", dice.choice([b"", b"a", b'"\\', b"\0\xff\n"]))


def tree(dice: random.Random, depth: int, item: bool = False) -> Node:
    """A random tree. `item` says whether it stands in a predicate."""
    if depth == 0 or dice.randrange(12) == 0:
        return leaf(dice, item)

    def part(is_item: bool = item) -> Node:
        return tree(dice, depth - 1 if dice.randrange(3) else dice.randrange(depth), is_item)

    def parts(most: int) -> list[Node]:
        return [part() for _ in range(dice.randrange(most + 1))]

    kind = dice.randrange(20)
    if kind < 6:
        return ("infix", dice.choice(INFIX), part(), part())
    if kind < 8:
        return ("prefix", dice.choice(PREFIX), part())
    if kind == 8:
        return ("ternary", part(), part(), part())
    if kind == 9:
        return ("if", part(), block(dice, depth, item), block(dice, depth, item))
    if kind < 12:
        return ("member", part(), dice.random() < 0.3, dice.choice(KEYS))
    if kind == 12:
        return ("index", part(), dice.random() < 0.3, part())
    if kind == 13:
        return ("slice", part(), part() if dice.randrange(3) else None, part() if dice.randrange(3) else None)
    if kind == 14:
        return ("method", part(), dice.choice(["Add", "Year", "if"]), parts(2))
    if kind == 15:
        return ("array", parts(3))
    if kind == 16:
        return ("map", [(dice.choice(KEYS), part()) for _ in range(dice.randrange(4))])
    if kind == 17:
        return ("call", dice.choice(CALLS), parts(3))
    if kind == 18:
        return ("predicate", dice.choice(PREDICATES), part(), block(dice, depth, True))
    call = ("call", dice.choice(CALLS), parts(2)) if dice.randrange(2) else ("predicate", "filter", None, block(dice, depth, True))
    return ("pipe", part(), call)


def block(dice: random.Random, depth: int, item: bool) -> Node:
    """Up to two lines and an expression."""
    lines = [(dice.choice(NAMES[:4]), tree(dice, depth - 1, item)) for _ in range(dice.choice([0, 0, 0, 1, 2]))]
    return ("block", lines, tree(dice, depth - 1, item))


class Writer:
    """Writes trees. Every operand is in brackets, but for `loose` ones of these."""

    def __init__(self, dice: random.Random, loose: float) -> None:
        self.dice, self.loose = dice, loose

    def blank(self) -> str:
        return self.dice.choice(SPACES)

    def space(self) -> str:
        return self.blank() or " "

    def operand(self, it: Node) -> str:
        if self.dice.random() < self.loose:
            return self.node(it)
        return f"({self.blank()}{self.node(it)}{self.blank()})"

    def apart(self, it: Node) -> str:
        """A node where brackets change nothing."""
        return self.operand(it) if self.dice.randrange(4) == 0 else self.node(it)

    def row(self, items: list[Node]) -> str:
        text = ",".join(f"{self.blank()}{self.apart(item)}{self.blank()}" for item in items)
        return text + ("," if items and self.dice.randrange(8) == 0 else "")

    def key(self, key: str) -> str:
        is_word = re.fullmatch("[A-Za-z_$][A-Za-z0-9_$]*", key) and self.dice.randrange(2)
        return key if is_word else self.quoted(key, "\"'")

    def quoted(self, text: str, marks: str = "\"'`") -> str:
        mark = self.dice.choice(marks)
        if mark == "`":
            return f"`{text}`"
        escaped = "".join({"\\": "\\\\", "\n": "\\n", mark: '\\"'}.get(c, c) for c in text)
        return mark + escaped + mark

    def integer(self, n: int) -> str:
        return format(n, self.dice.choice(["d", "#x", "#o", "#b", "_"]))

    def octets(self, content: bytes) -> str:
        plain = (chr(b) if 32 <= b < 127 and b not in b"\"'\\" else f"\\x{b:02X}" for b in content)
        return f'b"{"".join(plain)}"'

    def block(self, it: Node) -> str:
        _, lines, last = it
        text = "".join(f"let{self.space()}{name}{self.blank()}={self.blank()}{self.apart(value)};{self.blank()}" for name, value in lines)
        return text + self.apart(last)

    def node(self, it: Node) -> str:
        kind, *parts = it
        written: str = getattr(self, f"write_{kind}")(*parts)
        return written

    def write_name(self, name: str) -> str:
        return name

    write_word = write_name

    def write_integer(self, n: int) -> str:
        return self.integer(n)

    def write_string(self, text: str) -> str:
        return self.quoted(text)

    def write_bytes(self, content: bytes) -> str:
        return self.octets(content)

    def write_infix(self, signs: list[str], left: Node, right: Node) -> str:
        return f"{self.operand(left)}{self.space()}{self.dice.choice(signs)}{self.space()}{self.operand(right)}"

    def write_prefix(self, signs: list[str], it: Node) -> str:
        return f"{self.dice.choice(signs)}{self.blank()}{self.operand(it)}"

    def write_ternary(self, condition: Node, first: Node, second: Node) -> str:
        return f"{self.operand(condition)} ?{self.space()}{self.operand(first)}{self.space()}:{self.space()}{self.operand(second)}"

    def write_if(self, condition: Node, first: Node, second: Node) -> str:
        return f"if{self.space()}{self.operand(condition)}{self.blank()}{{{self.block(first)}}}{self.blank()}else{self.space()}{{{self.block(second)}}}"

    def write_member(self, it: Node, optional: bool, key: str) -> str:
        if re.fullmatch("[A-Za-z_$][A-Za-z0-9_$]*", key) and self.dice.randrange(2):
            is_field = it == ("name", "#") and not optional and self.dice.randrange(2) == 0
            return f"{'' if is_field else self.operand(it)}{'?.' if optional else '.'}{key}"
        return f"{self.operand(it)}{'?.' if optional else ''}[{self.blank()}{self.quoted(key)}{self.blank()}]"

    def write_index(self, it: Node, optional: bool, key: Node) -> str:
        return f"{self.operand(it)}{'?.' if optional else ''}[{self.blank()}{self.apart(key)}{self.blank()}]"

    def write_slice(self, it: Node, start: Node | None, end: Node | None) -> str:
        bounds = ["" if bound is None else self.operand(bound) for bound in (start, end)]
        return f"{self.operand(it)}[{bounds[0]}{self.space()}:{self.space()}{bounds[1]}]"

    def write_method(self, it: Node, name: str, arguments: list[Node]) -> str:
        return f"{self.operand(it)}.{name}({self.row(arguments)})"

    def write_array(self, items: list[Node]) -> str:
        return f"[{self.row(items)}]"

    def write_map(self, entries: list[tuple[str, Node]]) -> str:
        written = ",".join(f"{self.blank()}{self.key(key)}{self.blank()}:{self.blank()}{self.apart(value)}" for key, value in entries)
        return f"{{{written}}}"

    def write_call(self, name: str, arguments: list[Node]) -> str:
        return f"{name}({self.row(arguments)})"

    def write_predicate(self, name: str, items: Node | None, it: Node) -> str:
        before = "" if items is None else f"{self.blank()}{self.apart(items)},"
        # An argument where `#` stands free is the predicate without braces too.
        is_free = not it[1] and it[2][0] == "infix" and ("name", "#") in it[2] and self.dice.randrange(2) == 0
        predicate = self.apart(it[2]) if is_free else f"{{{self.block(it)}}}"
        return f"{name}({before}{self.blank()}{predicate}{self.blank()})"

    def write_pipe(self, it: Node, call: Node) -> str:
        return f"{self.operand(it)}{self.space()}|{self.space()}{self.node(call)}"


def check_rows(engine: Engine, step: int) -> tuple[int, int]:
    """Checks every so-manieth row that is an expression. Returns how many compiled, and the differences."""
    found = sorted(rows.all_rows(TOP, {"", "text", "program"}.__contains__), key=lambda row: row.place())
    checked = faults = 0
    for row in found[::step]:
        text, *words = (rows.expanded(part).encode("utf-8", "surrogateescape") for part in (row.text, *row.words))
        names = [(name, code) for name, _, code in (word.partition(b"=") for word in words)] if row.kind == "" else []
        try:
            form = check(engine, text)
            if form is None:
                continue
            checked += 1
            if len(form) < 10_000:
                check_brackets(engine, form)
            if row.kind == "" and engine.value(form, names) != engine.value(text, names):
                raise Fault(f"another value: {form[:200]!r}")
        except Fault as fault:
            faults += 1
            print(f"texts: {row.place()}: {fault!s:.400}")
    return checked, faults


def check_trees(engine: Engine, count: int) -> tuple[int, int]:
    """Checks random trees, by seeds from 0 on. Returns how many expressions were compiled, and the differences."""
    checked = faults = 0
    for seed in range(count):
        dice = random.Random(seed)
        it = ("block", [], tree(dice, 1 + dice.randrange(6))) if dice.randrange(4) else block(dice, 1 + dice.randrange(5), False)
        texts = [Writer(dice, loose).block(it).encode() for loose in (0, 0, 0.5)]
        try:
            forms = [check(engine, text) for text in texts]
            if forms[0] is None or forms[0] != forms[1]:
                raise Fault(f"two ways to write a program: {texts[0]!r}, {texts[1]!r}: {forms[0]!r}, {forms[1]!r}")
            for form in forms[1:]:
                if form is not None:
                    check_brackets(engine, form)
            checked += sum(form is not None for form in forms)
        except Fault as fault:
            faults += 1
            print(f"texts: seed {seed}: {fault!s:.400}")
    return checked, faults


def main(words: list[str]) -> int:
    if not all(word.isdecimal() for word in words) or len(words) > 2:
        print((__doc__ or "").strip())
        return 0 if words in (["--help"], ["-h"]) else 2
    step, count = [*map(int, words), *[20, 2000][len(words) :]]
    engine = Engine()
    by_rows, by_trees = check_rows(engine, max(step, 1)), check_trees(engine, count)
    print(f"texts: {by_rows[0]} rows and {by_trees[0]} random expressions of {count} trees, {by_rows[1] + by_trees[1]} faults")
    return by_rows[1] + by_trees[1] > 0


if __name__ == "__main__":
    sys.exit(main(sys.argv[1:]))
