"""Finds the functions of a Rattle source, under the names that the prover gives them."""

from __future__ import annotations

import dataclasses
import re

TOKEN = re.compile(r"""//[^\n]*|"(?:\\.|[^"\\])*"|b?'(?:\\[^']+|[^'\\\n])'|[{};]|\bfn (?=\w)""")
"""What decides where a function ends, and comments and literals, in which it decides nothing."""

OPENS_CLAUSE = re.compile(r"\b(requires|ensures|decreases|ghost)\*?(\s+\w+:?)*\s*\Z")
"""The text before a brace that opens a clause, and not the body."""


@dataclasses.dataclass(frozen=True)
class Function:
    """A function with a body. All places are offsets in the text."""

    after: int
    """Where the function before it ends."""
    begin: int
    """Where its `fn` is."""
    end: int
    cycle: str
    """The name of its cycle of calls, which has one proof, or ""."""


def functions_in(text: str) -> dict[str, Function]:
    """Returns the functions of a file, each by its name in the module."""
    named, last = {}, 0
    for begin, end in bodies_in(text):
        name = re.match(r"fn (\w+)", text[begin:])
        cycle = re.search(r"#\[cycle\((\w+)\)\]", text[last:begin])
        holder = holder_at(text, begin)
        if name:
            path = "::".join([*([holder] if holder is not None else []), name[1]])
            named[path] = Function(last, begin, end, cycle[1] if cycle else "")
        last = end
    return named


def bodies_in(text: str) -> list[tuple[int, int]]:
    """Returns where each function with a body begins, at its `fn`, and ends."""
    found: list[tuple[int, int]] = []
    begin, depth, is_body, since = -1, 0, False, 0
    for token in TOKEN.finditer(text):
        sign = token[0]
        if sign == "fn " and begin < 0:
            begin, since = token.start(), token.end()
        elif begin >= 0 and sign == "{":
            if not depth:
                is_body = OPENS_CLAUSE.search(text[since : token.start()]) is None
            depth += 1
        elif begin >= 0 and sign == "}":
            depth -= 1
            if not depth:
                since = token.end()
            if not depth and is_body:
                found.append((begin, token.end()))
                begin = -1
        elif begin >= 0 and sign == ";" and not depth:
            begin = -1
    return found


def holder_at(text: str, place: int) -> str | None:
    """Returns what the prover calls the impl or trait around a place, or None if there is none."""
    heads = list(re.finditer(r"(?m)^(?:(impl\b|(?:pub )?trait )[^{]*|\})", text[:place]))
    return holder_of(heads[-1][0]) if heads and heads[-1][1] else None


def holder_of(head: str) -> str:
    """Returns what the prover calls an impl or a trait with this head.

    That is its type and then its trait, with `Ref` for a reference and `Dyn` for an object. The
    impl's own parameters are left out, unless nothing else is left.
    """
    head = re.sub(r"'\w+ ?", "", head.split(" where ")[0].rstrip(" {"))
    own: list[str] = []
    if head.startswith("impl<"):
        end = end_of_parameters(head)
        own = re.findall(r"(?:^|, ?)(\w+)", head[len("impl<") : end])
        head = "impl" + head[end + 1 :]
    head = re.sub(r"^(pub )?(impl|trait) ", "", head)
    trait, _, kind = head.rpartition(" for ")
    if trait and trait != "Drop":
        return "".join((words_of(kind, own) or ["Any"]) + words_of(trait, own))
    names = words_of(kind, own)
    if len(names) != 1:
        names = words_of(kind, [])
    return "+".join("ref" if it == "Ref" else it for it in names)


def end_of_parameters(head: str) -> int:
    """Returns where the `>` is that ends the parameters of `impl<`."""
    depth, at = 0, 0
    for at, sign in enumerate(head):
        depth += (sign == "<") - (sign == ">")
        if sign == ">" and not depth:
            break
    return at


def words_of(text: str, left_out: list[str]) -> list[str]:
    """Returns the words of a type without paths, each with a capital. Some are left out."""
    text = text.replace("&mut ", "RefMut ").replace("&", "Ref ")
    words = re.findall(r"\w+", re.sub(r"\w+::", "", text))
    return [it[0].upper() + it[1:] for it in words if it not in left_out]
