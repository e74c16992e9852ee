"""Makes the parts of files that the engine's enums decide."""

from __future__ import annotations

import dataclasses
import re
import textwrap
from collections.abc import Callable, Iterable

from .engine import LAST_KIND, TOP, Border, Unreadable, text_of, upper, word


@dataclasses.dataclass(frozen=True)
class Part:
    """A part of a file, between its begin and its end."""

    file: str
    name: str
    made: Callable[[Border, str], str]
    """Returns the text of the part, given the text that it has."""

    def pattern(self) -> re.Pattern[str]:
        sign = r" *(?:/\*|//|#)"
        begin = rf"^{sign} begin: {self.name}, by hosts/border\.py --write[^\n]*\n"
        return re.compile(rf"(?ms)({begin})(.*?)(^{sign} end: {self.name}\b)")

    def written(self, border: Border, text: str) -> str:
        """Returns a file's text with this part made anew."""
        found = self.pattern().findall(text)
        if len(found) != 1:
            raise Unreadable(
                f"{self.file} has {len(found)} parts {self.name!r} where it should have one"
            )
        return self.pattern().sub(lambda it: it[1] + self.made(border, it[2]) + it[3], text)


def enumerators(names: Iterable[str], old: str) -> list[str]:
    """Returns a line for each enumerator in C, with the comment that it has in the old text.

    Comments begin at one column. The last enumerator has no comma.
    """
    comments = dict(re.findall(r"(?m)^ *(\w+),? +(/\*.*\*/)$", old))
    signs = [f"{it}," for it in names]
    signs[-1] = signs[-1].rstrip(",")
    width = max(map(len, signs))
    return [f"    {it.ljust(width)} {comments.get(it.rstrip(','), '')}".rstrip() for it in signs]


def statuses_in_c(border: Border, old: str) -> str:
    names = [
        "EXPR_OK",
        *(f"EXPR_{upper(it)}" for it in border.statuses[1:] if not border.is_limit(it)),
    ]
    limits = [f"EXPR_LIMIT_{upper(it)}" for it in border.statuses if border.is_limit(it)]
    # (limits are behind all others, and their comments have a column of their own)
    lines = enumerators([*names, ""], old)[:-1] + enumerators(limits, old)
    return "\n".join(lines) + "\n"


def kinds_in_c(border: Border, old: str) -> str:
    return "\n".join(enumerators([f"EXPR_{upper(it)}" for it in border.value_kinds], old)) + "\n"


def asks_in_c(border: Border, old: str) -> str:
    return filled(", ".join(map(upper, border.asks)), "    ", "    ", 125)


def limits_in_c(border: Border, old: str) -> str:
    return f"enum {{ {', '.join(f'LIMIT_{upper(it)}' for it in border.limits)} }};\n"


def other_kinds_in_c(border: Border, old: str) -> str:
    first, *others = (f"KIND_{upper(it)}" for it in border.other_kinds)
    return f"enum {{ {', '.join([f'{first} = EXPR_{upper(LAST_KIND)} + 1', *others])} }};\n"


def words_in_c(array: str, names: Callable[[Border], list[str]]) -> Callable[[Border, str], str]:
    """Returns what makes an array of words in C."""
    front = f"static const char *const {array}[] = {{"

    def made(border: Border, old: str) -> str:
        words = ", ".join(f'"{word(it)}"' for it in names(border))
        return filled(f"{words}}};", front, " " * len(front), 132)

    return made


def asks_in_rust(border: Border, old: str) -> str:
    return "".join(f"    {it},\n" for it in border.asks)


def numbers_in_rust(
    numbers_of: Callable[[Border], dict[str, int]]
) -> Callable[[Border, str], str]:
    """Returns what sets the numbers of constants in Rust. The old text says which there are."""

    def made(border: Border, old: str) -> str:
        numbers = numbers_of(border)

        def numbered(it: re.Match[str]) -> str:
            if it[2] not in numbers:
                raise Unreadable(f"hosts/rust/src/raw.rs: the engine has no {it[2]}")
            return f"{it[1]}{numbers[it[2]]}"

        return re.sub(r"(pub const (\w+): u32 = )\d+", numbered, old)

    return made


def border_in_python(border: Border, old: str) -> str:
    named = {"_OK": "Done", "_SYNTAX": "Syntax", "_ASKS": "Asks", "_LIMITS": border.limits[0]}
    numbers = ", ".join(str(border.statuses.index(it)) for it in named.values())
    kinds = ", ".join(f"_{upper(it)}" for it in border.value_kinds)
    parts = [
        f"{', '.join(named)} = {numbers}\n",
        list_in_python("_STATUS", border.statuses),
        "# fmt: off\n",
        filled(f"{kinds}) = range({len(border.value_kinds)})", "(", " ", 96),
        "# fmt: on\n",
        list_in_python("_WORDS", border.value_kinds),
    ]
    return "".join(parts)


def list_in_python(name: str, names: list[str]) -> str:
    return f"{name} = [\n" + "".join(f'    "{word(it)}",\n' for it in names) + "]\n"


def filled(text: str, front: str, indent: str, width: int) -> str:
    lines = textwrap.wrap(
        text, width, initial_indent=front, subsequent_indent=indent, drop_whitespace=True
    )
    return "\n".join(lines) + "\n"


PARTS = [
    Part("hosts/c/border.h", "asks", asks_in_c),
    Part("hosts/c/border.h", "limits", limits_in_c),
    Part("hosts/c/border.h", "kinds", other_kinds_in_c),
    Part("hosts/c/exprlang.h", "statuses", statuses_in_c),
    Part("hosts/c/exprlang.h", "kinds", kinds_in_c),
    Part("hosts/rust/src/raw.rs", "asks", asks_in_rust),
    Part("hosts/rust/src/raw.rs", "statuses", numbers_in_rust(Border.status_numbers)),
    Part("hosts/rust/src/raw.rs", "kinds", numbers_in_rust(Border.kind_numbers)),
    Part("hosts/rust/src/raw.rs", "limits", numbers_in_rust(Border.limit_numbers)),
    Part("hosts/python/exprlang/_border.py", "numbers", border_in_python),
    Part(
        "hosts/python/native/engines.c", "statuses", words_in_c("STATUS", lambda it: it.statuses)
    ),
    Part("hosts/python/native/values.c", "kinds", words_in_c("KINDS", lambda it: it.value_kinds)),
]


def write(border: Border) -> int:
    """Makes all parts anew, says which files changed, and returns the status."""
    for part in PARTS:
        text = text_of(part.file)
        new = part.written(border, text)
        if new != text:
            (TOP / part.file).write_text(new, encoding="utf-8")
            print(f"border: {part.file}: {part.name}")
    return 0
