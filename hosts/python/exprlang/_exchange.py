"""How values cross to an engine and back, in loops, so that deep values need no stack."""

from __future__ import annotations

import ctypes
from collections.abc import Callable
from typing import Any

from ._border import (
    _ARRAY,
    _BOOL,
    _BYTES,
    _DATETIME,
    _DURATION,
    _INTEGER,
    _MAP,
    _MONTH,
    _NIL,
    _STRING,
    _TIMEZONE,
    _WEEKDAY,
    _WORDS,
)
from ._engine import Engine, no_stack
from ._errors import Unfit
from ._library import LIBRARY, _Answer, _Handle
from ._values import (
    Key,
    Month,
    Weekday,
    bad_key,
    key_of,
    length_of,
    located,
    map_of,
    moment_of,
    simplified,
    too_deep,
    utf8,
    within,
)

_DEEPEST = 1_000
"""How many levels a value may have that is handed in, as native/values.c has it too."""


class _Level:
    """An array or a map that is handed in: its parts, and the call that makes it of them."""

    def __init__(self, parts: tuple[Any, ...], is_map: bool) -> None:
        self.parts, self.is_map = parts, is_map
        self.count = 0

    def goes_on(self) -> bool:
        """Goes to the next part. Returns whether there is one."""
        self.count += 1
        return self.count <= len(self.parts)

    def part(self) -> Any:
        """Returns the part."""
        return self.parts[self.count - 1]

    def awaits_value(self) -> bool:
        """Whether the part is a key, whose value comes next."""
        return self.is_map and self.count % 2 == 1

    def step(self) -> tuple[int, Any]:
        """Returns where the part is, as `located` takes it."""
        number = self.count - 1
        return (1, self.parts[number - number % 2]) if self.is_map else (0, number)

    def make(self, engine: Engine) -> None:
        """Makes it of the parts, which are built."""
        if self.is_map:
            engine.ask(LIBRARY.make_map, len(self.parts) // 2)
        else:
            engine.ask(LIBRARY.make_array, len(self.parts))


def build(engine: Engine, value: Any, what: str) -> None:
    """Builds a value in an engine. An exception says where the fault is, from what it is on."""
    engine.builds = True
    levels: list[_Level] = []
    try:
        _build(engine, value, levels)
    except Unfit as fault:
        steps = [level.step() for level in levels[:8]]
        raise located(fault, engine.origin + what, steps, len(levels) > 8) from None


def put(engine: Engine, context: _Handle, name: str, value: Any) -> None:
    """Puts a value under a name of an engine's context."""
    word = utf8(name)
    build(engine, value, name)
    engine.ask(LIBRARY.set_built, context, word, len(word))
    engine.builds = False


def _build(engine: Engine, value: Any, levels: list[_Level]) -> None:
    while True:
        level = _push(engine, value, bool(levels) and levels[-1].awaits_value())
        if level is not None:
            if len(levels) == _DEEPEST:
                raise too_deep(_DEEPEST)
            levels.append(level)
        while levels and not levels[-1].goes_on():
            levels.pop().make(engine)
        if not levels:
            return
        value = levels[-1].part()


def _push(engine: Engine, value: Any, is_key: bool) -> _Level | None:
    """Builds a scalar, or returns the level of an array or a map."""
    if type(value) is int:
        engine.ask(LIBRARY.push_integer, within(value, -(2**63), 2**63 - 1, "an integer"))
        return None
    kind, what, past = simplified(value)
    if is_key and kind in (_BYTES, _ARRAY, _MAP):
        raise bad_key(value)
    if kind in (_ARRAY, _MAP):
        return _Level(what, kind == _MAP)
    if kind == _STRING:
        engine.ask(LIBRARY.push_string, what, len(what))
    elif kind == _BYTES:
        engine.ask(LIBRARY.push_bytes, what, len(what))
    elif kind == _NIL:
        engine.ask(LIBRARY.push_nil)
    elif kind == _DATETIME:
        engine.ask(LIBRARY.push_datetime, what, past)
    else:
        engine.ask(_PUSHES[kind], what)
    return None


_PUSHES: dict[int, Callable[..., int]] = {
    _BOOL: LIBRARY.push_bool,
    _INTEGER: LIBRARY.push_integer,
    _DURATION: LIBRARY.push_duration,
    _MONTH: LIBRARY.push_month,
    _WEEKDAY: LIBRARY.push_weekday,
}


class _Made:
    """An array or a map that is being read."""

    def __init__(self, kind: int, count: int) -> None:
        self.kind, self.count = kind, count
        self.keys: list[Key] = []
        self.parts: list[Any] = []

    def value(self) -> Any:
        return self.parts if self.kind == _ARRAY else map_of(self.keys, self.parts)


def read(engine: Engine) -> Any:
    """Returns the value that the engine looks at. Its answer says the kind."""
    answer, ask, down, up = engine.answer, engine.ask, LIBRARY.down, LIBRARY.up
    levels: list[_Made] = []
    while True:
        if answer.kind >= _ARRAY:
            levels.append(_Made(answer.kind, answer.number))
        elif levels:
            levels[-1].parts.append(_scalar(answer))
            ask(up, None)
        else:
            return _scalar(answer)
        while len(levels[-1].parts) == levels[-1].count:
            value = levels.pop().value()
            if not levels:
                return value
            levels[-1].parts.append(value)
            ask(up, None)
        number = len(levels[-1].parts)
        if levels[-1].kind != _ARRAY:
            ask(LIBRARY.key, number, engine.to_answer)
            levels[-1].keys.append(_read_key(answer))
        ask(down, number, engine.to_answer)


def _scalar(answer: _Answer) -> Any:
    """Returns the scalar of an answer."""
    kind, number = answer.kind, answer.number
    if kind == _BOOL:
        return bool(number)
    if kind == _INTEGER:
        return number
    if kind == _STRING:
        return _octets(answer, number).decode()
    if kind == _BYTES:
        return _octets(answer, number)
    if kind == _TIMEZONE:
        return _octets(answer, -1).decode()
    if kind == _DURATION:
        return length_of(number)
    if kind == _DATETIME:
        return moment_of(number, answer.fraction)
    if kind == _MONTH:
        return Month(number)
    return Weekday(number) if kind == _WEEKDAY else None


def _octets(answer: _Answer, length: int) -> bytes:
    """Returns the bytes of an answer, so many or up to a zero byte."""
    try:
        return ctypes.string_at(answer.text, length)
    except ctypes.ArgumentError as fault:
        raise no_stack() from fault


def _read_key(answer: _Answer) -> Key:
    """Returns the key of an answer."""
    past = {_DURATION: answer.number, _DATETIME: answer.fraction}.get(answer.kind, 0)
    return key_of(_WORDS[answer.kind], _scalar(answer), past)
