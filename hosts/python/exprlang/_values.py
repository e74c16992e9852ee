"""Values of the language in Python."""

from __future__ import annotations

import dataclasses
import datetime
import inspect
import numbers
import operator
from collections.abc import Iterable, Iterator, Mapping, Sequence
from itertools import chain
from typing import Any

from ._border import (
    _ARRAY,
    _BOOL,
    _BYTES,
    _DATETIME,
    _DURATION,
    _INTEGER,
    _MAP,
    _MONTH,
    _NIL,
    _STRING,
    _WEEKDAY,
)
from ._errors import Unfit

EPOCH = datetime.datetime(1970, 1, 1, tzinfo=datetime.timezone.utc)
_MICROSECOND = datetime.timedelta(microseconds=1)
_LAST_SECOND = 253402207200  # of year 9999, as the language has it


class _Ordinal(int):
    """A number that says what it counts when it is shown."""

    def __repr__(self) -> str:
        return f"{type(self).__name__}({int(self)})"

    def __str__(self) -> str:
        return int.__repr__(self)


class Month(_Ordinal):
    """A month of the language, from 1 to 12. It is an int, and equals the int of its number.

    One out of this range is an OverflowError when it is handed in.

    >>> exprlang.evaluate('date("2024-03-05").Month()')
    Month(3)
    >>> exprlang.evaluate('m == date("2024-03-05").Month()', {"m": exprlang.Month(3)})
    True
    """


class Weekday(_Ordinal):
    """A day of the week of the language, from 0, which is Sunday, to 6. It is an int, and equals
    the int of its number.

    One out of this range is an OverflowError when it is handed in.

    >>> exprlang.evaluate('date("2024-03-05").Weekday()')
    Weekday(2)
    """


@dataclasses.dataclass(frozen=True)
class Key:
    """A key of a KeyedMap: a scalar with its kind, so that `1` and `true` are two keys.

    `kind` is "nil", "bool", "integer", "string", "duration", "datetime", "timezone", "month" or
    "weekday". `value` is the scalar in Python. `nanosecond` is what a Duration or a DateTime has
    past its last microsecond, from 0 to 999.

    >>> exprlang.Key("integer", 1) == exprlang.Key("bool", True)
    False
    """

    kind: str
    value: Any
    nanosecond: int = 0


# in this order: a bool, a Month and a Weekday are ints too
_KINDS: list[tuple[type, str]] = [
    (type(None), "nil"),
    (bool, "bool"),
    (Month, "month"),
    (Weekday, "weekday"),
    (int, "integer"),
    (str, "string"),
    (bytes, "bytes"),
    (datetime.timedelta, "duration"),
    (datetime.datetime, "datetime"),
]


def _key(value: Any) -> Key:
    """Returns the key that a scalar of Python stands for."""
    if isinstance(value, Key):
        return value
    for kind, word in _KINDS:
        if isinstance(value, kind):
            return Key(word, value)
    raise TypeError(f"a key of a KeyedMap is a scalar or a Key, not {type(value).__name__}")


class KeyedMap(Mapping[Any, Any]):
    """A map of the language that a dict can't hold, since some of its keys are one in Python.

    These are one in a dict and two in the language:

    - `1` and `true`
    - an integer and a month or a day of the week
    - a string and a zone of that name
    - durations or DateTimes that differ in nanoseconds

    A map with such keys comes back as a KeyedMap, and any other as a dict.

    It is a Mapping, in the order of the language, and its keys are Keys. You may ask with a plain
    key too, which finds its own kind. You can hand a KeyedMap in, but for zones.

    Errors: KeyError for a key that isn't there, TypeError for what is no scalar.

    >>> pairs = exprlang.evaluate('fromPairs([[1, "a"], [true, "b"]])')
    >>> pairs[1], pairs[True], len(pairs)
    ('a', 'b', 2)
    >>> list(pairs)
    [Key(kind='integer', value=1, nanosecond=0), Key(kind='bool', value=True, nanosecond=0)]
    >>> exprlang.evaluate("x[true]", {"x": exprlang.KeyedMap([(1, "a"), (True, "b")])})
    'b'
    """

    def __init__(self, pairs: Iterable[tuple[Any, Any]] = ()) -> None:
        self._pairs = {_key(key): value for key, value in pairs}

    def __getitem__(self, key: Any) -> Any:
        return self._pairs[_key(key)]

    def __iter__(self) -> Iterator[Key]:
        return iter(self._pairs)

    def __len__(self) -> int:
        return len(self._pairs)

    def __repr__(self) -> str:
        return f"KeyedMap({list(self._pairs.items())!r})"


def map_of(keys: list[Key], values: list[Any]) -> Any:
    """Returns a dict of these pairs, or a KeyedMap where a dict would lose some."""
    pairs = dict(zip([key.value for key in keys], values))
    return pairs if len(pairs) == len(keys) else KeyedMap(zip(keys, values))


def within(number: int, least: int, most: int, what: str) -> int:
    """Returns a number that crosses to C, which would cut it to its bits in silence."""
    if not least <= number <= most:
        raise Unfit(OverflowError, f"{what} is from {least} to {most}, not {number}")
    return number


def utf8(text: str) -> bytes:
    """Returns the bytes of a string."""
    try:
        return text.encode()
    except UnicodeEncodeError as fault:
        raise Unfit(
            ValueError, f"the string has no UTF-8: half of a surrogate pair is at {fault.start}"
        ) from None


def nanoseconds(length: datetime.timedelta) -> int:
    """Returns the nanoseconds of a length of time."""
    number = length // _MICROSECOND * 1000
    if not -(2**63) <= number < 2**63:
        raise Unfit(OverflowError, f"a length of time is within 292 years, which {length} is not")
    return number


def instant(moment: datetime.datetime) -> tuple[int, int]:
    """Returns the second of a datetime since 1970 began, and the nanoseconds past that."""
    if moment.utcoffset() is None:
        why = "a datetime needs an offset, as in time.replace(tzinfo=datetime.timezone.utc)"
        raise Unfit(TypeError, why)
    second, past = divmod((moment - EPOCH) // _MICROSECOND, 1_000_000)
    if second > _LAST_SECOND:
        raise Unfit(
            OverflowError,
            f"the last DateTime of the language is 9999-12-30T22:00:00Z, which is before {moment}",
        )
    return second, past * 1000


def length_of(number: int) -> datetime.timedelta:
    """Returns the length of time of so many nanoseconds."""
    return datetime.timedelta(microseconds=number // 1000)


def moment_of(second: int, nanosecond: int) -> datetime.datetime:
    """Returns the datetime of a second since 1970 began, and the nanoseconds past that."""
    try:
        return EPOCH + datetime.timedelta(seconds=second, microseconds=nanosecond // 1000)
    except OverflowError:
        raise OverflowError(
            "the value has a DateTime before the year 1 or after 9999, which Python can't hold"
        ) from None


def simplified(value: Any) -> tuple[int, Any, int]:
    """Returns the kind of a value that is handed in, what it is made of, and for a DateTime the
    nanoseconds past its second. Arrays and maps are made of their parts as they are now, of maps
    keys and values by turns.
    """
    if isinstance(value, str):
        return _STRING, utf8(value), 0
    if isinstance(value, bool):
        return _BOOL, int(value), 0
    if value is None:
        return _NIL, 0, 0
    if isinstance(value, Month):
        return _MONTH, within(value, 1, 12, "a month"), 0
    if isinstance(value, Weekday):
        return _WEEKDAY, within(value, 0, 6, "a day of the week"), 0
    if isinstance(value, (bytes, bytearray, memoryview)):
        return _BYTES, bytes(value), 0
    if isinstance(value, datetime.timedelta):
        return _DURATION, nanoseconds(value), 0
    if isinstance(value, datetime.datetime):
        return (_DATETIME, *instant(value))
    if isinstance(value, Key):
        return _simplified_key(value)
    if isinstance(value, Mapping):
        return _MAP, tuple(chain.from_iterable(_pair(*pair) for pair in list(value.items()))), 0
    if isinstance(value, Sequence):
        return _ARRAY, tuple(value), 0
    if hasattr(type(value), "__index__"):  # another type of integers
        return (
            _INTEGER,
            within(int(operator.index(value)), -(2**63), 2**63 - 1, "an integer"),
            0,
        )
    raise unfit(value)


def _pair(key: Any, value: Any) -> tuple[Any, Any]:
    return key, value


def _simplified_key(key: Key) -> tuple[int, Any, int]:
    """Returns the scalar that a key stands for, as `simplified` does."""
    if key.kind == "timezone":
        raise Unfit(TypeError, "a zone can't be handed in: hand in its name for timezone(..)")
    kind, what, past = simplified(key.value)
    if key.kind == "duration":
        return kind, what + key.nanosecond, 0
    return kind, what, past + (key.nanosecond if key.kind == "datetime" else 0)


def too_deep(levels: int) -> Unfit:
    """Returns why a value of more levels can't be handed in."""
    return Unfit(ValueError, f"the value is deeper than {levels} levels, or contains itself")


def bad_key(value: object) -> Unfit:
    """Returns why a value can't be a key."""
    why = "a key of a map is None, a bool, an integer, a str or a time"
    return Unfit(TypeError, f"{why}, not {type(value).__name__}")


def located(fault: Unfit, what: str, steps: list[tuple[int, Any]], is_deeper: int) -> Exception:
    """Returns what a caller sees in place of a fault, with the way to it. A step of the way is 1
    and the key of a pair, or 0 and the number of an item."""
    path = what + "".join(map(_step, steps)) + (".." if is_deeper else "")
    return fault.kind(f"{path}: {fault}")


def _step(step: tuple[int, Any]) -> str:
    is_key, key = step
    is_name = is_key and isinstance(key, str) and key.isidentifier()
    return f".{key}" if is_name else f"[{key!r}]"


def key_of(kind: str, value: Any, past: int) -> Key:
    """Returns the key of a KeyedMap, of which `past` has the nanoseconds of a time."""
    return Key(kind, value, past % 1000)


def unfit(value: object) -> Unfit:
    """Returns why a value can't be handed in, and what to do."""
    name = type(value).__name__
    if isinstance(value, numbers.Number):
        why = f"the language has no fractions, so the {name} {value!r} can't be handed in"
        return Unfit(TypeError, f"{why}: hand in a whole number, as cents for prices, or round it")
    if inspect.iscoroutine(value):
        value.close()
        return Unfit(
            TypeError, "a function of an Environment can't be async: it must return its value"
        )
    if callable(value):
        return Unfit(
            TypeError,
            f"a function is no value ({name}): hand it in by an Environment(functions={{..}})",
        )
    if isinstance(value, datetime.date):
        return Unfit(
            TypeError,
            "a date is no value: hand in a datetime with an offset, or a str for date(..)",
        )
    if isinstance(value, (set, frozenset, Iterator)):
        return Unfit(TypeError, f"a {name} is no value: hand in list(..) of it")
    return Unfit(
        TypeError,
        f"the language has no value for {name}: hand in its parts, in a list or a dict",
    )
