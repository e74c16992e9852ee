"""Rules: expressions that are true or false of records."""

from __future__ import annotations

from collections.abc import Iterable, Mapping
from typing import Any, Optional, TypeVar, Union, overload

from ._checks import Missing, no_environment
from ._environment import Environment
from ._errors import Error
from ._limits import USUAL, AnyLimits
from ._program import Program, Record

_Record = TypeVar("_Record", bound=Mapping[str, Any])
_Errors = Optional[list[tuple[int, Error]]]


class Rule(Program):
    """An expression that is true or false of records, with the Environment that it runs in.

    It is a Program too, and a run without an environment has the rule's own. Threads may share it.
    It can be copied and pickled. A `with` block closes it.

    Errors: those of `compile`. TypeError for what is no Environment.

    >>> rule = exprlang.Rule("price * count > 100")
    >>> orders = [{"price": 60, "count": 2}, {"price": 60, "count": 1}]
    >>> rule.matches(orders[0])
    True
    >>> rule.filter(orders)
    [{'price': 60, 'count': 2}]
    >>> rule.lines(b'{"price": 60, "count": 2}\\n{"price": 60, "count": 1}\\n')
    [b'{"price": 60, "count": 2}']
    """

    def __init__(
        self,
        text: str,
        environment: Optional[Environment] = None,
        limits: AnyLimits = USUAL,
        missing: Missing = "error",
    ) -> None:
        if environment is not None and not isinstance(environment, Environment):
            raise no_environment(environment)
        self._host = environment
        super().__init__(text, limits, missing)

    def __reduce__(self) -> tuple[Any, ...]:
        return type(self), (self._text, self._host, self._limits, self._missing)

    def __repr__(self) -> str:
        host = "" if self._host is None else f", environment={self._host!r}"
        return super().__repr__()[:-1] + f"{host})"

    @property
    def environment(self) -> Optional[Environment]:
        """The Environment that it runs in, or None.

        >>> exprlang.Rule("1 > 0").environment is None
        True
        """
        return self._host

    def matches(self, record: Record) -> bool:
        """Returns whether the rule is true of a record: a dict, another mapping, or a Context.

        Errors: those of Program.run. Error of kind "evaluation" for a value that isn't a bool.

        >>> exprlang.Rule("status >= 500").matches({"status": 503, "seconds": 1.5})
        True
        """
        try:
            return self._matches(record, None, None)
        except Error as error:
            why = self._misplaced(error, record, None)
            if why is None:
                raise
            raise why from None

    def filter(self, records: Iterable[_Record]) -> list[_Record]:
        """Returns those of many records for which the rule is true, in their order.

        Errors: as `matches`. The message says which record, counted from 0.

        >>> exprlang.Rule("n > 1").filter({"n": n} for n in range(4))
        [{'n': 2}, {'n': 3}]
        """
        return self._filter(records, None, None)

    def each(self, records: Iterable[Record]) -> list[Any]:
        """Returns the value for each of many records: Program.run for all, in one call.

        Errors: those of Program.run. The message says which record, counted from 0.

        >>> exprlang.Rule("n * n").each([{"n": 2}, {"n": 3}])
        [4, 9]
        """
        return self._each(records, None, None)

    @overload
    def lines(self, data: str, errors: _Errors = None) -> list[str]:
        ...

    @overload
    def lines(
        self, data: Union[bytes, bytearray, memoryview], errors: _Errors = None
    ) -> list[bytes]:
        ...

    def lines(self, data: Any, errors: _Errors = None) -> Any:
        r"""Returns the lines of JSON for which the rule is true, without their line feeds.

        `data` has a JSON object on each line. The lines come back as `data` is, str or bytes. Blank
        lines are skipped. Other threads run meanwhile.

        `errors` is a list, or None. Into a list go the lines with an error: the number of each,
        counted from 1, and the Error. Without one, the first error is raised, and says its line.

        Errors: those of `matches`, and Error for a line that isn't such an object. All its numbers
        must be whole.

        >>> rule, errors = exprlang.Rule("n > 1"), []
        >>> rule.lines('{"n": 1}\n{"n": 2}\n{"m": 3}\n', errors)
        ['{"n": 2}']
        >>> errors
        [(3, Error('line 3: unknown name n'))]
        """
        if not isinstance(data, (str, bytes)):
            data = bytes(memoryview(data))
        return self._lines(data, None, None, errors)
