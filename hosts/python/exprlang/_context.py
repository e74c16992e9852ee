"""Names and their values, kept for many runs."""

from __future__ import annotations

import threading
from collections.abc import Callable, Collection, Iterable, Iterator, Mapping, MutableMapping
from typing import Any, Optional, Union

from . import _core
from ._checks import checked_name, record
from ._errors import Error
from ._kept import Kept


class _Item:
    """A value that was put under a name. Its identity tells it from later ones."""

    __slots__ = ("value",)

    def __init__(self, value: Any) -> None:
        self.value = value


class Context(Kept, _core.Context, MutableMapping[str, Any]):
    """Names and their values, for many runs. It is a mapping that you may change between runs.

    An engine copies a value when a program first asks for its name, and again after you set
    another. So a list that you change in place must be set again. A value that no program asks for
    may be anything. For one that is asked for, the run raises what Program.run says.

    Threads may share a context, and change it while others run. A run keeps the values that it
    began with. Contexts can be copied, and pickled if their values can.

    Errors: TypeError for a name that is no str, or for what is no mapping. KeyError as for a dict.

    >>> order = exprlang.Context({"price": 60, "count": 2})
    >>> rule = exprlang.compile("price * count > 100")
    >>> rule.run(order)
    True
    >>> order["count"] = 1
    >>> rule.run(order)
    False
    >>> "price" in order, len(order), list(order)
    (True, 2, ['price', 'count'])
    """

    def __init__(self, values: Union[Mapping[str, Any], Iterable[tuple[str, Any]]] = ()) -> None:
        super().__init__()
        self._notes: dict[int, list[set[str]]] = {}
        for name, value in record(values).items():
            self[name] = value

    def __reduce__(self) -> tuple[Any, ...]:
        return Context, (dict(self),)

    def __repr__(self) -> str:
        return f"Context({dict(self)!r})"

    def __getitem__(self, name: str) -> Any:
        item: _Item = self._items[name]
        return item.value

    def __setitem__(self, name: str, value: Any) -> None:
        self._items[checked_name(name)] = _Item(value)
        self._note(name)

    def __delitem__(self, name: str) -> None:
        del self._items[name]
        if not self.closed:
            self._renew()  # engines can't take a name out of what they have
        self._note(name)

    def __iter__(self) -> Iterator[str]:
        return iter(self._items)

    def __len__(self) -> int:
        return len(self._items)

    def _note(self, name: str) -> None:
        for names in self._notes.get(threading.get_ident(), ()):
            names.add(name)

    def _called(
        self,
        name: str,
        function: Callable[..., Any],
        arguments: Iterable[Any],
        reads: Optional[Collection[str]],
    ) -> tuple[Any, Optional[Error]]:
        """Calls a function for a run that reads these names, or all. Returns what it returns, and
        the error of the run if this thread has changed such a name meanwhile."""
        thread, names = threading.get_ident(), set[str]()
        notes = self._notes.setdefault(thread, [])
        notes.append(names)
        try:
            value = function(*arguments)
        finally:
            notes.pop()
            if not notes:
                del self._notes[thread]
        changed = sorted(names if reads is None else names.intersection(reads))
        if not changed:
            return value, None
        why = f"the function {name} changed {', '.join(changed)}"
        return value, Error(
            "differs", f"{why}, which its own run reads: change a context between runs"
        )
