"""What engines keep copies of."""

from __future__ import annotations

from typing import Protocol, TypeVar

_Self = TypeVar("_Self")


class _Closes(Protocol):
    def _close(self) -> None:
        ...

    @property
    def _is_closed(self) -> bool:
        ...

    def close(self) -> None:
        ...


class Kept:
    """What engines keep copies of, until it is gone or closed, as a `with` block does."""

    __slots__ = ()

    def close(self: _Closes) -> None:
        """Frees the copies that engines keep. Using it afterwards is a ValueError.

        >>> rule = exprlang.compile("1 + 1")
        >>> rule.close()
        >>> rule.run()
        Traceback (most recent call last):
        ValueError: the program is closed
        """
        self._close()

    @property
    def closed(self: _Closes) -> bool:
        """Whether it was closed.

        >>> exprlang.compile("1 + 1").closed
        False
        """
        return self._is_closed

    def __enter__(self: _Self) -> _Self:
        return self

    def __exit__(self: _Closes, *_: object) -> None:
        self.close()
