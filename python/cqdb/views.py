"""The views of a mapping whose pairs can be had in one pass."""
from __future__ import annotations

from collections.abc import ItemsView, ValuesView
from typing import Any, Iterator


class Items(ItemsView):
    """The pairs of key and value."""

    def __iter__(self) -> Iterator[Any]:
        return self._mapping._pairs()


class Values(ValuesView):
    """The values."""

    def __iter__(self) -> Iterator[Any]:
        return (value for _, value in self._mapping._pairs())

    def __contains__(self, wanted: object) -> bool:
        return any(value is wanted or value == wanted for value in self)
