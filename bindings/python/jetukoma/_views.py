"""The views of a map. They follow its changes."""
from collections.abc import ItemsView, KeysView, ValuesView
from types import MappingProxyType


class _View:
    __slots__ = ()

    def __iter__(self):
        return self._mapping._walk(self._what, False)

    def __reversed__(self):
        return self._mapping._walk(self._what, True)

    def __repr__(self):
        return f"{self._shown}({list(self)})"

    @property
    def mapping(self):
        """The map, which cannot be changed through this."""
        return MappingProxyType(self._mapping)


class BidictKeysView(_View, KeysView, ValuesView):
    """The keys of a map. They are the values of its inverse, so this is the view of the values too.

    >>> bidict({1: "one", 2: "two"}).values() & {"one", "three"}
    {'one'}
    """

    __slots__ = ()
    _what, _shown = 0, "dict_keys"


class BidictItemsView(_View, ItemsView):
    """The items of a map.

    >>> (1, "one") in bidict({1: "one"}).items()
    True
    """

    __slots__ = ()
    _what, _shown = 2, "dict_items"
