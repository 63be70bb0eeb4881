"""Maps whose sides have names."""
import sys

from ._maps import BidictBase, _made, bidict


class NamedBidictBase:
    """The base of the classes that `namedbidict` makes."""


def _made_inverse(*given):
    return _made(*given).inverse


def namedbidict(typename, keyname, valname, *, base_type=bidict):
    """Returns a new class of maps. The property `KEYNAME_for` of its maps is the inverse, and `VALNAME_for` is the map itself.

    >>> Elements = namedbidict("Elements", "symbol", "name")
    >>> noble = Elements({"He": "helium"})
    >>> noble.name_for["He"], noble.symbol_for["helium"]
    ('helium', 'He')
    """
    if not issubclass(base_type, BidictBase):
        raise TypeError(f"{base_type} is not a BidictBase subclass")
    names = (typename, keyname, valname)
    if not all(map(str.isidentifier, names)) or keyname == valname:
        raise ValueError(names)
    itself, other = property(lambda self: self), property(lambda self: self.inverse)
    module = sys._getframe(1).f_globals.get("__name__", "__main__")

    def made(name, key, value, **more):
        return type(name, (base_type, NamedBidictBase), {"__module__": module, "keyname": key, "valname": value, f"{value}_for": itself, f"{key}_for": other, **more})

    def reduced(self):
        return _made_inverse, (cls, list(self.inverse.items()), *self._about()[:0:-1]), self.__dict__ or None

    cls = made(typename, keyname, valname)
    cls._inv_cls = made(f"{typename}Inv", valname, keyname, _inv_cls=cls, __reduce__=reduced)
    return cls
