"""What has no table: the actions on duplicates, the exceptions, the abstract classes and `inverted`."""
from abc import abstractmethod
from collections.abc import Mapping, MutableMapping
from enum import Enum
from itertools import product
from typing import NamedTuple


class u64(int):
    """Names a side of ints from 0 to 2**64 - 1. A side of type `int` has -2**63 to 2**63 - 1.

    >>> BiHashMap({2**64 - 1: "last"}, keys=u64).inverse["last"]
    18446744073709551615
    """


class OD(Enum):
    """What to do with an item that duplicates the key or the value of another item.

    >>> OD.RAISE, OD.DROP_OLD, OD.DROP_NEW
    (OD.RAISE, OD.DROP_OLD, OD.DROP_NEW)
    """

    RAISE = "RAISE"
    DROP_OLD = "DROP_OLD"
    DROP_NEW = "DROP_NEW"
    __hash__ = object.__hash__

    def __repr__(self):
        return f"OD.{self.name}"


RAISE, DROP_OLD, DROP_NEW = OD


class OnDup(NamedTuple("_OnDup", [("key", OD), ("val", OD), ("kv", OD)])):
    """The actions for a duplicate key, for a duplicate value, and for both in two items. The last is `val` by default.

    >>> m = bidict({1: "one"})
    >>> m.put(2, "one", OnDup(val=DROP_OLD))
    >>> m
    bidict({2: 'one'})
    """

    __slots__ = ()

    def __new__(cls, key=DROP_OLD, val=RAISE, kv=None):
        return super().__new__(cls, key, val, kv or val)


ON_DUP_DEFAULT = OnDup(DROP_OLD, RAISE, RAISE)
ON_DUP_RAISE = OnDup(RAISE, RAISE, RAISE)
ON_DUP_DROP_OLD = OnDup(DROP_OLD, DROP_OLD, DROP_OLD)

# The numbers of the policies in _core: two bits for each of the three cases.
POLICIES = {
    OnDup(*(action for action, _ in each)): sum(number << 2 * at for at, (_, number) in enumerate(each))
    for each in product([(RAISE, 0), (DROP_NEW, 1), (DROP_OLD, 2)], repeat=3)
}


def policy(on_dup):
    """Returns the number of a policy."""
    try:
        return POLICIES[on_dup]
    except (KeyError, TypeError):
        raise TypeError(f"on_dup is an OnDup, not {on_dup!r}") from None


class BidictException(Exception):
    """The base of the exceptions of this package."""


class DuplicationError(BidictException):
    """A map cannot contain a key or a value twice."""


class KeyDuplicationError(DuplicationError):
    """Another item has the key."""


class ValueDuplicationError(DuplicationError):
    """Another item has the value."""


class KeyAndValueDuplicationError(KeyDuplicationError, ValueDuplicationError):
    """One item has the key, and another item has the value."""


def duplicate(which, item):
    """Returns the exception for an item of which the key, the value or both are duplicates. _core calls this."""
    if which == 3:
        return KeyAndValueDuplicationError(*item)
    return KeyDuplicationError(item[0]) if which == 1 else ValueDuplicationError(item[1])


class BidirectionalMapping(Mapping):
    """The abstract class of all maps of this package.

    >>> isinstance(frozenbidict(), BidirectionalMapping)
    True
    """

    __slots__ = ()

    @property
    @abstractmethod
    def inverse(self):
        """The map from values to keys."""
        raise NotImplementedError

    def __inverted__(self):
        return iter(self.inverse.items())


class MutableBidirectionalMapping(BidirectionalMapping, MutableMapping):
    """The abstract class of the maps that can change.

    >>> isinstance(frozenbidict(), MutableBidirectionalMapping)
    False
    """

    __slots__ = ()


def inverted(arg):
    """Returns an iterator over the items of a mapping, or over pairs, with keys and values exchanged.

    >>> list(inverted({1: "one"})), list(inverted(bidict({1: "one"})))
    ([('one', 1)], [('one', 1)])
    """
    own = getattr(arg, "__inverted__", None)
    if callable(own):
        return own()
    return ((value, key) for key, value in (arg.items() if isinstance(arg, Mapping) else arg))
