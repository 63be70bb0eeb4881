"""Two-way maps: a key has one value, and a value has one key. The names are those of the package bidict.

    >>> from jetukoma import bidict
    >>> seats = bidict({"ann": 12, "bob": 7})
    >>> seats.inverse[7]
    'bob'
    >>> seats.forceput("ann", 7)
    >>> seats
    bidict({'ann': 7})

Each item is in a table of the library libjetukoma, which is proved function by function. So a map has few types.

Types. Keys are of one type, and values are of one type: int, str or bytes. `keys=` and `values=` name the types, and
otherwise the first item sets them. An int is from -2**63 to 2**63 - 1. `u64` names a side from 0 to 2**64 - 1. A bool is
refused, since it would come back as an int.

Errors. A key of another type, or an int out of range, is not contained. To insert one is a TypeError or an
OverflowError. To insert a text that has no UTF-8 is a UnicodeError. After an exception the map has the items that it had.

Iteration. If a key comes, goes or moves during an iteration, the next step raises a RuntimeError. A new value of a key
does not matter.

Threads. An insertion or a removal is one call, which no other thread sees half done. So is one of many items.
"""
from ._core import __version__
from ._maps import (
    BidictBase,
    BiHashMap,
    FrozenOrderedBidict,
    MutableBidict,
    OrderedBidict,
    bidict,
    frozenbidict,
)
from ._named import NamedBidictBase, namedbidict
from ._names import (
    DROP_NEW,
    DROP_OLD,
    OD,
    ON_DUP_DEFAULT,
    ON_DUP_DROP_OLD,
    ON_DUP_RAISE,
    RAISE,
    BidictException,
    BidirectionalMapping,
    DuplicationError,
    KeyAndValueDuplicationError,
    KeyDuplicationError,
    MutableBidirectionalMapping,
    OnDup,
    ValueDuplicationError,
    inverted,
    u64,
)
from ._sorted import BiBTreeMap
from ._views import BidictItemsView, BidictKeysView

OnDupAction = OD

__all__ = [name for name in dir() if not name.startswith("_")]

for _name in __all__:
    if callable(globals()[_name]):
        globals()[_name].__module__ = "jetukoma"
