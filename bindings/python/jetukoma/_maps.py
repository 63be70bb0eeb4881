"""The maps. Their calls on the table are in _core."""
import json
from collections.abc import ItemsView, Mapping
from operator import eq
from types import GenericAlias

from ._core import Map, MutableMap
from ._names import (
    ON_DUP_DEFAULT,
    ON_DUP_DROP_OLD,
    ON_DUP_RAISE,
    BidirectionalMapping,
    MutableBidirectionalMapping,
    policy,
    u64,
)
from ._views import BidictItemsView, BidictKeysView

# The numbers of types, of kinds and of two policies in _core.
TYPES = {None: 0, int: 1, u64: 2, str: 3, bytes: 4}
ORDERED, HASHED, INSERTION_ORDER, LINKED = range(4)
FORCE, KEEP_KEY = policy(ON_DUP_DROP_OLD), 1
MISSING = object()


def _type_of(more, name):
    """Takes the type of a side out of the named arguments, and returns its number. What is no type there is an item."""
    given = more.get(name)
    if name not in more or not isinstance(given, (type, type(None))):
        return 0
    del more[name]
    if given not in TYPES:
        raise TypeError(f"{name} is int, jetukoma.u64, str or bytes, not {given!r}")
    return TYPES[given]


def _one(args):
    if len(args) > 1:
        raise TypeError(f"Expected at most 1 positional argument, got {len(args)}")
    return args[0] if args else ()


def _filled(made, items, keys, values):
    """Names the types of a new map, inserts items, and returns the map."""
    made._about(keys, values)
    made._put_many(items)
    return made


def _made(cls, *given):
    """Makes a map, as pickle needs it."""
    return _filled(cls.__new__(cls), *given)


class BidictBase(Map):
    """What all maps of this package can do."""

    on_dup = ON_DUP_DEFAULT
    _kind = INSERTION_ORDER
    _rules = _kind | policy(on_dup) << 2
    _inv_cls = None
    _shown = dict
    __class_getitem__ = classmethod(GenericAlias)

    def __init_subclass__(cls, **more):
        super().__init_subclass__(**more)
        cls._rules = cls._kind | policy(cls.on_dup) << 2

    def __init__(self, *args, **more):
        items = _one(args)
        if more:
            self._about(_type_of(more, "keys"), _type_of(more, "values"))
        if args or more:
            self._put_many(items, more)

    def keys(self):
        """Returns a view of the keys.

        >>> bidict({1: "one", 2: "two"}).keys()
        dict_keys([1, 2])
        """
        return BidictKeysView(self)

    def values(self):
        """Returns a view of the values. It is like a view of keys, since no value occurs twice.

        >>> bidict({1: "one", 2: "two"}).values()
        dict_keys(['one', 'two'])
        """
        return BidictKeysView(self.inverse)

    def items(self):
        """Returns a view of the items.

        >>> bidict({1: "one", 2: "two"}).items()
        dict_items([(1, 'one'), (2, 'two')])
        """
        return BidictItemsView(self)

    def copy(self):
        """Returns a new map with the same items. It has the attributes that this map has, if a subclass set some.

        >>> bidict({1: "one", 2: "two"}).copy()
        bidict({1: 'one', 2: 'two'})
        """
        made = self._copy()
        made.__dict__.update(self.__dict__)
        return made

    __copy__ = copy

    def __reversed__(self):
        return self._walk(0, True)

    def __inverted__(self):
        return iter(self.inverse.items())

    def __eq__(self, other):
        if not isinstance(other, Mapping):
            return NotImplemented
        same = self._same(other)
        return dict(self.items()) == dict(other.items()) if same is None else same

    def equals_order_sensitive(self, other):
        """Returns whether the other mapping has the same items in the same order. `==` ignores the order.

        >>> bidict({1: "one", 2: "two"}).equals_order_sensitive({2: "two", 1: "one"})
        False
        """
        if not isinstance(other, Mapping) or len(self) != len(other):
            return False
        return all(map(eq, self.items(), other.items()))

    def __or__(self, other):
        if not isinstance(other, Mapping):
            return NotImplemented
        made = self.copy()
        made._put_many(other)
        return made

    def __ror__(self, other):
        if not isinstance(other, Mapping):
            return NotImplemented
        made = type(self)(other)
        made._put_many(self)
        return made

    def __repr__(self):
        return f"{type(self).__name__}({self._shown(self.items()) if self else ''})"

    def __reduce__(self):
        return _made, (type(self), list(self.items()), *self._about()[1:]), self.__dict__ or None

    def to_json(self):
        """Returns the items as the text of a JSON object. The keys must be str, or bytes in UTF-8. The values must be str or int.

        >>> bidict({"one": 1, "two": 2}).to_json()
        '{"one":1,"two":2}'
        """
        names = [key.decode() if isinstance(key, bytes) else key for key in self]
        if any(not isinstance(name, str) for name in names):
            raise TypeError("JSON needs str or bytes as keys")
        return json.dumps(dict(zip(names, self.values())), ensure_ascii=False, separators=(",", ":"))

    @classmethod
    def from_json(cls, text, *, keys=str, values=None):
        """Returns the map of such a text. Raises a ValueError if the text is another one, or has a name or a value twice.

        >>> bidict.from_json('{"one": 1, "two": 2}')
        bidict({'one': 1, 'two': 2})
        """
        if not isinstance(text, str) or keys not in (str, bytes) or values not in TYPES:
            raise TypeError("from_json takes a str, keys=str or keys=bytes, and values=int, jetukoma.u64 or str")
        items = json.loads(text, object_pairs_hook=_Object)
        if type(items) is not _Object:
            raise ValueError("the text is not a JSON object")
        made = cls()
        try:
            _filled(made, [(name.encode(), value) for name, value in items] if keys is bytes else items, TYPES[keys], TYPES[values])
        except Exception as error:
            raise ValueError(f"the text is not a map: {error}") from error
        if len(made) != len(items):
            raise ValueError("the text has a name twice")
        return made


class _Object(list):
    """The names and values of a JSON object."""


class MutableBidict(BidictBase, MutableMap):
    """What all maps can do that can change."""

    def put(self, key, val, on_dup=ON_DUP_RAISE):
        """Inserts an item. By default it raises a DuplicationError if another item has the key or the value.

        >>> m = bidict({1: "one", 2: "two"})
        >>> m.put(3, "three")
        >>> m.put(4, "one")
        Traceback (most recent call last):
        jetukoma.ValueDuplicationError: one
        """
        self._put(key, val, policy(on_dup))

    def forceput(self, key, val):
        """Inserts an item, and overwrites the items that have the key or the value.

        >>> m = bidict({1: "one", 2: "two"})
        >>> m.forceput(1, "two")
        >>> m
        bidict({1: 'two'})
        """
        self._put(key, val, FORCE)

    def putall(self, items, on_dup=ON_DUP_RAISE):
        """Inserts all items in order, each as `put` does. If one is refused, it inserts none.

        >>> m = bidict({1: "one"})
        >>> m.putall({2: "two", 3: "three"})
        >>> m
        bidict({1: 'one', 2: 'two', 3: 'three'})
        """
        self._put_many(items, None, policy(on_dup))

    def forceputall(self, items):
        """Inserts all items in order, each as `forceput` does.

        >>> m = bidict({1: "one"})
        >>> m.forceputall([(2, "one"), (3, "three")])
        >>> m
        bidict({2: 'one', 3: 'three'})
        """
        self._put_many(items, None, FORCE)

    def update(self, *args, **more):
        """Sets all items in order, each as `map[key] = value` does. If one is refused, it sets none.

        >>> m = bidict(one=1)
        >>> m.update({"two": 2}, three=3)
        >>> m
        bidict({'one': 1, 'two': 2, 'three': 3})
        """
        self._put_many(_one(args), more)

    def forceupdate(self, *args, **more):
        """Inserts all items in order, each as `forceput` does.

        >>> m = bidict(one=1)
        >>> m.forceupdate(uno=1)
        >>> m
        bidict({'uno': 1})
        """
        self._put_many(_one(args), more, FORCE)

    def __ior__(self, other):
        self.update(other)
        return self

    def setdefault(self, key, default=None):
        """Returns the value of a key. If the key is not contained, it sets the key to the default first.

        >>> bidict({1: "one"}).setdefault(2, "two")
        'two'
        """
        value = self.get(key, MISSING)
        if value is MISSING:
            self._put(key, default, self._rules >> 2 & ~3 | KEEP_KEY)
            value = self.get(key, default)
        return value

    def popitem(self, last=True):
        """Removes the last item in the order of iteration, or the first, and returns it.

        >>> m = bidict({1: "one", 2: "two"})
        >>> m.popitem(), m
        ((2, 'two'), bidict({1: 'one'}))
        """
        while self:
            at = len(self) - 1 if last and self._kind != HASHED else 0
            try:
                key = next(self._walk(0, last, at, at + 1))
            except (StopIteration, RuntimeError):
                continue  # another thread changed the map
            value = self.pop(key, MISSING)
            if value is not MISSING:
                return key, value
        raise KeyError(self._empty)

    _empty = "popitem(): dictionary is empty"

    def undo(self, key, overwritten):
        """Takes an insertion back: pass its key and what `insert` returned.

        It raises a ValueError and changes nothing if another item has one of the overwritten keys or values now.

        >>> m = bidict({1: "one", 2: "two"})
        >>> overwritten = m.insert(1, "two")
        >>> m.undo(1, overwritten)
        >>> m == {1: "one", 2: "two"}
        True
        """
        value = self[key]
        for old_key, old_value in overwritten:
            if old_key != key and old_key in self or old_value != value and old_value in self.inverse:
                raise ValueError("another item has an overwritten key or value")
        self._put_many(overwritten, None, FORCE)
        if all(old_key != key for old_key, _ in overwritten):
            self.pop(key, None)

    def retain(self, keep):
        """Keeps the items for which `keep(key, value)` is true. It calls `keep` once for each item, and then removes the others.

        >>> m = bidict({1: "one", 2: "two"})
        >>> m.retain(lambda key, value: key > 1)
        >>> m
        bidict({2: 'two'})
        """
        gone = [key for key, value in self.items() if not keep(key, value)]
        for key in gone:
            self.pop(key, None)


class bidict(MutableBidict):
    """A two-way map in insertion order, which is the order of a dict.

    >>> element = bidict({"H": "hydrogen"})
    >>> element["H"], element.inverse["hydrogen"]
    ('hydrogen', 'H')
    """


class OrderedBidict(MutableBidict):
    """A two-way map in insertion order. An item that overwrites one of the same value takes its position.

    >>> m = OrderedBidict({1: "one", 2: "two"})
    >>> m.forceput(3, "one")
    >>> m
    OrderedBidict([(3, 'one'), (2, 'two')])
    """

    _kind = LINKED
    _shown = list
    _empty = "OrderedBidict is empty"

    def move_to_end(self, key, last=True):
        """Moves the item of a key to the end, or to the beginning.

        >>> m = OrderedBidict({1: "one", 2: "two"})
        >>> m.move_to_end(1)
        >>> m
        OrderedBidict([(2, 'two'), (1, 'one')])
        """
        self._move(key, last)


class frozenbidict(BidictBase):
    """A two-way map that does not change, and has a hash.

    >>> {frozenbidict({1: "one"}): "a key"}[frozenbidict({1: "one"})]
    'a key'
    """

    # In a slot, so that no pickle has it. The hash of a str is another one in each process.
    __slots__ = ("_hash",)

    def __hash__(self):
        if not hasattr(self, "_hash"):
            self._hash = ItemsView(self)._hash()
        return self._hash


class FrozenOrderedBidict(frozenbidict):
    """A frozenbidict with the repr of an OrderedBidict.

    >>> FrozenOrderedBidict({1: "one"})
    FrozenOrderedBidict([(1, 'one')])
    """

    _kind = LINKED
    _shown = list


class BiHashMap(MutableBidict):
    """A two-way map without an order. It needs no memory for one, as `bidict` does.

    >>> BiHashMap({1: "one"}).inverse["one"]
    1
    """

    _kind = HASHED


BidirectionalMapping.register(BidictBase)
MutableBidirectionalMapping.register(MutableBidict)
