"""Random calls on this package and on bidict. Both must return the same, raise the same, and have the same items in the same order."""
import copy
import pickle
import random
import sys
import unittest
from itertools import product

import jetukoma

try:
    import bidict
except ImportError:
    bidict = None
    print(f"test_bidict: skipped, since bidict is not installed for {sys.executable}", file=sys.stderr)

POLICIES = list(product(["RAISE", "DROP_OLD", "DROP_NEW"], repeat=3))


def on_dup(package, names):
    return package.OnDup(*(package.OD[name] for name in names))


# Each call gets a map, its package, a key, a value, more pairs, and the names of a policy.
READS = [
    lambda m, p, k, v, more, names: m[k],
    lambda m, p, k, v, more, names: m.inverse[v],
    lambda m, p, k, v, more, names: (m.get(k), m.get(k, v), m.inv.get(v), m.inv.get(v, k)),
    lambda m, p, k, v, more, names: (k in m, v in m.inverse, (k, v) in m.items(), v in m.values(), k in m.keys()),
    lambda m, p, k, v, more, names: (len(m), len(m.inverse), len(m.keys()), bool(m), list(m), repr(m), list(m.items())),
    lambda m, p, k, v, more, names: (list(reversed(m)), list(reversed(m.items())), list(reversed(m.keys()))),
    lambda m, p, k, v, more, names: (m == dict(more), m == dict(m.items()), dict(m.items()) == m, m != m.copy(), m == 7, m.inverse == m),
    lambda m, p, k, v, more, names: (m.equals_order_sensitive(dict(reversed(m.items()))), m.equals_order_sensitive(m.copy()), m.equals_order_sensitive(7)),
    lambda m, p, k, v, more, names: sorted(m.values()) + sorted(m.values() & {v}) + sorted(m.keys() | {k}) + sorted(m.keys() - {k}) + sorted(m.items() ^ {(k, v)}),
    lambda m, p, k, v, more, names: (m.keys() <= dict(m).keys(), m.keys() == set(m), m.items() >= dict(m).items(), m.keys().isdisjoint({k})),
    lambda m, p, k, v, more, names: (m | dict(more), dict(more) | m),
    lambda m, p, k, v, more, names: m | more,
    lambda m, p, k, v, more, names: (m.copy(), copy.copy(m), copy.deepcopy(m), pickle.loads(pickle.dumps(m)), type(m)(m), type(m)(list(m.items()))),
    lambda m, p, k, v, more, names: (sorted(p.inverted(m)), sorted(p.inverted(dict(more))), sorted(p.inverted(more))),
    lambda m, p, k, v, more, names: type(m)(more),
    lambda m, p, k, v, more, names: type(m)(more, abc=v),
    lambda m, p, k, v, more, names: hash(m) and None,
    lambda m, p, k, v, more, names: (m.inverse.inverse is m, m.inv is m.inverse, type(m.inverse) is type(m)),
    lambda m, p, k, v, more, names: m[[]],
    lambda m, p, k, v, more, names: [] in m,
    lambda m, p, k, v, more, names: m.get({}),
    lambda m, p, k, v, more, names: type(m)(more, more),
    lambda m, p, k, v, more, names: type(m)([(k, v), (k,)]),
    lambda m, p, k, v, more, names: type(m)([(k, v), (k, v, v)]),
    lambda m, p, k, v, more, names: type(m)([(k, v), 7]),
    lambda m, p, k, v, more, names: type(m)(7),
    lambda m, p, k, v, more, names: (isinstance(m, p.BidirectionalMapping), isinstance(m, p.MutableBidirectionalMapping)),
]
CHANGES = [
    lambda m, p, k, v, more, names: m.__setitem__(k, v),
    lambda m, p, k, v, more, names: m.inverse.__setitem__(v, k),
    lambda m, p, k, v, more, names: m.put(k, v),
    lambda m, p, k, v, more, names: m.put(key=k, val=v, on_dup=on_dup(p, names)),
    lambda m, p, k, v, more, names: m.inverse.put(v, k, on_dup(p, names)),
    lambda m, p, k, v, more, names: m.forceput(k, v),
    lambda m, p, k, v, more, names: m.inverse.forceput(v, k),
    lambda m, p, k, v, more, names: m.putall(more),
    lambda m, p, k, v, more, names: m.putall(dict(more), on_dup=on_dup(p, names)),
    lambda m, p, k, v, more, names: m.putall(iter(more), on_dup(p, names)),
    lambda m, p, k, v, more, names: m.update(more),
    lambda m, p, k, v, more, names: m.update(dict(more), abc=v),
    lambda m, p, k, v, more, names: m.update(type(m)({k: v})),
    lambda m, p, k, v, more, names: m.update(),
    lambda m, p, k, v, more, names: m.forceupdate(more),
    lambda m, p, k, v, more, names: m.forceupdate(iter(more), abc=v),
    lambda m, p, k, v, more, names: m.__ior__(dict(more)) and None,
    lambda m, p, k, v, more, names: m.__delitem__(k),
    lambda m, p, k, v, more, names: m.inverse.__delitem__(v),
    lambda m, p, k, v, more, names: m.pop(k),
    lambda m, p, k, v, more, names: m.pop(k, None),
    lambda m, p, k, v, more, names: m.inverse.pop(v, k),
    lambda m, p, k, v, more, names: m.popitem(),
    lambda m, p, k, v, more, names: m.setdefault(k, v),
    lambda m, p, k, v, more, names: m.clear() if k == v else m.get(k),
    lambda m, p, k, v, more, names: m.move_to_end(k),
    lambda m, p, k, v, more, names: m.move_to_end(k, last=False),
    lambda m, p, k, v, more, names: m.popitem(last=False) if hasattr(m, "move_to_end") else None,
    lambda m, p, k, v, more, names: m.inverse.move_to_end(v, last=False),
    lambda m, p, k, v, more, names: m.put(k),
    lambda m, p, k, v, more, names: m.update(more, more),
    lambda m, p, k, v, more, names: m.putall([(k,), *more]),
]
# What raises these may have other messages, since the interpreter writes them, or since they name the types.
ANY_MESSAGE = (TypeError, AttributeError)


def plain(it):
    """Returns what a call returned, with a map as the name of its class and its items."""
    if isinstance(it, tuple):
        return tuple(plain(each) for each in it)
    return (type(it).__name__, list(it.items())) if hasattr(it, "inverse") else it


def outcome(call, it, package, *given):
    try:
        return plain(call(it, package, *given))
    except Exception as error:
        return type(error).__name__, None if isinstance(error, ANY_MESSAGE) else error.args


@unittest.skipUnless(bidict, "bidict is not installed")
class Beside(unittest.TestCase):
    def test_random_calls(self):
        for name, make in product(["bidict", "OrderedBidict", "frozenbidict", "FrozenOrderedBidict"], [int, str, lambda it: f"k{it}"]):
            calls = READS if "rozen" in name else READS + CHANGES * 2
            with self.subTest(name=name, make=make):
                self.calls(name, make, calls, random.Random(name))

    def calls(self, name, make, calls, chance):
        packages = jetukoma, bidict
        start = {make(it): it + 2 for it in range(5)}
        mine, theirs = its = [getattr(package, name)(start) for package in packages]
        for _ in range(4000):
            call, names = chance.choice(calls), chance.choice(POLICIES)
            key, value = make(chance.randrange(12)), chance.randrange(12)
            more = [(make(chance.randrange(12)), chance.randrange(12)) for _ in range(chance.randrange(5))]
            if make is int and "abc" in str(call.__code__.co_consts):
                continue
            found = [outcome(call, it, package, key, value, more, names) for it, package in zip(its, packages)]
            at = f"line {call.__code__.co_firstlineno} with {key!r}, {value!r}, {more}, {names}"
            self.assertEqual(found[0], found[1], at)
            self.assertEqual(dict(mine.items()), dict(theirs.items()), at)
            self.assertEqual(dict(mine.inverse.items()), dict(theirs.inverse.items()), at)
            if list(mine.items()) != list(theirs.items()):
                # bidict puts an overwritten item back at the end if a later item is refused.
                self.assertTrue("DuplicationError" in str(found[0][0]) and "DROP_OLD" in names[1:], at)
                mine, theirs = its = [getattr(package, name)(list(mine.items())) for package in packages]
            if len(mine) > 9:
                mine, theirs = its = [getattr(package, name)(start) for package in packages]

    def test_the_names(self):
        others = {"FrozenOrderedBidict", "GeneratedBidictInverse", "OrderedBidictBase"}
        for name in dir(bidict):
            if not name.startswith("_") and name not in ("metadata", *others):
                self.assertTrue(hasattr(jetukoma, name), name)
        for name in ("bidict", "OrderedBidict", "frozenbidict", "FrozenOrderedBidict", "MutableBidict", "BidictBase"):
            for method in dir(getattr(bidict, name)):
                if not method.startswith("_"):
                    self.assertTrue(hasattr(getattr(jetukoma, name), method), method)

    def test_a_class_of_the_user(self):
        for package in (jetukoma, bidict):
            class Strict(package.bidict):
                on_dup = package.ON_DUP_RAISE

            it = Strict({1: 2})
            with self.assertRaises(package.KeyDuplicationError):
                it[1] = 3
            with self.assertRaises(package.KeyDuplicationError):
                it.inverse[2] = 3
            it.name = "strict"
            self.assertEqual((it.name, type(it.inverse), type(it.copy())), ("strict", Strict, Strict))

    def test_the_attributes_of_a_class_of_the_user(self):
        for package in (jetukoma, bidict):
            class Labelled(package.bidict):
                def __init__(self, *args):
                    super().__init__(*args)
                    self.label = "seats"

            globals()["Labelled"], Labelled.__qualname__ = Labelled, "Labelled"
            it = Labelled({1: 2})
            for again in (it.copy(), copy.copy(it), copy.deepcopy(it), pickle.loads(pickle.dumps(it)), it | {}):
                self.assertEqual((again, type(again), again.label), (it, Labelled, "seats"))

    def test_named(self):
        for package in (jetukoma, bidict):
            Elements = package.namedbidict("Elements", "symbol", "name")
            globals()["Elements"] = Elements
            noble = Elements({"He": "helium"})
            self.assertEqual((noble.name_for["He"], noble.symbol_for["helium"], noble.inverse.name_for["He"]), ("helium", "He", "helium"))
            self.assertEqual((noble.keyname, noble.inverse.keyname, noble.inverse.inverse is noble), ("symbol", "name", True))
            self.assertEqual((repr(noble), repr(noble.inverse)), ("Elements({'He': 'helium'})", "ElementsInv({'helium': 'He'})"))
            for it in (noble, noble.inverse):
                again = pickle.loads(pickle.dumps(it))
                self.assertEqual((again, type(again)), (it, type(it)))
            self.assertRaises(ValueError, package.namedbidict, "Elements", "name", "name")
            self.assertRaises(TypeError, package.namedbidict, "Elements", "key", "name", base_type=dict)


if __name__ == "__main__":
    unittest.main()
