"""Random calls beside a plain model, for each kind of map and each two types."""
import copy
import pickle
import random
import unittest
from itertools import product

from jetukoma import DROP_NEW, DROP_OLD, ON_DUP_DEFAULT, ON_DUP_DROP_OLD, ON_DUP_RAISE, RAISE, BiBTreeMap, DuplicationError, OnDup, OrderedBidict
from model import KINDS, TYPES, Model, items_of, of

POLICIES = [OnDup(*it) for it in product([RAISE, DROP_OLD, DROP_NEW], repeat=3)]
CALLS = ["set", "put", "forceput", "inverse put", "putall", "update", "forceupdate", "inverse putall", "get", "pop", "inverse pop", "popitem"]
CALLS += ["insert", "setdefault", "move", "copy", "range"]


class Chance(unittest.TestCase):
    def test_beside_a_model(self):
        for kind, keys, values in product(KINDS, TYPES, TYPES):
            with self.subTest(kind=kind.__name__, keys=keys, values=values):
                self.calls(kind, keys, values, random.Random(f"{kind}{keys}{values}"))

    def calls(self, kind, keys, values, chance):
        self.it, self.model, self.chance, self.types = kind(keys=keys, values=values), Model(kind), chance, (keys, values)
        for _ in range(100):
            call = chance.choice(CALLS)
            getattr(self, call.replace(" ", "_"))(*(of(it, chance.randrange(30)) for it in self.types))
            self.assertEqual(items_of(self.it), self.model.items(), call)
            self.assertEqual((len(self.it), len(self.it.inverse)), (len(self.model.pairs),) * 2)
            self.assertEqual(dict(self.it.inverse), {value: key for key, value in self.model.pairs})

    def same(self, error, call, *given):
        """Makes a call, which must raise this error, or none."""
        try:
            call(*given)
            self.assertIsNone(error)
        except DuplicationError as it:
            self.assertEqual(type(it).__name__, f"{error}DuplicationError")

    def pairs(self):
        return [tuple(of(it, self.chance.randrange(30)) for it in self.types) for _ in range(self.chance.randrange(8))]

    def set(self, key, value):
        self.same(self.model.put((key, value), ON_DUP_DEFAULT), self.it.__setitem__, key, value)

    def put(self, key, value):
        on_dup = self.chance.choice(POLICIES)
        self.same(self.model.put((key, value), on_dup), self.it.put, key, value, on_dup)

    def forceput(self, key, value):
        self.same(self.model.put((key, value), ON_DUP_DROP_OLD), self.it.forceput, key, value)

    def inverse_put(self, key, value):
        on_dup = self.chance.choice(POLICIES)
        self.same(self.model.put((key, value), on_dup, 1), self.it.inverse.put, value, key, on_dup)

    def putall(self, key, value):
        pairs, on_dup = self.pairs(), self.chance.choice([ON_DUP_RAISE, *POLICIES])
        before = items_of(self.it)
        error = self.model.put_all(pairs, on_dup)
        self.same(error, self.it.putall, iter(pairs), on_dup)
        # A value that was put back may have another position, as in bidict.
        if error and sorted(before) == sorted(self.it.items()) and DROP_OLD in on_dup[1:] and self.model.kind is not OrderedBidict:
            self.model.pairs = list(self.it.items())

    def update(self, key, value):
        pairs = self.pairs()
        self.same(self.model.put_all(pairs, ON_DUP_DEFAULT), self.it.update, pairs)

    def forceupdate(self, key, value):
        pairs = dict(self.pairs())
        self.same(self.model.put_all(pairs.items(), ON_DUP_DROP_OLD), self.it.forceupdate, pairs)

    def inverse_putall(self, key, value):
        pairs = self.pairs()
        self.same(self.model.put_all(pairs, ON_DUP_RAISE, 1), self.it.inverse.putall, [pair[::-1] for pair in pairs])

    def get(self, key, value):
        at, of_value = self.model.at(0, key), self.model.at(1, value)
        self.assertEqual((self.it.get(key), key in self.it), (None if at is None else self.model.pairs[at][1], at is not None))
        self.assertEqual((self.it.inverse.get(value), value in self.it.inverse), (None if of_value is None else self.model.pairs[of_value][0], of_value is not None))

    def pop(self, key, value):
        self.assertEqual(self.it.pop(key, None), self.model.pop(0, key))

    def inverse_pop(self, key, value):
        self.assertEqual(self.it.inverse.pop(value, None), self.model.pop(1, value))

    def popitem(self, key, value):
        if self.it:
            last = self.chance.randrange(2)
            pair = self.it.popitem(last=last)
            if self.model.kind.__name__ != "BiHashMap":
                self.assertEqual(pair, self.model.items()[-1 if last else 0])
            self.assertEqual(self.model.pop(0, pair[0]), pair[1])

    def insert(self, key, value):
        at = [self.model.at(0, key), self.model.at(1, value)]
        wanted = [self.model.pairs[i] for i in dict.fromkeys(at) if i is not None]
        overwritten = self.it.insert(key, value)
        self.assertEqual(overwritten, tuple(wanted))
        if self.chance.randrange(2):
            self.it.undo(key, overwritten)
            self.assertEqual(sorted(self.it.items()), sorted(self.model.pairs))
            self.model.pairs = list(self.it.items())
        else:
            self.model.put((key, value), ON_DUP_DROP_OLD)

    def setdefault(self, key, value):
        at = self.model.at(0, key)
        if at is not None or self.model.at(1, value) is None:
            self.assertEqual(self.it.setdefault(key, value), value if at is None else self.model.pairs[at][1])
            self.model.put((key, value), OnDup(DROP_NEW, DROP_NEW))

    def move(self, key, value):
        if self.model.kind is OrderedBidict:
            for it, side, each in [(self.it, 0, key), (self.it.inverse, 1, value)]:
                last = self.chance.randrange(2)
                if self.model.move(side, each, last):
                    it.move_to_end(each, last=last)
                else:
                    with self.assertRaises(KeyError):
                        it.move_to_end(each, last=last)
                self.assertEqual(items_of(self.it), self.model.items())

    def copy(self, key, value):
        for other in [self.it.copy(), copy.copy(self.it), copy.deepcopy(self.it), pickle.loads(pickle.dumps(self.it)), self.it.inverse.inverse]:
            self.assertEqual((other, type(other)), (self.it, type(self.it)))
            self.assertEqual(items_of(other), self.model.items())
        other = self.it.inverse.copy()
        self.assertEqual(dict(other), dict(self.it.inverse))
        other.clear()
        self.assertEqual(len(self.it), len(self.model.pairs))

    def range(self, key, value):
        keys = [each for each, _ in self.model.items()]
        if self.model.kind is BiBTreeMap:
            other, back = of(self.types[0], self.chance.randrange(30)), self.chance.randrange(2)
            wanted = [it for it in keys if key <= it < other]
            self.assertEqual(list(self.it.irange(key, other, (True, False), back)), wanted[:: -1 if back else 1])
            self.assertEqual(list(self.it.irange(maximum=key)), [it for it in keys if it <= key])
            self.assertEqual((self.it.bisect_left(key), self.it.bisect(key)), (sum(it < key for it in keys), sum(it <= key for it in keys)))
            for at in range(-len(keys), len(keys)):
                self.assertEqual(self.it.peekitem(at), self.model.items()[at])
        if self.model.kind.__name__ != "BiHashMap":
            self.assertEqual(list(reversed(self.it)), keys[::-1])
            self.assertEqual(list(reversed(self.it.items())), self.model.items()[::-1])


class Long(unittest.TestCase):
    def test_many_pairs_in_and_out(self):
        chance = random.Random(1)
        numbers = list({chance.getrandbits(63) for _ in range(20000)})
        pairs = list(zip(numbers[:10000], numbers[10000:]))
        for kind in KINDS:
            for make in (int, str, lambda it: str(it).encode()):
                its = [(make(key), value) for key, value in pairs]
                it = kind(its[:5000])
                it.putall(iter(its[5000:]))
                wanted = sorted(its) if kind is BiBTreeMap else its
                self.assertEqual(items_of(it), sorted(its) if kind.__name__ == "BiHashMap" else wanted)
                if kind.__name__ != "BiHashMap":
                    self.assertEqual(list(reversed(it)), [key for key, _ in wanted[::-1]])
                with self.assertRaises(DuplicationError):
                    it.putall([(make(7), 7), (make(8), pairs[0][1])])
                self.assertEqual(len(it), 10000)
                it.update(its)
                self.assertEqual(it.inverse, {value: key for key, value in its})


if __name__ == "__main__":
    unittest.main()
