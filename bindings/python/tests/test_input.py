"""Bad input, the types of sides, iteration while a map changes, undo, retain and JSON."""
import copy
import json
import pickle
import random
import signal
import unittest

from jetukoma import BiBTreeMap, BiHashMap, DuplicationError, OrderedBidict, bidict, frozenbidict, u64
from model import KINDS, TYPES, items_of, of


class Types(unittest.TestCase):
    def test_other_types(self):
        for kind in KINDS:
            for named in ({}, {"keys": int, "values": str}):
                it = kind({1: "one", -3: "three"}, **named)
                for bad in [1.5, "1", None, True, b"1", (1,)]:
                    for call in [it.put, it.forceput, it.__setitem__, it.insert]:
                        self.assertRaises(TypeError, call, bad, "x")
                    for call in [it.putall, it.update, it.forceupdate]:
                        self.assertRaises(TypeError, call, [(8, "eight"), (bad, "x")])
                    self.assertRaises(KeyError, it.__getitem__, bad)
                    self.assertRaises(KeyError, it.__delitem__, bad)
                    self.assertTrue(bad not in it and it.get(bad) is None and it.pop(bad, 5) == 5)
                for bad in [1, None, True, b"one"]:
                    self.assertRaises(TypeError, it.put, 5, bad)
                    self.assertRaises(TypeError, it.inverse.__setitem__, bad, 5)
                    self.assertRaises(TypeError, it.update, [(5, "five"), (6, bad)])
                self.assertRaises(UnicodeError, it.put, 5, "\ud800")
                self.assertTrue("\ud800" not in it.inverse)
                self.assertEqual(it, {1: "one", -3: "three"})
        with self.assertRaisesRegex(TypeError, "expected str, not <class 'int'>: keys and values are int, jetukoma.u64, str or bytes"):
            bidict({"a": 1})[1] = 1
        with self.assertRaisesRegex(TypeError, "keys is int, jetukoma.u64, str or bytes, not <class 'float'>"):
            bidict(keys=float)

    def test_the_range_of_an_int(self):
        for kind in KINDS:
            for type, least, most in [(int, -(2**63), 2**63 - 1), (u64, 0, 2**64 - 1)]:
                for values in (int, str):
                    it = kind(keys=type, values=values)
                    it[least], it[most] = of(values, 1), of(values, 2)
                    for bad in (least - 1, most + 1, 10**5000):
                        self.assertRaises(OverflowError, it.put, bad, of(values, 3))
                        self.assertRaises(OverflowError, it.update, [(bad, of(values, 3))])
                        self.assertTrue(bad not in it and it.get(bad) is None)
                    self.assertEqual((it[least], it[most], sorted(it)), (of(values, 1), of(values, 2), [least, most]))

    def test_the_first_item_sets_the_types(self):
        for kind in KINDS:
            it = kind()
            inverse = it.inverse
            for bad in [lambda: it.put(1, 1.5), lambda: it.update([(1, b"x"), (2, 2)]), lambda: it.putall([("a", 1), ("b", 1)])]:
                self.assertRaises((TypeError, DuplicationError), bad)
                self.assertEqual((len(it), 1 in it, list(it), it.get("a"), it == {}), (0, False, [], None, True))
            inverse["one"] = 1
            self.assertEqual((it[1], list(inverse)), ("one", ["one"]))
            self.assertRaises(TypeError, it.put, "two", 2)
            self.assertRaises(TypeError, kind({1: 2}).update, {"a": 3})
            self.assertEqual(kind({}, keys=str), {})
            self.assertRaises(TypeError, kind(keys=str).put, 1, 2)

    def test_a_type_or_an_item(self):
        it = bidict(keys=1, values=2)
        self.assertEqual(it, {"keys": 1, "values": 2})
        self.assertEqual(bidict([("a", 1)], keys=str, values=3), {"a": 1, "values": 3})

    def test_subclasses_come_back_plain(self):
        class Text(str):
            def __eq__(self, other):
                raise ZeroDivisionError

            __hash__ = str.__hash__

        class Number(int):
            __index__ = None

        class Bytes(bytes):
            pass

        for kind in KINDS:
            it = kind({Text("a"): Number(1)})
            self.assertEqual((it["a"], it[Text("a")], it.inverse[Number(1)], type(next(iter(it)))), (1, 1, "a", str))
            self.assertEqual((type(it["a"]), kind({1: Bytes(b"x")})[1]), (int, b"x"))
            self.assertRaises(DuplicationError, it.put, Text("a"), 2)

    def test_a_call_within_a_call(self):
        class Number:
            def __index__(self):
                it["b" * 1000] = 2
                return 1

        class Other:
            def __index__(self):
                fresh["b"] = "c"
                return 1

        for kind in KINDS:
            it, fresh = kind(keys=str), kind()
            it.put("a", Number())
            self.assertEqual((len(it), it["a"], it["b" * 1000]), (2, 1, 2))
            it.update([("a", 3), ("c", Number())])
            self.assertEqual((it["a"], it["c"]), (3, 1))
            with self.assertRaises((RuntimeError, TypeError)):
                fresh.put(Other(), 5)
            self.assertEqual(fresh, {"b": "c"})

    def test_no_memory_for_a_length(self):
        class Endless:
            def __iter__(self):
                raise ZeroDivisionError

            def __len__(self):
                return 2**62

        self.assertRaises(ZeroDivisionError, bidict, Endless())


class Iteration(unittest.TestCase):
    def test_a_change_of_keys_ends_it(self):
        changes = [lambda it: it.put(1000, 1000), lambda it: it.pop(5), lambda it: it.clear(), lambda it: it.popitem(), lambda it: it.forceput(1000, 7)]
        for kind in KINDS:
            for change in changes:
                for view in (lambda it: it, reversed, lambda it: it.items(), lambda it: it.inverse, lambda it: it.values()):
                    it = kind((number, number) for number in range(100))
                    with self.assertRaises(RuntimeError):
                        for _ in view(it):
                            change(it)

    def test_a_move_ends_it(self):
        for last in (True, False):
            it = OrderedBidict((number, number) for number in range(3))
            with self.assertRaises(RuntimeError):
                for key in it:
                    it.move_to_end(key, last)

    def test_new_values_show(self):
        for kind in KINDS:
            for make in (int, str):
                it = kind((number, make(number)) for number in range(1000))
                for key in it:
                    it[key] = make(key + 1000)
                self.assertEqual(it, {number: make(number + 1000) for number in range(1000)})
                it, seen = kind((number, make(number)) for number in range(3)), {}
                for key, value in it.items():
                    seen[key] = value
                    for other in {0, 1, 2} - set(seen):
                        it[other] = make(10 + 3 * len(seen) + other)
                self.assertEqual(seen, dict(it))
                self.assertNotIn(make(1), seen.values())

    def test_views_follow(self):
        for kind in KINDS:
            it = kind({1: "one"})
            keys, values, items = it.keys(), it.values(), it.items()
            it[2] = "two"
            self.assertEqual((sorted(keys), sorted(values), sorted(items)), ([1, 2], ["one", "two"], [(1, "one"), (2, "two")]))
            self.assertEqual((len(keys), keys.mapping == it, 2 in keys, "two" in values), (2, True, True, True))

    def test_a_walk_outlives_its_map(self):
        walk = iter(bidict((number, str(number)) for number in range(1000)).items())
        self.assertEqual(list(walk), [(number, str(number)) for number in range(1000)])
        self.assertEqual(list(walk), [])

    def test_the_inverse_outlives_the_map(self):
        inverse = bidict({1: 10}).inverse
        self.assertEqual((inverse[10], inverse.inverse[1]), (1, 10))
        self.assertIs(inverse.inverse.inverse, inverse)


class Undo(unittest.TestCase):
    def test_each_case(self):
        for kind in KINDS:
            for keys in TYPES:
                a, b, c, d = (of(keys, it) for it in range(4))
                for key, value, overwritten in [(c, 3, ()), (a, 3, ((a, 1),)), (c, 2, ((b, 2),)), (a, 1, ((a, 1),)), (a, 2, ((a, 1), (b, 2)))]:
                    it = kind({a: 1, b: 2}, keys=keys)
                    self.assertEqual(it.insert(key, value), overwritten)
                    it[key] = 9
                    if overwritten:
                        it[d] = overwritten[-1][1]
                        self.assertRaises(ValueError, it.undo, key, overwritten)
                        del it[d]
                        for other, _ in overwritten[-1:] if overwritten[-1][0] != key else ():
                            it[other] = 8
                            self.assertRaises(ValueError, it.undo, key, overwritten)
                            del it[other]
                    it.undo(key, overwritten)
                    self.assertEqual(it, {a: 1, b: 2})
                    self.assertRaises(KeyError, it.undo, d, ())


class Signals(unittest.TestCase):
    def test_a_signal_ends_a_long_call(self):
        def interrupt(*_):
            raise KeyboardInterrupt

        before = signal.signal(signal.SIGVTALRM, interrupt)
        for kind in KINDS:
            it = kind({-1: -1})
            signal.setitimer(signal.ITIMER_VIRTUAL, 0.01)
            self.assertRaises(KeyboardInterrupt, it.putall, zip(range(1500000), range(1500000)))
            self.assertEqual(it, {-1: -1})
        signal.signal(signal.SIGVTALRM, before)


class Retain(unittest.TestCase):
    def test_what_is_kept(self):
        for kind in KINDS:
            it, asked = kind((number, number * 7) for number in range(1000)), []
            it.retain(lambda key, value: asked.append((key, value)) or key % 3 == 0)
            self.assertEqual(sorted(asked), [(number, number * 7) for number in range(1000)])
            self.assertEqual(it, {number: number * 7 for number in range(0, 1000, 3)})
            self.assertRaises(ZeroDivisionError, it.retain, lambda key, value: 1 // value)
            self.assertEqual(len(it), 334)


class Json(unittest.TestCase):
    def test_out_and_in(self):
        for kind in KINDS:
            seats = kind({"bob": 7, "ann": -(2**63), '"é\n': 0})
            text = seats.to_json()
            self.assertEqual(json.loads(text), {"bob": 7, "ann": -(2**63), '"é\n': 0})
            again = kind.from_json(text)
            self.assertEqual((again, items_of(again), type(again)), (seats, items_of(seats), kind))
            self.assertEqual(kind.from_json('{"a" : 18446744073709551615}', keys=bytes, values=u64)[b"a"], 2**64 - 1)
            self.assertEqual(kind.from_json('{"a":"b"}'), {"a": "b"})
            self.assertEqual(kind({b"a": 1}).to_json(), '{"a":1}')
            for faulty in ["", "[]", "7", '{"a":1.5}', '{"a":null}', '{"a":true}', '{"a":{}}', '{"a":1,"b":"c"}', '{"a":1,"a":1}', '{"a":1,"b":1}', '{"a":9223372036854775808}']:
                self.assertRaises(ValueError, kind.from_json, faulty)
            self.assertRaises(UnicodeError, kind({b"\xff": 1}).to_json)
            self.assertRaises(TypeError, kind({1: 2}).to_json)
            self.assertRaises(TypeError, kind({"a": b"b"}).to_json)
            self.assertRaises(TypeError, kind.from_json, "{}", keys=int)
            self.assertRaises(TypeError, kind.from_json, b"{}")
            self.assertEqual(kind().to_json(), "{}")


class Others(unittest.TestCase):
    def test_a_frozen_map_stays(self):
        it = frozenbidict({"a": 1})
        with self.assertRaises(TypeError):
            it["b"] = 2
        self.assertFalse(any(hasattr(it, name) for name in ("put", "pop", "clear", "update", "insert", "__delitem__")))
        self.assertEqual(hash(it), hash(frozenbidict({"a": 1})))
        self.assertRaises(TypeError, hash, bidict())
        # Another process hashes a str in another way, so neither a copy by pickle nor an inverse may have the hash.
        self.assertNotIn(b"_hash", pickle.dumps(it))
        self.assertEqual(hash(it.inverse), hash(frozenbidict({1: "a"})))

    def test_a_copy_has_the_attributes(self):
        class Labelled(bidict):
            def __init__(self, label, *args):
                super().__init__(*args)
                self.label = label

        it = Labelled("seats", {1: 2})
        self.assertEqual((it.copy().label, (it | {3: 4}).label, copy.deepcopy(it).label), ("seats",) * 3)

    def test_the_order_of_an_inverse(self):
        inverse = BiBTreeMap({1: 2}).inverse
        for call, given in [(inverse.irange, ()), (inverse.irange, (1,)), (inverse.bisect_left, (1,)), (inverse.bisect_right, (1,)), (inverse.bisect, (1,))]:
            self.assertRaises(TypeError, call, *given)
        self.assertEqual(list(BiBTreeMap({1: 9, 2: 8}).inverse.copy()), [8, 9])
        chance = random.Random(3)
        it = OrderedBidict({number: str(number) for number in chance.sample(range(100), 100)})
        self.assertEqual(list(it.inverse.values()), list(it))

    def test_equality_of_two_kinds(self):
        for one in KINDS:
            for other in KINDS:
                self.assertEqual(one({1: "a", 2: "b"}), other({2: "b", 1: "a"}))
                self.assertNotEqual(one({1: "a"}), other({1: "b"}))
                self.assertNotEqual(one({1: "a"}), other({"a": 1}))
                self.assertEqual(one({1: "a"}).inverse, other({"a": 1}))
        self.assertEqual(BiHashMap({1: 2}, keys=u64), bidict({1: 2}))


if __name__ == "__main__":
    unittest.main()
