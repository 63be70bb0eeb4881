"""Tests what the documentation of bidict says about its calls, at the types that this package has."""
import ast
import doctest
import os
import shutil
import subprocess
import tempfile
import unittest
from collections.abc import ItemsView, KeysView, MutableMapping, ValuesView

import jetukoma
from jetukoma import (
    BiBTreeMap,
    BiHashMap,
    DuplicationError,
    KeyAndValueDuplicationError,
    KeyDuplicationError,
    OrderedBidict,
    ValueDuplicationError,
    bidict,
)

# The public methods, which need an example.
CLASSES = [bidict, OrderedBidict, BiHashMap, BiBTreeMap, jetukoma.frozenbidict]


def load_tests(loader, tests, pattern):
    for module in (jetukoma, jetukoma._core, jetukoma._maps, jetukoma._names, jetukoma._named, jetukoma._sorted, jetukoma._views):
        tests.addTests(doctest.DocTestSuite(module, globs=dict(vars(jetukoma))))
    return tests


class Ordered:
    Map = BiBTreeMap


class Hashed:
    Map = BiHashMap


class Bidict:
    Map = bidict


class Linked:
    Map = OrderedBidict


class Numbers:
    """The tests of maps of numbers, for each kind of map."""

    def setUp(self):
        self.one_two = self.Map({1: 10, 2: 20})

    def test_both_ways(self):
        it = self.Map({1: 10})
        self.assertEqual((it[1], it.inverse[10]), (10, 1))
        self.assertIs(it.inverse.inverse, it)
        empty = self.Map()
        self.assertIs(empty.inverse, empty.inverse)
        it.inverse[20] = 2
        self.assertEqual(it, {1: 10, 2: 20})
        del it.inverse[10]
        self.assertEqual(it, {2: 20})
        self.assertEqual(it.inv, {20: 2})

    def test_the_inverse_outlives_the_map(self):
        inverse = self.Map({1: 10}).inverse
        self.assertEqual((inverse[10], inverse.inverse[1]), (1, 10))
        self.assertIs(inverse.inverse.inverse, inverse)

    def test_what_counts_as_a_number_is_one(self):
        class Number:
            def __init__(self, value):
                self.value = value

            def __index__(self):
                return self.value

        with self.assertRaises(KeyDuplicationError):
            self.one_two.putall([(Number(3), 30), (Number(3), 40)])
        self.one_two.put(1, Number(10))
        self.assertTrue(Number(1) in self.one_two and self.one_two[Number(1)] == 10)
        self.assertEqual(self.one_two, {1: 10, 2: 20})

    def test_values_are_unique(self):
        with self.assertRaises(ValueDuplicationError):
            self.one_two[3] = 10
        with self.assertRaises(KeyAndValueDuplicationError):
            self.one_two[1] = 20
        self.assertEqual(self.one_two, {1: 10, 2: 20})
        self.one_two[1] = 30
        self.assertEqual(self.one_two, {1: 30, 2: 20})
        self.one_two[1] = 30
        self.assertEqual(self.one_two, {1: 30, 2: 20})

    def test_put(self):
        with self.assertRaises(KeyDuplicationError) as it:
            self.one_two.put(1, 30)
        self.assertEqual(it.exception.args, (1,))
        with self.assertRaises(ValueDuplicationError) as it:
            self.one_two.put(3, 20)
        self.assertEqual(it.exception.args, (20,))
        with self.assertRaises(KeyAndValueDuplicationError) as it:
            self.one_two.put(1, 20)
        self.assertEqual(it.exception.args, (1, 20))
        self.assertIsInstance(it.exception, KeyDuplicationError)
        self.assertIsInstance(it.exception, ValueDuplicationError)
        self.assertIsInstance(it.exception, DuplicationError)
        self.one_two.put(1, 10)
        self.one_two.put(3, 30)
        self.assertEqual(self.one_two, {1: 10, 2: 20, 3: 30})

    def test_put_the_other_way(self):
        with self.assertRaises(KeyDuplicationError):
            self.one_two.inverse.put(10, 3)
        with self.assertRaises(ValueDuplicationError):
            self.one_two.inverse[30] = 1
        self.one_two.inverse[10] = 3
        self.assertEqual(self.one_two, {2: 20, 3: 10})

    def test_forceput(self):
        self.one_two.forceput(1, 20)
        self.assertEqual(self.one_two, {1: 20})
        self.one_two.inverse.forceput(20, 5)
        self.assertEqual(self.one_two, {5: 20})

    def test_putall_puts_all_or_none(self):
        with self.assertRaises(KeyDuplicationError):
            self.one_two.putall({3: 30, 1: 11})
        with self.assertRaises(ValueDuplicationError):
            self.one_two.putall([(3, 30), (4, 30)])
        with self.assertRaises(KeyDuplicationError):
            self.one_two.putall([(3, 30), (3, 40)])
        with self.assertRaises(KeyAndValueDuplicationError):
            self.one_two.putall([(3, 30), (1, 20)])
        self.assertEqual(self.one_two, {1: 10, 2: 20})
        self.one_two.putall([(3, 30), (1, 10), (3, 30)])
        self.assertEqual(self.one_two, {1: 10, 2: 20, 3: 30})
        self.one_two.inverse.putall([(40, 4)])
        self.assertEqual(self.one_two[4], 40)

    def test_update_sets_all_or_none(self):
        with self.assertRaises(ValueDuplicationError):
            self.one_two.update([(1, 11), (3, 20)])
        with self.assertRaises(KeyAndValueDuplicationError):
            self.one_two.update({1: 20})
        self.assertEqual(self.one_two, {1: 10, 2: 20})
        # 10 is free when this item is inserted.
        self.one_two.update([(1, 11), (3, 10)])
        self.assertEqual(self.one_two, {1: 11, 2: 20, 3: 10})
        self.assertEqual(self.Map([(1, 10), (1, 20)]), {1: 20})
        with self.assertRaises(ValueDuplicationError):
            self.Map([(1, 10), (2, 10)])

    def test_the_order_of_items_counts(self):
        it = self.Map({0: 0, 1: 2})
        it.forceupdate([(2, 0), (0, 1), (0, 0)])
        self.assertEqual(it, {0: 0, 1: 2})
        it.forceupdate([(0, 1), (0, 0), (2, 0)])
        self.assertEqual(it, {1: 2, 2: 0})

    def test_pop(self):
        self.assertEqual((self.one_two.pop(1), self.one_two.pop(1, None), self.one_two.pop(1, 7)), (10, None, 7))
        with self.assertRaises(KeyError):
            self.one_two.pop(1)
        with self.assertRaises(KeyError):
            del self.one_two[1]
        self.assertEqual(self.one_two.popitem(), (2, 20))
        with self.assertRaises(KeyError) as it:
            self.one_two.popitem()
        self.assertRegex(it.exception.args[0], "is empty$")
        self.assertEqual(self.one_two, {})

    def test_as_a_mapping(self):
        self.assertIsInstance(self.one_two, MutableMapping)
        self.assertTrue(1 in self.one_two and 10 not in self.one_two and 10 in self.one_two.inverse)
        self.assertEqual((self.one_two.get(1), self.one_two.get(3), self.one_two.get(3, 7)), (10, None, 7))
        with self.assertRaises(KeyError):
            self.one_two[3]
        self.assertEqual((len(self.one_two), sorted(self.one_two)), (2, [1, 2]))
        self.assertEqual(sorted(self.one_two.items()), [(1, 10), (2, 20)])
        self.assertEqual(sorted(self.one_two.inverse.items()), [(10, 1), (20, 2)])
        self.assertEqual(self.one_two.items() & {(1, 10), (2, 10)}, {(1, 10)})
        self.assertEqual(self.one_two.keys() | {3}, {1, 2, 3})
        self.assertEqual(self.one_two.values(), {10, 20})
        self.assertTrue(20 in self.one_two.values() and (1, 10) in self.one_two.items())
        self.assertEqual((self.one_two.setdefault(1, 7), self.one_two.setdefault(3, 30)), (10, 30))
        self.one_two.clear()
        self.assertFalse(self.one_two)
        with self.assertRaises(TypeError):
            hash(self.one_two)

    def test_equality(self):
        self.assertEqual(self.one_two, self.Map([(2, 20), (1, 10)]))
        self.assertEqual(self.one_two, {2: 20, 1: 10})
        self.assertNotEqual(self.one_two, {1: 10})
        self.assertNotEqual(self.one_two, {1: 10, 2: 21})
        self.assertNotEqual(self.one_two, 7)
        self.assertEqual(self.one_two.copy(), self.one_two)


class OrderedNumbers(Ordered, Numbers, unittest.TestCase):
    def test_walks_ascend(self):
        it = BiBTreeMap([(3, 10), (1, 30), (4, 5), (2, 20)])
        self.assertEqual(it.popitem(), (4, 5))
        self.assertEqual((list(it), list(reversed(it)), list(it.values())), ([1, 2, 3], [3, 2, 1], [30, 20, 10]))
        self.assertEqual(repr(it), "BiBTreeMap({1: 30, 2: 20, 3: 10})")
        self.assertEqual(repr(it.inverse), "BiBTreeMap({30: 1, 20: 2, 10: 3})")
        self.assertEqual((it.popitem(), it.popitem(last=False), it.inverse.popitem()), ((3, 10), (1, 30), (20, 2)))
        self.assertEqual(repr(it), "BiBTreeMap()")


class HashedNumbers(Hashed, Numbers, unittest.TestCase):
    def test_repr(self):
        self.assertEqual(repr(BiHashMap({1: 10})), "BiHashMap({1: 10})")


class BidictNumbers(Bidict, Numbers, unittest.TestCase):
    def test_order(self):
        it = bidict({3: 1, 1: 3})
        it[3] = 5
        it.forceput(7, 3)
        self.assertEqual((list(it.items()), repr(it), repr(it.inverse)), ([(3, 5), (7, 3)], "bidict({3: 5, 7: 3})", "bidict({5: 3, 3: 7})"))


class LinkedNumbers(Linked, Numbers, unittest.TestCase):
    def test_order(self):
        it = OrderedBidict({3: 1, 1: 3, 2: 2})
        it.forceput(7, 1)
        it.move_to_end(1)
        it.move_to_end(2, last=False)
        self.assertEqual((list(it.items()), repr(it)), ([(2, 2), (7, 1), (1, 3)], "OrderedBidict([(2, 2), (7, 1), (1, 3)])"))


class Texts(unittest.TestCase):
    def test_elements(self):
        symbols = BiBTreeMap({"hydrogen": 1, "carbon": 6})
        self.assertEqual((symbols["carbon"], symbols.inverse[1]), (6, "hydrogen"))
        with self.assertRaises(ValueDuplicationError):
            symbols["coal"] = 6
        symbols.inverse[6] = "coal"
        self.assertEqual(list(symbols.items()), [("coal", 6), ("hydrogen", 1)])
        symbols.update(oxygen=8)
        self.assertEqual(repr(symbols), "BiBTreeMap({'coal': 6, 'hydrogen': 1, 'oxygen': 8})")
        self.assertEqual(repr(symbols.inverse), "BiBTreeMap({6: 'coal', 1: 'hydrogen', 8: 'oxygen'})")
        with self.assertRaises(KeyDuplicationError):
            symbols.putall([("boron", 5), ("oxygen", 9)])
        self.assertEqual((len(symbols), symbols.popitem()), (3, ("oxygen", 8)))

    def test_an_iteration_is_by_the_keys(self):
        names = BiBTreeMap({6: "carbon", 1: "hydrogen"})
        self.assertEqual(list(names.items()), [(1, "hydrogen"), (6, "carbon")])
        self.assertEqual((list(names.inverse), names.popitem(last=False)), (["hydrogen", "carbon"], (1, "hydrogen")))


class Package(unittest.TestCase):
    def test_each_public_method_has_an_example(self):
        for cls in CLASSES:
            for name in dir(cls):
                if not name.startswith("_") and name not in ("on_dup", "inv"):
                    self.assertIn(">>>", getattr(cls, name).__doc__ or "", name)
        for name in jetukoma.__all__:
            it = getattr(jetukoma, name)
            self.assertTrue(callable(it) or isinstance(it, (jetukoma.OD, jetukoma.OnDup)), name)

    def test_the_stub_has_all_names(self):
        with open(jetukoma.__file__ + "i", encoding="ascii") as file:
            stub = ast.parse(file.read()).body
        classes = {it.name: {each.name for each in it.body if isinstance(each, ast.FunctionDef)} for it in stub if isinstance(it, ast.ClassDef)}
        names = {it.name for it in stub if isinstance(it, ast.FunctionDef)} | {it.target.id for it in stub if isinstance(it, ast.AnnAssign)}
        self.assertEqual(set(jetukoma.__all__), (set(classes) | names | {"OnDupAction"}) - {"_OnDup", "__version__"})
        for cls in [bidict, OrderedBidict, BiHashMap, BiBTreeMap, jetukoma.frozenbidict]:
            stubbed = set().union(*(classes.get(it.__name__, ()) for it in cls.__mro__))
            inherited = {"get", "pop", "clear", "setdefault", "on_dup"}
            self.assertEqual({it for it in dir(cls) if not it.startswith("_")} - inherited, {it for it in stubbed if not it.startswith("_")})

    def test_policies(self):
        policies = [jetukoma.OnDup(), jetukoma.OnDup(val=jetukoma.DROP_OLD), jetukoma.OnDup(jetukoma.RAISE, kv=jetukoma.DROP_NEW)]
        self.assertEqual([[it.name for it in each] for each in policies], [["DROP_OLD", "RAISE", "RAISE"], ["DROP_OLD"] * 3, ["RAISE", "RAISE", "DROP_NEW"]])
        self.assertRaises(TypeError, bidict().put, 1, 2, "RAISE")

    def test_views_and_classes(self):
        it = bidict({1: 2})
        for view, kinds in [(it.keys(), (KeysView,)), (it.values(), (KeysView, ValuesView)), (it.items(), (ItemsView,))]:
            self.assertTrue(all(isinstance(view, kind) for kind in kinds))
        self.assertEqual((repr(it.keys()), repr(it.values()), repr(it.items())), ("dict_keys([1])", "dict_keys([2])", "dict_items([(1, 2)])"))
        self.assertIsNotNone(bidict[int, int])

    @unittest.skipUnless(shutil.which("mypy"), "mypy is not installed")
    def test_the_types(self):
        program = """
from typing import Iterator
from jetukoma import ON_DUP_DROP_OLD, BiBTreeMap, OrderedBidict, bidict, frozenbidict, inverted
seats: bidict[str, int] = bidict({"ann": 12}, keys=str)
guest: str = seats.inverse[12]
seats.put("bob", 7, on_dup=ON_DUP_DROP_OLD)
old: tuple[tuple[str, int], ...] = seats.insert("eve", 7)
seats.undo("eve", old)
both: bidict[str, int] = seats | {"dan": 1}
ages = BiBTreeMap([(1, "x")])
keys: Iterator[int] = ages.irange(1, 2)
named: OrderedBidict[str, int] = OrderedBidict(a=1)
named.move_to_end("a")
frozenbidict({1: 2})[1] + 1
pairs: Iterator[tuple[int, str]] = inverted(seats)
"""
        wrong = "seats.put(1, 2)\nfrozenbidict({1: 2})[1] = 2\ntext: str = seats['ann']\nbidict({1: 2}).move_to_end(1)\n"
        with tempfile.TemporaryDirectory() as room:
            shutil.copytree(os.path.dirname(jetukoma.__file__), f"{room}/jetukoma")
            for name, text, said in [("right", program, ["Success"]), ("wrong", program + wrong, ["arg-type", "index", "assignment", "attr-defined"])]:
                with open(f"{room}/{name}.py", "w", encoding="ascii") as file:
                    file.write(text)
                ran = subprocess.run(["mypy", "--strict", "--python-version", "3.9", f"{name}.py"], cwd=room, capture_output=True, text=True)
                for each in said:
                    self.assertIn(each, ran.stdout, ran.stdout + ran.stderr)


if __name__ == "__main__":
    unittest.main()
