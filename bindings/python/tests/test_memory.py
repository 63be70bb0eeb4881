"""What happens without memory, that nothing leaks, and what threads see."""
import gc
import os
import random
import subprocess
import sys
import tempfile
import threading
import unittest

from jetukoma import DROP_OLD, RAISE, BidictException, OnDup, OrderedBidict, u64
from model import KINDS, TYPES, blocks, items_of, of

# A library that makes the malloc with a number fail, if malloc, calloc or realloc is called from the module or from libjetukoma.
FAILING = """
#define _GNU_SOURCE
#include <dlfcn.h>
#include <errno.h>
#include <stdlib.h>
#include <string.h>
static long left = -1, calls;
void fail_at(long number) { left = number; calls = 0; }
long made(void) { long it = calls; left = -1; return it; }
static int from_core(void *caller)
{
    Dl_info info;
    return dladdr(caller, &info) && info.dli_fname && strstr(info.dli_fname, "_core.abi3");
}
static int fails(void *caller)
{
    if (left < 0 || !from_core(caller)) return 0;
    calls++;
    return left-- == 0 ? (left = 1L << 40, errno = ENOMEM, 1) : 0;
}
extern void *__libc_malloc(size_t), *__libc_calloc(size_t, size_t), *__libc_realloc(void *, size_t);
void *malloc(size_t n) { return fails(__builtin_return_address(0)) ? NULL : __libc_malloc(n); }
void *calloc(size_t n, size_t m) { return fails(__builtin_return_address(0)) ? NULL : __libc_calloc(n, m); }
void *realloc(void *p, size_t n) { return fails(__builtin_return_address(0)) ? NULL : __libc_realloc(p, n); }
"""


def calls_of(kind, keys, values):
    """Returns calls that change a map of the pairs 0 to 4, each as a function of the map."""
    k, v = (lambda it: of(keys, it)), (lambda it: of(values, it))
    pairs = lambda *its: [(k(a), v(b)) for a, b in its]
    calls = [
        lambda it: it.__setitem__(k(1), v(9)),
        lambda it: it.__setitem__(k(13), v(9)),
        lambda it: it.forceput(k(1), v(2)),
        lambda it: it.forceput(k(13), v(2)),
        lambda it: it.putall(pairs((8, 8), (9, 9), (13, 13), (18, 18))),
        lambda it: it.update(pairs((13, 8), (1, 9), (3, 13), (2, 18))),
        lambda it: it.update(pairs((13, 8), (1, 9), (3, 13), (8, 4))),
        lambda it: it.forceupdate(pairs((13, 8), (1, 2), (8, 3))),
        lambda it: it.putall(pairs((13, 1), (0, 2), (18, 18), (3, 3), (0, 3)), OnDup(DROP_OLD, DROP_OLD, RAISE)),
        lambda it: it.insert(k(1), v(2)),
        lambda it: it.undo(k(1), it.insert(k(1), v(2))),
        lambda it: it.pop(k(3)),
        lambda it: it.popitem(),
        lambda it: it.__delitem__(k(3)),
        lambda it: it.inverse.__delitem__(v(3)),
        lambda it: it.copy(),
        lambda it: it.inverse.copy(),
        lambda it: it | {k(13): v(13)},
        lambda it: (it[k(3)], it.inverse[v(3)], k(3) in it, list(it.items()), it == it.copy()),
        lambda it: it.clear(),
    ]
    if kind is OrderedBidict:
        calls += [lambda it: it.move_to_end(k(1)), lambda it: it.move_to_end(k(3), last=False)]
        calls += [lambda it: it.inverse.move_to_end(v(1)), lambda it: it.inverse.move_to_end(v(3), last=False)]
    return calls


def start_of(kind, keys, values):
    return kind([(of(keys, it), of(values, it)) for it in range(5)], keys=keys, values=values)


def fail_each():
    """Makes each call with each allocation failing in turn. This runs under the library above."""
    from ctypes import CDLL, c_long

    library = CDLL(None)
    library.made.restype, failed = c_long, 0
    for kind in KINDS:
        for keys in (int, str):
            for values in (int, str, bytes):
                for at, call in enumerate(calls_of(kind, keys, values)):
                    for number in range(1000):
                        it = start_of(kind, keys, values)
                        before, error = items_of(it), None
                        library.fail_at(c_long(number))
                        try:
                            call(it)
                        except (MemoryError, BidictException) as raised:
                            error = raised
                        enough = library.made() <= number
                        after = items_of(it)
                        where = f"{kind.__name__}, {keys}, {values}, call {at}, allocation {number}: {error!r}"
                        if isinstance(error, MemoryError):
                            # In an insertion of many pairs that can overwrite values, and in undo, positions may change.
                            any_order = at in (7, 8, 10) and kind is not OrderedBidict
                            inserted = {**dict(before), of(keys, 1): of(values, 2)}
                            del inserted[of(keys, 2)]
                            assert after == before or any_order and sorted(after) == sorted(before) or at == 10 and dict(after) == inserted, where
                            assert it.inverse == {value: key for key, value in after}, where
                            failed += 1
                        if enough:
                            break
                    assert enough, where
    print(failed > 1000)


class Memory(unittest.TestCase):
    def test_each_allocation_fails_in_turn(self):
        with tempfile.TemporaryDirectory() as room:
            with open(f"{room}/failing.c", "w", encoding="ascii") as file:
                file.write(FAILING)
            subprocess.run(["cc", "-shared", "-fPIC", "-O1", f"{room}/failing.c", "-o", f"{room}/failing.so", "-ldl"], check=True)
            how = {**os.environ, "LD_PRELOAD": f"{room}/failing.so"}
            path = f"import sys; sys.path[:0] = {sys.path!r}; import test_memory; test_memory.fail_each()"
            ran = subprocess.run([sys.executable, "-c", path], env=how, capture_output=True, text=True)
        self.assertEqual((ran.stdout, ran.stderr), ("True\n", ""))

    def test_with_little_memory(self):
        program = f"""
import sys; sys.path[:0] = {sys.path!r}
import resource
from jetukoma import BiHashMap
it, texts = BiHashMap(), BiHashMap({{"a": 1}})
resource.setrlimit(resource.RLIMIT_AS, (200 << 20,) * 2)
try:
    for number in range(1 << 62):
        it.put(number, number)
except MemoryError:
    length = len(it)
    assert (number, it[number - 1], number in it, it.inverse[0]) == (length, length - 1, False, 0)
try:
    texts.put("b" * (150 << 20), 2)
except MemoryError:
    assert (len(texts), texts["a"]) == (1, 1)
    it.clear()
    print(len(it))
"""
        ran = subprocess.run([sys.executable, "-c", program], capture_output=True, text=True)
        self.assertEqual((ran.stdout, ran.stderr), ("0\n", ""))


class Leaks(unittest.TestCase):
    def test_no_call_leaks(self):
        bad = [lambda it: it[1.5], lambda it: it.put([], 1), lambda it: it.putall([(1,)]), lambda it: it.undo(1, 1), lambda it: it.update(1), lambda it: it.forceput("\ud800", "\ud800")]
        for kind, keys, values in zip(KINDS, [int, str, int, str], [u64, bytes, str, int]):
            for call in calls_of(kind, keys, values) + bad:
                self.repeat(call, kind, keys, values)

    def repeat(self, call, kind, keys, values):
        def run(times):
            for _ in range(times):
                it = start_of(kind, keys, values)
                it.inverse.inverse
                try:
                    call(it)
                except Exception:
                    pass
                del it

        # The interpreter keeps some blocks for itself, but not one for each run.
        grown = []
        for _ in range(2):
            gc.collect()
            before = blocks()
            run(300)
            gc.collect()
            grown.append(blocks() - before)
        self.assertLess(min(grown), 250)

    def test_the_process_does_not_grow(self):
        def size():
            with open("/proc/self/statm", encoding="ascii") as file:
                return int(file.read().split()[1])

        def run():
            for kind in KINDS:
                for keys, values in [(int, int), (str, int), (str, str)]:
                    it = kind(((of(keys, n % 30) if keys is int else f"{n:02}" * 200), of(values, n % 30) if values is int else f"{n:02}" * 200) for n in range(30))
                    for _ in range(60):
                        it.update(it.copy())
                        list(it.copy().items())
                        it.inverse.copy()
                        [it.inverse[value] for value in it.values()]

        run()
        before = size()
        for _ in range(5):
            run()
        self.assertLess(size() - before, 500)


class Threads(unittest.TestCase):
    def test_eight_read_and_two_write(self):
        for kind in KINDS:
            it, wrong, over = kind({number: str(number) for number in range(200)}), [], threading.Event()

            def write(first):
                chance = random.Random(first)
                for _ in range(1500):
                    key = chance.randrange(first, 200, 2)
                    it.forceput(key, str(chance.randrange(200)))
                    it.putall([(key + 1000, str(key + 1000)), (key + 3000, str(key + 3000))])
                    it.pop(key + 1000)
                    del it.inverse[str(key + 3000)]

            def read(seed):
                chance = random.Random(seed)
                while not over.is_set():
                    key = chance.randrange(200)
                    value = it.get(key)
                    other = it.inverse.get(value) if value else None
                    if value is not None and not 0 <= int(value) < 200 or other is not None and not 0 <= other < 200 or len(it) > 204:
                        wrong.append((key, value, other))

            readers, writers = ([threading.Thread(target=what, args=(number,)) for number in range(count)] for what, count in [(read, 8), (write, 2)])
            interval = sys.getswitchinterval()
            sys.setswitchinterval(1e-5)
            for thread in readers + writers:
                thread.start()
            for thread in writers:
                thread.join()
            over.set()
            for thread in readers:
                thread.join()
            sys.setswitchinterval(interval)
            self.assertEqual(wrong, [])
            self.assertEqual(it.inverse, {value: key for key, value in it.items()})
            self.assertTrue(all(0 <= key < 200 and 0 <= int(value) < 200 for key, value in it.items()))


if __name__ == "__main__":
    unittest.main()
