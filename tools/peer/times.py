"""Makes the calls of crates/tool_bench from Python.

`times.py PAIRS times KEYS KIND` uses a map of the package jetukoma, or of bidict if KIND is `bidict`. One call inserts all items,
one call returns them all, and one call copies the map. Look-ups and removals make one call for each item.
"""
import sys
import time

WORD = 1 << 64


def memory():
    """Returns how many bytes of memory the process has for itself."""
    with open("/proc/self/statm", encoding="ascii") as file:
        held, shared = file.read().split()[1:3]
    return (int(held) - int(shared)) * 4096


def main(pairs, keys, kind):
    package = __import__("jetukoma" if kind.startswith("Bi") else "bidict")
    types = {"keys": package.u64, "values": package.u64} if kind.startswith("Bi") else {}
    bimap = getattr(package, kind)(**types)
    lefts, rights, step = (1, 1, 1) if keys == "rising" else (0x9E3779B97F4A7C15, 0xD1B54A32D192ED03, 7907 if pairs % 7919 == 0 else 7919)
    left, right = ([at * factor % WORD for at in range(2 * pairs)] for factor in (lefts, rights))
    order = [at * step % pairs for at in range(pairs)]
    items, newer = list(zip(left[:pairs], right)), list(zip(left[:pairs], right[pairs:]))
    seek = [left[at] for at in order]

    def timed(call, work, found=lambda got: got):
        start = time.perf_counter_ns()
        got = work()
        print(kind, call, f"{(time.perf_counter_ns() - start) / pairs:.1f}", found(got))

    def put(which):
        free = len(bimap)
        bimap.forceupdate(which)
        return pairs - (len(bimap) - free)

    def gets(what, seek):
        return sum(what.get(it) is not None for it in seek)

    before = memory()
    timed("insert", lambda: bimap.putall(items), lambda _: pairs - len(bimap))
    print(kind, "bytes", max(memory() - before, 0) // pairs, 0)
    timed("hit-by-left", lambda: gets(bimap, seek))
    timed("hit-by-right", lambda: gets(bimap.inverse, [right[at] for at in order]))
    timed("miss-by-left", lambda: gets(bimap, [left[at + pairs] for at in order]))
    timed("same-pair", lambda: put(items))
    timed("overwrite", lambda: put(newer))
    timed("walk", lambda: list(bimap.items()), lambda got: sum(a ^ b for a, b in got) % WORD)
    timed("clone", bimap.copy, len)
    timed("remove", lambda: sum(bimap.pop(it, None) is not None for it in seek))


main(int(sys.argv[1]), *sys.argv[3:])
