"""The map that is sorted by its keys."""
from ._maps import ORDERED, MutableBidict


class BiBTreeMap(MutableBidict):
    """A two-way map that iterates in ascending order of its keys. Texts are compared by the bytes of their UTF-8.

    Its inverse iterates in the same order, which is not that of the values.

    >>> BiBTreeMap({2: "two", 1: "one"})
    BiBTreeMap({1: 'one', 2: 'two'})
    """

    _kind = ORDERED

    def _check(self):
        if self._about()[0]:
            raise TypeError("the keys of an inverse are not sorted")

    def bisect_left(self, key):
        """Returns how many keys are less than this one, which need not be contained.

        >>> BiBTreeMap({10: "ten", 20: "twenty"}).bisect_left(20)
        1
        """
        self._check()
        return self._rank(key)

    def bisect_right(self, key):
        """Returns how many keys are less than this one or equal to it.

        >>> BiBTreeMap({10: "ten", 20: "twenty"}).bisect_right(20)
        2
        """
        return self.bisect_left(key) + (key in self)

    bisect = bisect_right

    def irange(self, minimum=None, maximum=None, inclusive=(True, True), reverse=False):
        """Returns an iterator over the keys from the minimum to the maximum. None stands for no bound.

        >>> m = BiBTreeMap({10: "ten", 20: "twenty", 30: "thirty"})
        >>> list(m.irange(15)), list(m.irange(maximum=20, inclusive=(True, False)))
        ([20, 30], [10])
        """
        self._check()
        low = 0 if minimum is None else self.bisect_left(minimum) if inclusive[0] else self.bisect_right(minimum)
        high = len(self) if maximum is None else self.bisect_right(maximum) if inclusive[1] else self.bisect_left(maximum)
        return self._walk(0, reverse, low, max(low, high))

    def peekitem(self, index=-1):
        """Returns the item at a position in the order of the keys.

        >>> BiBTreeMap({10: "ten", 20: "twenty"}).peekitem(0)
        (10, 'ten')
        """
        at = index + len(self) if index < 0 else index
        for item in self._walk(2, False, at, at + 1) if at >= 0 else ():
            return item
        raise IndexError("list index out of range")
