"""What the maps must do: a list of pairs, and what a type can be. No test is in this file."""
import sys

import jetukoma
from jetukoma import BiBTreeMap, BiHashMap, OrderedBidict, bidict

KINDS = [bidict, OrderedBidict, BiHashMap, BiBTreeMap]
TYPES = [int, jetukoma.u64, str, bytes]


def of(type, number):
    """Returns the value of a type for a number from 0 to 29. Another number has another value."""
    if type is int:
        return (number - 15) * 2**59
    if type is jetukoma.u64:
        return number << 59
    text = ["", "é", "a\0b", "x" * 1000, "x" * 300 + "é"][number % 5] + chr(97 + number)
    return text if type is str else text.encode() + b"\xff"


class Model:
    """Pairs in the order of a kind of map."""

    def __init__(self, kind, pairs=()):
        self.kind, self.pairs = kind, list(pairs)

    def at(self, side, value):
        """Returns the position of the pair that has this value on a side, or None."""
        return next((i for i, pair in enumerate(self.pairs) if pair[side] == value), None)

    def put(self, pair, on_dup, key_side=0):
        """Inserts a pair. Returns the name of the error if the policy refuses it."""
        keys, values = self.at(key_side, pair[key_side]), self.at(1 - key_side, pair[1 - key_side])
        if keys is None and values is None:
            self.pairs.append(pair)
        elif keys != values:
            which = "kv" if keys is not None and values is not None else "key" if values is None else "val"
            action = getattr(on_dup, which).name
            if action != "DROP_OLD":
                return {"kv": "KeyAndValue", "key": "Key", "val": "Value"}[which] if action == "RAISE" else None
            # The position that the new pair takes, or the end.
            at = (keys if keys is not None else values) if self.kind is OrderedBidict else self.at(0, pair[0])
            new = self.pairs + [None] if at is None else list(self.pairs)
            new[len(self.pairs) if at is None else at] = pair
            gone = {keys, values} - {None, at}
            self.pairs = [each for i, each in enumerate(new) if i not in gone]
        return None

    def put_all(self, pairs, on_dup, key_side=0):
        before = self.pairs
        self.pairs = list(before)
        for pair in pairs:
            error = self.put(pair, on_dup, key_side)
            if error:
                self.pairs = before
                return error
        return None

    def pop(self, side, value):
        at = self.at(side, value)
        return None if at is None else self.pairs.pop(at)[1 - side]

    def move(self, side, value, last):
        """Moves a pair to the end, or to the beginning. Returns whether there is one."""
        at = self.at(side, value)
        if at is not None:
            pair = self.pairs.pop(at)
            self.pairs.insert(len(self.pairs) if last else 0, pair)
        return at is not None

    def items(self):
        """Returns the pairs in the order of iteration. That of a BiHashMap is not specified."""
        return sorted(self.pairs) if self.kind in (BiBTreeMap, BiHashMap) else self.pairs


def items_of(it):
    return sorted(it.items()) if type(it) is BiHashMap else list(it.items())


def blocks():
    """Returns how many blocks of memory the interpreter has."""
    return sys.getallocatedblocks()
