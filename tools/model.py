"""A model of a map, and random calls in the shell with the answers of the model.

A history is forty calls on a new map. The values are few, so that most calls meet a value that is in the map. Each value has its
own note, and an answer must show the right note. The calls are the same in each run.
"""
import random
import re

KINDS = ["ordered", "hashed", "ordered-hashed", "hashed-ordered", "crowded", "insertion-order"]
MOVES = ["first", "last", "pop_first", "pop_last", "to_front", "to_back", "to_front", "to_back", "iter"]
CALLS = [*["insert", "insert", "with", "put", "once", "intern", "back", "undo", "remove"] * 9, *["replace", "retain", "swap", "extract"] * 5, "clear", "drain"]
word = lambda value: value.split("'")[0]  # `a'7` is the word `a` with the note 7. Values are equal by their words.
text = lambda pair: f"({pair[0]}, {pair[1]})"
some = lambda value: f"Some({value})" if value else "None"
yes = lambda answer: "true" if answer else "false"


class Model:
    """A list of pairs in which no two share a word on a side. Each call changes the list, and returns the expected answer."""
    pairs = []

    def change(self, gone, come):
        """Removes and adds pairs. A pair takes the position of a removed pair with the same left, or else the last position."""
        turns = {word(pair[0]): pair for pair in come}
        stay = [turns.pop(word(pair[0]), None) if pair in gone else pair for pair in self.pairs]
        self.pairs = [*filter(None, stay), *turns.values()]

    def of(self, side, value):
        return next((pair for pair in self.pairs if word(pair[side]) == word(value)), None)

    def struck(self, pair):
        by_left, by_right = self.of(0, pair[0]), self.of(1, pair[1])
        if by_left and by_right:
            return ["Pair", by_left] if by_left == by_right else ["Both", by_left, by_right]
        return ["Left", by_left] if by_left else ["Right", by_right] if by_right else ["Neither"]

    def insert(self, pair, policy, put=None, refused=("LeftHeld", "RightHeld")):
        for side in (0, 1):
            if policy[side] == "r" and self.of(side, pair[side]):
                return f"Err({refused[side]}{text(pair)})"
        name, *gone = self.struck(pair)
        self.change(gone, [pair])
        named = ", ".join(map(text, gone))
        return f"Ok({put or name + (f'({named})' if len(gone) == 2 else named)})"

    def put(self, pair, policy):
        return self.insert(pair, "oo" if self.struck(pair)[0] == "Pair" else policy)

    def intern(self, side, pair):
        held = self.of(side, pair[side])
        return f"Ok({held[1 - side]})" if held else self.insert(pair, "rr", pair[1 - side], ["Occupied"] * 2)

    def take(self, side, value, back=[], name="Some"):
        gone = self.of(side, value)
        self.change([gone], back[:1])
        self.change([], back[1:])
        return f"{name}({text(gone)})" if gone else "None"

    def replace(self, side, old, new):
        pair, other = self.of(side, old), self.of(side, new)
        if not pair or other not in (None, pair):
            return f"Err({'Held' if pair else 'Missing'}({new}))"
        self.change([pair], [])
        self.change([], [(new, pair[1]) if side == 0 else (pair[0], new)])
        return f"Ok({pair[side]})"

    def swap(self, first, second):
        two = [self.of(0, first), self.of(0, second)]
        if None in two:
            return f"Err({'SecondMissing' if two[0] else 'FirstMissing'})"
        if two[0] != two[1]:
            self.change(two, [])
            self.change([], [(two[1][0], two[0][1]), (two[0][0], two[1][1])])
        return "Ok(())"

    def end(self, name, left):
        """The calls at the ends of the insertion order."""
        if name == "iter":  # Two pairs from the back, one from the front, and the rest.
            left = [*self.pairs]
            asked = [left.pop(at) if left else None for at in (-1, 0, -1)]
            return " · ".join([*(some(pair and text(pair)) for pair in asked), f"[{', '.join(map(text, left))}]"])
        at = 0 if name.endswith(("first", "front")) else -1
        pair = self.of(0, left) if name.startswith("to") else self.pairs[at] if self.pairs else None
        rest = [it for it in self.pairs if it != pair]
        if pair and name.startswith("to"):
            self.pairs = [pair, *rest] if at == 0 else [*rest, pair]
        elif pair and name.startswith("pop"):
            self.pairs = rest
        return yes(pair is not None) if name.startswith("to") else some(pair and text(pair))

    def retain(self, least):
        self.change([pair for pair in self.pairs if word(pair[1]) < word(least)], [])
        return "()"

    def extract(self, least):
        gone = [pair for pair in self.pairs if word(pair[1]) >= word(least)]
        self.change(gone, [])
        return f"Ok([{', '.join(map(text, gone))}])"

    def may_undo(self, left, back):
        own = self.of(0, left)
        stay = [pair for pair in self.pairs if pair != own] + back
        return own is not None and all(len({word(pair[side]) for pair in stay}) == len(stay) for side in (0, 1))


def history(dice, calls=CALLS):
    """Yields lines with random calls on a new map, each with the expected answer."""
    model, names = Model(), dice.randrange(2, 14)
    value = lambda: f"{chr(97 + dice.randrange(names))}'{dice.randrange(1, 10**6)}"
    for call in dice.choices(calls, k=40):
        pair, other, third = [(value(), value()) for _ in range(3)]
        both, policy, (side, on) = " ".join(pair), dice.choice(["oo", "or", "ro", "rr"]), dice.choice([(0, "left"), (1, "right")])
        name, *back = dice.choice([["Neither"], ["Left", other], ["Right", other], ["Pair", other], ["Both", other, third]])
        if call == "back":  # This undoes an insertion at once.
            name, *back = model.struck(pair)
        line, make, *given = {
            "with": [f"insert_with {policy} {both}", model.insert, pair, policy],
            "put": [f"put {policy} {both}", model.put, pair, policy],
            "once": [f"insert_no_overwrite {both}", model.insert, pair, "rr", "()", ["Occupied"] * 2],
            "intern": [f"get_by_{on}_or_insert {both}", model.intern, side, pair],
            "remove": [f"remove_by_{on} {pair[side]}", model.take, side, pair[side]],
            "replace": [f"replace_{on} {pair[side]} {other[side]}", model.replace, side, pair[side], other[side]],
            "swap": [f"swap_partners {pair[0]} {other[0]}", model.swap, pair[0], other[0]],
            "retain": [f"retain {min(pair[1], other[1])}", model.retain, min(pair[1], other[1])],
            "extract": [f"extract_into {max(pair[1], other[1])}", model.extract, max(pair[1], other[1])],
            "drain": ["drain_into", model.extract, ""],
            "iter": ["iter back front back rest", model.end, "iter", pair[0]],
            **{it: [f"{it} {pair[0]}" if it.startswith("to") else it, model.end, it, pair[0]] for it in MOVES[:-1]},
            "clear": ["clear", lambda: model.change(model.pairs, []) or "()"],
            "undo": ["len", lambda: str(len(model.pairs))],
        }.get(call, [f"insert {both}", model.insert, pair, "oo"])
        yield line, make(*given)
        if call in ("undo", "back"):
            answer, may = " ".join([pair[0], name, *sum(back, ())]), model.may_undo(pair[0], back)
            yield f"can_undo_insert {answer}", yes(may)
            if may:
                yield f"undo_insert {answer}", model.take(0, pair[0], back, "Ok")
        yield "show", "{" + ", ".join(f"{left} <> {right}" for left, right in model.pairs) + "}"
        for name in map(chr, range(97, 97 + names)):
            by_left, by_right = model.of(0, name), model.of(1, name)
            yield f"get_by_left {name}", some(by_left and by_left[1])
            yield f"get_by_right {name}", some(by_right and by_right[0])


def ascending(text):
    """Returns a map or a list of pairs in ascending order of the lefts. Any other text stays as it is."""
    if text.startswith("{"):
        return "{" + ", ".join(sorted(re.findall(r"[^\s,{]+ <> [^\s,}]+", text))) + "}"
    return f"Ok([{', '.join(sorted(re.findall(r'[(][^(),]+, [^(),]+[)]', text)))}])" if text.startswith("Ok([") else text


def histories_of(count):
    """Returns the histories of each kind of map. A map in insertion order gets as many that also have the calls at the ends of that order."""
    usual = [list(history(random.Random(seed))) for seed in range(count)]
    moving = [list(history(random.Random(seed), [*CALLS, *MOVES * 9])) for seed in range(count)]
    return {kind: usual + moving if kind == "insertion-order" else usual for kind in KINDS}


def lines_of(kind, histories):
    return "".join(f"kinds: {kind}\n" + "".join(f"{line}\n" for line, _ in one) for one in histories)


def first_wrong(program, kind, output, histories):
    """Returns the first answer that differs from the answer of the model, or None.

    The model lists pairs in insertion order. If the left side is ordered, the answer of the model is sorted before the comparison.
    If the left side is hashed, both answers are sorted.
    """
    told = iter(output.splitlines())
    for number, (line, wanted) in enumerate(it for one in histories for it in one):
        answer = next(told, "no answer")
        if kind != "insertion-order":
            wanted, answer = ascending(wanted), answer if kind.startswith("ordered") else ascending(answer)
        if answer != wanted:
            return f"tools/histories: {program}: {kind}: call {number}, {line}: the answer is {answer}, and should be {wanted}"
