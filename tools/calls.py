"""The calls and types of the sources that a caller reaches, each with its docs, its signature in short form and what it needs."""
import re
from collections import namedtuple
from glob import glob

#    The names of maps that have calls of their own, each with its indexes. Such a call begins with the name.
MAPS = {"BiHashMap": ["HashIndex", "HashIndex"], "BiBTreeHashMap": ["Ordered", "HashIndex"], "BiHashBTreeMap": ["HashIndex", "Ordered"],
        "BiInsertionOrderMap": ["HashIndex", "HashIndex"]}
#    Where calls are: the types and traits that have them, and the files.
OWNERS = ["BijectiveMap", *MAPS, "Seeded", "Bijection", "Interning", "Inverse", "JsonObject", "JsonKey", "JsonValue", "Undoable", "CopyLeft", "Journaled", "File", "Overwritten", "OnHeld"]
SOURCES = ["crates/bimap_kinds/src/*.rt", "crates/bimap_any/src/*.rt", "crates/bimap_base/src/*.rt", "crates/bimap/src/**/*.rt", "crates/bimap_undo/src/*.rt",
           "crates/bimap_journal/src/journaled.rt", "crates/bimap_journal/src/journaled/*.rt", "crates/bimap_journal/src/file.rt"]
#    Traits of these names that no caller names: the numbers of JSON.
WITHOUT_CALLS = ["crates/bimap/src/value/numbers.rt"]
#    What the crates give out, module by module.
MODULES = {"bimap": "crates/bimap/src/lib.rt", "bimap::btree": "crates/bimap/src/btree.rt", "bimap::hash": "crates/bimap/src/hash.rt",
           "bimap::insertion_order": "crates/bimap/src/insertion_order.rt", "bimap::value": "crates/bimap/src/value.rt", "bimap_undo": "crates/bimap_undo/src/lib.rt",
           "bimap_journal": "crates/bimap_journal/src/lib.rt", "bimap_dynamic": "crates/bimap_dynamic/src/lib.rt"}
#    The types that calls return or take, in the order of the page.
TYPES = ["crates/bimap_base/src/overwritten.rt", "crates/bimap_base/src/policy.rt", "crates/bimap_base/src/refusal.rt", "crates/bimap_kinds/src/seeded.rt",
         "crates/bimap/src/call.rt",
         "crates/bimap/src/undone.rt", "crates/bimap/src/value/object.rt", "crates/bimap/src/value/pairs.rt", "crates/bimap/src/value/sides.rt",
         "crates/bimap_undo/src/entry.rt", "crates/bimap_undo/src/refusal.rt", "crates/bimap_undo/src/operations.rt",
         "crates/bimap_journal/src/fault.rt", "crates/bimap_journal/src/file.rt", "crates/bimap_dynamic/src/any_of.rt"]
#    What is not named in brackets: all types of values have these, and an index is what a map's name says.
ALWAYS = {"Eq", "Drop", "Sized", "BuildHasher", "Index", "WalkedIndex", "EmptyIndex", "DefaultIndex", "CompactedIndex", "Bijection"}
OF_SIDES = {"Ordered": ("an ordered left", "an ordered right"), "HashIndex": ("`BiHashMap`, `BiHashBTreeMap`", "a hashed right"), "InsertionOrder": ("`BiInsertionOrderMap`", "")}
OPERATORS = {"PartialEq": "`==`, `!=`", "PartialOrd": "`partial_cmp`, `<`, `<=`, `>`, `>=`", "Ord": "`cmp`", "Hash": "`hash`", "Debug": "`{:?}`", "IntoIterator": "`for (l, r) in map`"}

Call = namedtuple("Call", "owner name path docs signature needs returns has_condition")


def read(path):
    with open(path, encoding="utf-8") as file:
        return file.read()


# Signatures.
def end_of(text, at):
    """The index after the bracket that closes the one at an index."""
    depth = 0
    while True:
        arrow = text[at - 1 : at + 1] in ("->", "=>")
        depth += text[at] in "(<[" and 1 or text[at] in ")>]" and not arrow and -1 or 0
        at += 1
        if not depth:
            return at


def parts_of(text):
    """What stands between the commas outside of brackets."""
    parts, at, start = [], 0, 0
    while at < len(text):
        if text[at] in "(<[":
            at = end_of(text, at)
            continue
        if text[at] == ",":
            parts.append(text[start:at].strip())
            start = at + 1
        at += 1
    return [it for it in [*parts, text[start:].strip()] if it]


def bounds_of(text):
    """The parameters of a list of generics, each with its bounds."""
    found = {}
    for it in parts_of(text):
        name, _, bounds = it.partition(":")
        found.setdefault(name.strip(), []).extend(b.strip() for b in re.split(r" \+ ", bounds) if b.strip() and b.strip()[0] != "'")
    return found


def head_of(lines, at):
    """The lines of an item up to its clauses or its body, in one line, and its `where`."""
    head, where, is_where = [], [], False
    for line in lines[at:]:
        it = line.strip()
        if re.match(r"(requires|ensures)\b", it) or it == "{":
            break
        is_where = is_where or it.startswith("where")
        (where if is_where else head).append(re.sub(r"^where\b", "", it))
        if it.endswith(("{", ";")):
            break
    texts = [re.sub(r",\s*([)>\]])", r"\1", re.sub(r"([(<\[]) ", r"\1", " ".join(it)).rstrip("{; ,")) for it in (head, where)]
    return [re.sub(r"\s+", " ", it).strip() for it in texts]


def has_condition(lines, at):
    """Whether the function that begins at a line requires something of its caller."""
    for line in lines[at:]:
        it = line.strip()
        if it.startswith("requires "):
            return True
        if it.endswith(";") or it == "{" or it.endswith(" {") and not it.startswith("ensures "):
            return False
    return False


def short(text, given):
    """A type without lifetimes and paths, in which the type of an argument that is used once is written out."""
    text = re.sub(r"&'\w+ ", "&", re.sub(r"<'\w+>", "", re.sub(r"'\w+, ", "", re.sub(r"\bmut (?!self)(?=\w+:)", "", text)))).replace(", I::Way", "").replace("by_rank::", "")
    for name, bounds in given.items():
        first = next((it for it in bounds if re.match(r"(\w*Query|Fn\w*|IntoIterator|RangeBounds)\b", it)), None)
        if first:
            text = re.sub(rf"\b{name}\b", "impl " + re.sub(r"&'\w+ ", "&", first), text)
    return text


def signature_of(head):
    """The generics, the arguments and the result of a function."""
    at = head.index("fn ") + 3
    name = re.match(r"\w+", head[at:])[0]
    at, given = at + len(name), ""
    if head[at] == "<":
        end = end_of(head, at)
        given, at = head[at + 1 : end - 1], end
    end = end_of(head, at)
    return name, bounds_of(given), head[at + 1 : end - 1], head[end:].replace("->", "", 1).strip()


def owner_of(head):
    """The trait, the type and the generics of an `impl`, or the trait that is declared."""
    trait = re.match(r"pub trait (\w+)(.*)", head)
    if trait:
        return trait[1], None, {}, ""
    at, given = len("impl"), ""
    if head[at] == "<":
        end = end_of(head, at)
        given, at = head[at + 1 : end - 1], end
    of, _, to = head[at:].strip().rpartition(" for ")
    name = re.match(r"&?(?:'\w+ )?(\w+)", to)
    return name and name[1], re.sub(r"^(\w+::)+|<.*", "", of) or None, bounds_of(given), to


def needs_of(given, where, to):
    """What a call needs of the map and of the types."""
    needs, arguments = [], parts_of(to[to.index("<") + 1 : -1]) if "<" in to else []
    while arguments and arguments[0].startswith("BijectiveMap<"):
        arguments = parts_of(arguments[0][len("BijectiveMap<") : -1])
    sides = [re.match(r"\w+", it)[0] for it in arguments[2:4]] if len(arguments) == 4 else []
    needs += [OF_SIDES[it][side] for side, it in enumerate(sides) if it in OF_SIDES]
    sides = MAPS.get(to.partition("<")[0], sides)
    if any("CopiedIndex" in it for bounds in given.values() for it in bounds):
        needs.append("hash builders: `Clone`")
    for name, bounds in [*given.items(), *bounds_of(where).items()]:
        of = sides["LR".index(name)] if name in ("L", "R") and sides else None
        told = ALWAYS | ({"Ord"} if of == "Ordered" else {"Hash"} if of == "HashIndex" else set())
        kept = [re.sub(r"<.*|^\w+::", "", it) for it in bounds if re.match(r"\w+(::\w+)*(<.*>)?$", it)]
        kept = [it for it in kept if it not in told and it != "CopiedIndex" and not re.match(r"(\w*Query|Fn\w*|IntoIterator|RangeBounds|Lookup)$", it)]
        if kept:
            needs.append((name, kept))
    return needs


# The calls of the sources.
def calls_of(path, given_out):
    """The calls of a file that a caller reaches: of OWNERS, and functions that the crates give out."""
    lines, docs, owner, trait = read(path).split("\n"), [], None, None
    generics, to = {}, ""
    for at, line in enumerate(lines):
        doc = re.match(r"\s*/// ?(.*)$", line)
        if doc:
            docs.append(doc[1])
            continue
        if re.match(r"(impl\b|pub trait )", line):
            owner, trait, generics, to = owner_of(head_of(lines, at)[0])
            if trait in OPERATORS and owner in OWNERS:
                yield operator(owner, trait, path, docs, generics, to)
        elif line == "}":
            owner = None
        found = re.match(r"(    )?(pub |final )?fn (\w+)", line)
        is_trait = owner and not to
        if found and (found[1] and owner in OWNERS and not trait and (found[2] or is_trait) or not found[1] and found[3] in given_out and found[2]):
            yield call(owner if found[1] else "", path, docs, generics if found[1] else {}, to if found[1] else "", lines, at)
        if not re.match(r"\s*#\[", line):
            docs = []


def call(owner, path, docs, generics, to, lines, at):
    """The call of the function that begins at a line."""
    head, where = head_of(lines, at)
    name, own, arguments, result = signature_of(head)
    is_method = re.match(r"(&(mut )?)?self\b", arguments)
    before = "" if not owner or is_method and owner not in ("Bijection", "JsonObject", "JsonKey", "JsonValue", "CopyLeft", "Overwritten", "OnHeld") else f"{owner}::"
    before = "Map::" if not is_method and owner in ("BijectiveMap", "JsonObject") else before
    result = result.replace("Self", "Map") if before == "Map::" else result
    #    (a type that two arguments share keeps its name)
    shared = {it: bounds for it, bounds in own.items() if len(re.findall(rf"\b{it}\b", arguments)) > 1 and any(re.match(r"\w*Query\b", b) for b in bounds)}
    once = {it: bounds for it, bounds in own.items() if it not in shared}
    generics_told = f"<{', '.join(f'{it}: {bounds[0]}' for it, bounds in shared.items())}>" if shared else ""
    told = f"{before}{name}{generics_told}({short(arguments, once)})" + (f" -> {short(result, once)}" if result else "")
    needs = needs_of({**generics, **own}, where, to)
    return Call("BijectiveMap" if owner in MAPS else owner, name, path, docs, told, needs, result, has_condition(lines, at))


def operator(owner, trait, path, docs, generics, to):
    """What an `impl` of a trait of the standard library gives a type."""
    told = OPERATORS[trait].strip("`")
    told = told.replace("in map", "in &map") if to.startswith("&") else told
    return Call(owner, trait, path, docs, told, needs_of(generics, "", re.sub(r"^&'\w+ ", "", to)), "", False)


def given_by(path):
    """The names that a module gives out."""
    return [name for names in re.findall(r"(?m)^pub use (?:\w+::)+([^;]*);|^pub type (\w+)", read(path)) for it in names for name in re.findall(r"\w+", it)]


def all_calls():
    """The calls of all sources, in the order of the files."""
    given_out = {name for path in MODULES.values() for name in given_by(path)}
    paths = {it for pattern in SOURCES for it in glob(pattern, recursive=True)} - set(WITHOUT_CALLS)
    return [it for path in sorted(paths) for it in calls_of(path, given_out)]


def items_of(path):
    """The types of a file, each with its docs, its head and its lines."""
    docs, lines = [], read(path).split("\n")
    for at, line in enumerate(lines):
        doc = re.match(r"/// ?(.*)$", line)
        found = re.match(r"pub (?:struct|enum) (\w+)([^{;]*)", line)
        if found:
            end = at if line.endswith(";") else lines.index("}", at)
            before = next(it for it in range(at, -1, -1) if not it or not lines[it - 1].startswith("#["))
            yield found[1], found[2].strip(), docs, lines[before : end + 1]
        docs = [*docs, doc[1]] if doc else docs if line.startswith("#[") else []
