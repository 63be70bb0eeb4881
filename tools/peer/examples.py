#!/usr/bin/env python3
"""examples.py CRATE PACKAGE FOLDER: makes tests of the examples and tests of the Rust crate bimap, over the crate jetukoma.

CRATE is a folder of bimap 0.6.3, and PACKAGE one of jetukoma. The tool writes a package with the tests to FOLDER. It changes what
docs/RUST.md names, and prints which examples and tests it changed, and how.
"""
import os
import re
import sys

crate, package, folder = sys.argv[1:]
PAIR = r"\(&('\w'), &(\d)\)"
COPIES = [(r"Some\(&('\w'|\d+)\)", r"Some(\1)"), (PAIR, r"(\1, \2)"), (r"\.cloned\(\)", ""), (r"\|\((\w), (\w)\)\| \(\*\w, \*\w\)", r"|(\1, \2)| (\1, \2)")]
# The first example of the crate is the only one over texts.
TEXTS = [(r"Some\(&(\"\w+\")\)", r"Some(\1.into())"), (r"\(&(\"\w+\")\)", r"(\1)"), (r"\((\"\w+\"), (\"\w+\")\)", r"(\1.to_string(), \2.to_string())")]
# Values that are equal and differ in a field.
LEFT_OUT = "struct Foo"
USES = "use jetukoma::*;\nuse std::{cmp::Ordering, collections::hash_map};\n"


def examples_of(text):
    """Yields each example of a source file, with the name of its function."""
    examples = []
    for block, line in re.findall(r"(?m)^\s*//[/!] ```\n((?:\s*//[/!].*\n)*?)\s*//[/!] ```$|^ *(pub .*|#!\[.*)$", text):
        if block:
            examples.append(re.sub(r"(?m)^\s*//[/!] ?", "", block))
        else:
            name = re.match(r"pub fn (\w+)", line)
            yield from ((f"{name[1] if name else 'crate'}_{at}", it) for at, it in enumerate(examples, 1))
            examples = []


def tests_of(text):
    """Yields each test of a source file, with its name."""
    found = re.findall(r"(?ms)^    #\[test\]\n(?:    #\[.*?\]\n)*    fn (\w+)\(\) \{\n(.*?)^    \}$", text)
    yield from ((f"test_{name}", USES + body) for name, body in found)


def changed(text, changes):
    for old, new in changes:
        text = re.sub(old, new, text)
    return text


written, numbers = ["#![allow(unused)]"], {"as they are": 0, "with copies": 0, "with String": 0, "left out": 0}
for file in ("lib", "btree", "hash"):
    source = open(f"{crate}/src/{file}.rs", encoding="utf-8").read()
    for name, text in [*examples_of(source), *tests_of(source)]:
        text = text.replace("use bimap::", "use jetukoma::")
        copies = changed(text, COPIES)
        texts = changed(copies, TEXTS)
        how = "left out" if LEFT_OUT in text else "with String" if texts != copies else "with copies" if copies != text else "as they are"
        numbers[how] += 1
        if how != "as they are":
            print(f"{how}: {file}_{name}")
        if how != "left out":
            written.append(f"#[test]\nfn {file}_{name}() {{\n{texts}}}")
os.makedirs(f"{folder}/src")
with open(f"{folder}/src/lib.rs", "w", encoding="utf-8") as it:
    it.write("\n".join(written))
with open(f"{folder}/Cargo.toml", "w", encoding="utf-8") as it:
    it.write(f'[package]\nname = "examples"\nversion = "0.0.0"\nedition = "2021"\n[dependencies]\njetukoma = {{ path = "{os.path.abspath(package)}" }}\n[workspace]\n')
print(", ".join(f"{number} {how}" for how, number in numbers.items()))
