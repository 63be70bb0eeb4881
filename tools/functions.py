"""Finds the functions of a text in the layout of `rt fmt`, under the names that the check uses, and removes their bodies."""
import os
import re


def module_of(path, folder):
    return re.sub(r"^(lib|main)$", "", os.path.relpath(path, f"{folder}/src").removesuffix(".rt").replace("/", "::"))


def owner_of(head, module, homes):
    """Returns the name under which the check lists the functions of an `impl` or a `trait`."""
    trait = re.match(r"(?:pub )?(?:unsafe )?trait (\w+)", head)
    if trait:
        return f"{module}::{trait[1]}"
    head, depth, at = head.partition("impl")[2], 0, 0
    while head[at : at + 1] == "<" or depth:
        depth += {"<": 1, ">": -1}.get(head[at], 0) if head[at - 1 : at + 1] not in ("->", "=>") else 0
        at += 1
        if not depth:
            break
    given, head = re.findall(r"[<,] *(?:const )?'?(\w+)", head[:at]), re.sub(r" where .*| ?\{.*", "", head[at:]).strip()
    # The check lists a `drop` as a method of the type.
    of, _, to = head.removeprefix("Drop for ").rpartition(" for ")
    kind, words = re.match(r"(&)?(?:'\w+ )?(\w+)", to), re.findall(r"\w+", to.partition("<")[2])
    own = [it for it in words if it not in ("_", *given)]
    if not kind:
        return None
    if of:
        name = "Any" if kind[2] in given else kind[2][0].upper() + kind[2][1:]
        traits = [it for it in re.findall(r"[A-Z]\w*", of) if it not in given]
        return f"{module}::{'Ref' * bool(kind[1])}{''.join([name, *own, *traits])}"
    return f"{module}::{'+'.join([kind[2], *words])}" if own or kind[2] not in homes else homes[kind[2]]


def body_of(lines, at, indent):
    """Returns the lines of the body of the function that begins at a line, as a range, or None if it has no body."""
    for first, line in enumerate(lines[at:], at + 1):
        if line == indent + "{" or line.endswith(" {") and not re.match(r" *(requires|ensures|ghost)\b", line):
            last = next((it for it in range(first, len(lines)) if lines[it] == indent + "}"), None)
            return last and (first, last)
        if line.endswith(";") or line.endswith("}") and first == at + 1:
            return None
    return None


def functions_of(lines, module, homes):
    """Yields each function: its line, the name that the check uses, and the range of its body."""
    owner, at = None, 0
    while at < len(lines):
        line, end = lines[at], None
        if line.startswith("macro_rules!"):
            end = lines.index("}", at)
        elif re.match(r"(pub )?(unsafe )?(impl|trait)\b", line):
            head = " ".join(it.strip() for it in lines[at : at + 12])
            owner = owner_of(head, module, homes)
        elif line == "}":
            owner = None
        found = re.match(r"(|    )(?:pub(?:\([^)]*\))? )?(?:final )?(?:unsafe )?fn (\w+)", line)
        if found and (owner or not found[1]):
            body = body_of(lines, at, found[1])
            yield at, f"{owner if found[1] else module}::{found[2]}".removeprefix("::"), body
            end = body and body[1]
        at = (end or at) + 1


def left_out(text, module, homes, kept, bare):
    """Returns the text without the bodies of most functions, and the names of these functions.

    A function keeps its body if its last name is in `kept`, or if it stands in a cycle. A goal of a function in `bare` is proved
    only by its answer.
    """
    lines, names = text.split("\n"), []
    for at, name, body in reversed([*functions_of(lines, module, homes)]):
        indent = re.match(" *", lines[at])[0]
        above = range(max(0, at - 3), at)
        if body and name.rpartition("::")[2] not in kept and not any("#[cycle" in lines[it] for it in above):
            lines[body[0] : body[1]] = [indent + "    unreachable!()"]
            names.append(name)
        if name in bare:
            lines[at:at] = [indent + "#[tactic(none)]"]
            for it in above:
                lines[it] = "" if lines[it].startswith(indent + "#[tactic(") else lines[it]
    return "\n".join(lines), names
