"""The texts of Rattle files as tools/layers reads them: without comments and contracts, and cut into functions."""
import re
from glob import glob

# A function or macro in the layout of `rt fmt`.
FUNCTION = re.compile(
    r"(?ms)^( *)(?:pub(?:\([a-z]+\))? )?(?:final )?(?:fn|macro_rules!) (\w+)(.*?)(?:;\n|\{\}\n|\{\n(.*?)^\1\})"
)


class Function:
    """A function or a macro. The head of a macro is empty. `around` is the head of the `impl` or trait that it stands in."""

    def __init__(self, path, code, found, heads):
        self.path, self.crate, self.file = path, path.split("/")[0], path.split("/", 2)[2]
        self.line, self.name, self.head, self.body = line_of(code, found.start()), found[2], found[3].strip(), found[4] or ""
        # The type that it returns.
        self.result = re.split(r"\swhere\s", found[3].rpartition("->")[2])[0].strip() if "->" in found[3] else ""
        around = [head for at, head in heads if found[1] and at < found.start()]
        self.around = "".join(around[-1:])

    def meter(self):
        """Returns the name of the meter that the function is handed, or an empty text."""
        types = "|".join(["impl Meter", *re.findall(r"(\w+): Meter\b", self.head)])
        return "|".join(re.findall(rf"(\w+): &mut (?:{types})\b", self.head))


def line_of(text, at):
    return text.count("\n", 0, at) + 1


def blanks(text):
    return re.sub(r"[^\n]", " ", text)


def without_comments(text):
    """Returns the text with blanks for comments, ghost imports, attributes and texts. Every line keeps its number."""
    text = re.sub(r'"(?:\\.|[^"\\])*"|\'(?:\\.|[^\'\\])\'', lambda it: '"' + blanks(it[0][1:-1]) + '"', text)
    return re.sub(r"//[^\n]*|(?m:^\s*ghost use [^;]*;)|(?m:^\s*#!?\[[^\]]*\])", lambda it: blanks(it[0]), text)


def without_clauses(text):
    """Returns the text without contracts and ghost members, which is what runs.

    A contract or a ghost member begins a line, and ends where its braces close.
    """
    lines, depth = [], 0
    for line in text.splitlines():
        if depth or re.match(r"\s*(requires|ensures\*?|(pub )?ghost)\b", line):
            depth += line.count("{") - line.count("}")
            line = ";" if line.endswith(";") and not depth else ""
        lines.append(line + "\n")
    return "".join(lines)


def functions_of(path, code):
    """Returns each function and macro of a file in the layout of `rt fmt`."""
    heads = [(it.start(), it[0]) for it in re.finditer(r"(?ms)^(?:pub(?:\([a-z]+\))? )?(?:impl|trait)\b.*?\{", code)]
    return [Function(path, code, it, heads) for it in FUNCTION.finditer(code)]


def texts_of(crates):
    """Returns the texts of these crates by their paths, without comments. Files and folders of tests are left out."""
    texts = {}
    for path in sorted(it for crate in crates for it in glob(f"{crate}/src/**/*.rt", recursive=True)):
        if not path.endswith("tests.rt") and "/tests/" not in path:
            with open(path, encoding="utf-8") as file:
                texts[path] = without_comments(file.read())
    return texts
