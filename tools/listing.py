"""What the tools read alike: the crates and layers of crates.txt, and the functions of a source file, each by itself."""
import glob
import os
import re

CLAUSES = ("requires", "ensures")
# comments, texts, raw texts and bytes; a comment within a comment ends the outer one, so that never more is blanked than is no code
BLANKED = re.compile(r"//[^\n]*|/\*.*?\*/|\bb?r(?P<marks>#*)\".*?\"(?P=marks)|b?\"(?:[^\"\\]|\\.)*\"|\bb'(?:\\x..|\\.|[^'\\])'", re.S)
FUNCTION = re.compile(r"((?:\b(?:pub(?:\([^)]*\))?|extern|const|unsafe|ghost)\s+)*)\bfn\s+(\w+)")
LAYER = re.compile(r"# layer (\w+): *(.*)")
PRODUCTS = re.compile(r"# products: *(.*)")


def read(path):
    """A file's text."""
    with open(path, encoding="utf-8") as file:
        return file.read()


def rows():
    """The lines of crates.txt for a crate: its name, the words that say what it is, and the names it depends on."""
    for line in read("crates.txt").split("\n"):
        said, colon, rest = line.split("#")[0].partition(":")
        if colon and said.split():
            yield said.split()[0], said.split()[1:], rest.split()


def crates():
    """Each crate of crates.txt with the names it depends on, in the file's order."""
    return {name: needs for name, _, needs in rows()}


def static_libraries():
    """The crates that are built as static libraries, for callers that are not Rattle."""
    return {name for name, kind, _ in rows() if "staticlib" in kind}


def layers():
    """The layers of crates.txt from below, each with its crates, and the products."""
    lines = read("crates.txt").split("\n")
    named = [(found.group(1), found.group(2).split()) for found in map(LAYER.fullmatch, lines) if found]
    return named, [name for found in map(PRODUCTS.fullmatch, lines) if found for name in found.group(1).split()]


def below(crate, known=None):
    """The crates of the repository that a crate rests on, itself among them."""
    known = known or crates()
    found, ahead = set(), [crate]
    while ahead:
        name = ahead.pop()
        if name in known and name not in found:
            found.add(name)
            ahead += known[name]
    return found


def texts(crate, parts=("src", "specs", "proofs")):
    """The paths of a crate's code, specs and proofs."""
    found = [path for part in parts for path in glob.glob(f"crates/{crate}/{part}/**/*", recursive=True)]
    return sorted(path for path in found if os.path.isfile(path))


def closing(text, at):
    """The place after the bracket that closes the one at this place."""
    depth = 0
    for place in range(at, len(text)):
        depth += (text[place] in "([{") - (text[place] in ")]}")
        if not depth:
            return place + 1
    raise ValueError(f"the bracket at {at} is never closed")


class Function:
    """A function of a source file: its name, whether it is public, its parameters, what it returns, its clauses."""

    def __init__(self, text, found):
        self.name = found.group(2)
        self.public = bool(re.search(r"\b(pub|extern)\b", found.group(1)))
        opened = text.index("(", found.end())
        after = closing(text, opened)
        self.parameters = [part.strip() for part in split(text[opened + 1 : after - 1]) if part.strip()]
        self.clauses = {word: [] for word in CLAUSES}
        self.returns, at = self.rest(text, after)
        self.body = text[at : closing(text, at)] if text[at : at + 1] == "{" else ""
        self.end = at + len(self.body)

    def rest(self, text, at):
        """Reads the return type and the clauses from this place on; the type, and the place of the body or of what stands in its place."""
        clause = re.compile(r"\s*\b(" + "|".join(CLAUSES) + r")\b\*?\s*(?:\w+\s*)?(?=\{)")
        returns = re.compile(r"(?:(?!\b(?:" + "|".join(CLAUSES) + r")\b\*?\s*(?:\w+\s*)?\{)(?:\[[^\]]*\]|[^{;\[]))*").match(text, at)
        said, at = returns.group(0).strip(), returns.end()
        while found := clause.match(text, at):
            at = closing(text, found.end())
            self.clauses[found.group(1)].append(text[found.end() : at])
        return said[2:].strip() if said.startswith("->") else "", re.compile(r"\s*").match(text, at).end()

    def lent(self):
        """The parameters that the caller lends to be changed."""
        parted = [part.partition(":") for part in self.parameters]
        return [name.split()[-1] for name, _, kind in parted if re.search(r"&\s*(?:'\w+\s+)?mut\b", kind)]


def split(text):
    """A list's parts, by the commas that stand in no bracket."""
    parts, depth = [""], 0
    for sign in text:
        depth += (sign in "([{<") - (sign in ")]}>")
        if sign == "," and not depth:
            parts.append("")
        else:
            parts[-1] += sign
    return parts


def blank(text):
    """As many spaces in as many lines."""
    return re.sub(r"[^\n]", " ", text)


def without(pattern, text):
    """A text in which all that is of this pattern is blanked."""
    return pattern.sub(lambda found: blank(found.group(0)), text)


def functions(path):
    """The functions of a source file, in its order. Comments and string texts are blanked first, so that none is read as code."""
    text = without(BLANKED, read(path))
    return [Function(text, found) for found in FUNCTION.finditer(text)]
