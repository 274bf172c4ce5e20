"""Sees that no store divides or takes a remainder, on bytes and on cells alike: positions go round by a comparison.

Usage: python3 tools/undivided.py
The stores are the crates of the layer `store` in crates.txt. It fails in these cases:
- The code of a store has a division or a remainder: in a function, public or not, in a method, in a nested module or in a constant.
  Comments, texts and bytes are no code, nor is what is only proved: the clauses of a contract, a struct's ghost fields, `ghost use` and
  the line of tactics. Of the derives only those of Clone, Copy and Drop are known to write no division.
  The invariants of loops stand in the proofs, which are not read.
- The code of a store brings in, names or calls what is of no store, a type too: it could divide there. The language's own are its
  operators and casts, `len` of a slice, and `MAX` and `MIN` of a number's type; none of these divides.
- A function has no body here, or something cannot be told from code, as a contract with a comment or a text in it.
- The layer has no crate, or a crate of it has no function.
"""
import re
import sys

sys.dont_write_bytecode = True
import listing

# what is no code: what is blanked everywhere, a ghost use without a comment in it, and the start of a clause or of a ghost field
GHOST_USE = r"\bghost\s+use\b(?:(?!--|//|/\*)[^;\"])*;"
CLAUSE = r"(?P<clause>\b(?:requires\*?|ensures\*?|ghost)(?:\s+\w+\s*:?)?\s*(?=\{))"
# what the prover tries, and the derives that copy or let go
TACTIC = r"#!?\[tactic\((?:[^()\"/%]|\([^()\"/%]*\))*\)\]"
DERIVE = r"#\[derive\((?:Clone|Copy|Drop)(?:, (?:Clone|Copy|Drop))*\)\]"
ASIDE = re.compile(f"{listing.BLANKED.pattern}|{GHOST_USE}|{TACTIC}|{DERIVE}|{CLAUSE}", re.S)
# a clause's brackets, and what could hide one; and signs and words that no code has
BRACKET = re.compile(r"--|//|/\*|\{-|'[()\[\]{}]'|[()\[\]{}\"]")
PAIRS = ("()", "[]", "{}")
LEFT = re.compile(r"[\"⌜⌝⟦⟧]|\b(?:requires|ensures|ghost)\b")

SIGN = {"/": "divides", "%": "takes a remainder"}
USE = re.compile(r"\buse\s+([^;]*);")
LIMIT = re.compile(r"\b[iu](?:8|16|32|64|size)\s*::\s*(?:MAX|MIN)\b")
PATH = re.compile(r"\b(\w+)(?:\s*::\s*\w+)+")
CALL = re.compile(r"\b([a-z_]\w*)\s*\(")
NAMED = re.compile(r"\b(?:mod|struct|enum|type)\s+(\w+)")
HERE = {"crate", "self", "super", "Self"}
# what stands before a parenthesis and is no function, and the language's own
WORDS = set("if else while match return break in let mut pub as".split())
OWN = {"len"}


def line(text, at):
    """The number of the line at this place."""
    return text.count("\n", 0, at) + 1


def after(text, at):
    """The place after the clause whose brace stands at this place."""
    opened = []
    for found in BRACKET.finditer(text, at):
        sign = found.group(0)
        if sign in ("(", "[", "{"):
            opened.append(sign)
        elif opened and opened[-1] + sign in PAIRS:
            opened.pop()
        else:
            break
        if not opened:
            return found.end()
    raise ValueError(f"the clause of line {line(text, at)} cannot be told from code")


def code_of(text):
    """A source text with all that is no code blanked."""
    kept, at = "", 0
    while found := ASIDE.search(text, at):
        end = after(text, found.end()) if found.group("clause") else found.end()
        kept += text[at : found.start()] + listing.blank(text[found.start() : end])
        at = end
    kept += text[at:]
    if found := LEFT.search(kept):
        raise ValueError(f"{found.group(0)} in line {line(kept, found.start())} cannot be told from code")
    return kept


def heads(tree):
    """The first words of the paths that a use names."""
    tree = tree.strip()
    return [head for part in listing.split(tree[1:-1]) for head in heads(part)] if tree[:1] == "{" else re.findall(r"^\w*", tree)


class Source:
    """A file of a store: its code, and its functions with the place where each begins."""

    def __init__(self, store, path):
        self.store, self.path = store, path
        self.code = code_of(listing.read(path))
        self.functions = [(found.start(), listing.Function(self.code, found)) for found in listing.FUNCTION.finditer(self.code)]

    def at(self, place):
        """The line of this place, and the function in which it stands."""
        names = [function.name for start, function in self.functions if start <= place < function.end]
        return f"{self.path}:{line(self.code, place)}: {names[0] if names else 'what stands in no function'}"

    def divisions(self):
        """Where the code divides or takes a remainder, and functions whose code is not here."""
        wrong = [f"{self.at(start)} has no body here" for start, function in self.functions if not function.body]
        return wrong + [f"{self.at(found.start())} {SIGN[found.group(0)]}" for found in re.finditer("[/%]", self.code)]

    def brings(self, homes):
        """The names that the code brings in of stores, and where it brings in others. By the homes, which are the first words of their paths."""
        names, wrong = set(), []
        for found in USE.finditer(self.code):
            if homes.issuperset(heads(found.group(1))):
                names |= set(re.findall(r"\w+", found.group(1)))
            else:
                wrong.append(f"{self.path}:{line(self.code, found.start())}: {' '.join(found.group(1).split())} is brought in, which is of no store")
        return names, wrong

    def strangers(self, homes, others, functions):
        """Where the code brings in, names or calls what is of no store. The others are the crates that are no stores and that it could name."""
        names, wrong = self.brings(homes)
        code = listing.without(LIMIT, listing.without(USE, self.code))
        for found in PATH.finditer(code):
            if found.group(1) not in homes | names - others:
                wrong.append(f"{self.at(found.start())} names {''.join(found.group(0).split())}, which is of no store")
        for found in CALL.finditer(listing.without(PATH, code)):
            if found.group(1) not in functions | names | OWN | WORDS:
                wrong.append(f"{self.at(found.start())} calls {found.group(1)}, which is of no store")
        return wrong


def sources(stores):
    """The files of the stores that can be read, and the faults of those that cannot."""
    files, wrong = [], []
    for store in stores:
        for path in listing.texts(store, ("src",)):
            try:
                files += [Source(store, path)] if path.endswith(".rt") else []
            except ValueError as fault:
                wrong.append(f"{path}: {fault}")
    return files, wrong


def main():
    """Prints every fault; 1 if there is one."""
    stores, known = dict(listing.layers()[0]).get("store", []), listing.crates()
    files, wrong = sources(stores)
    wrong += [] if stores else ["crates.txt: the layer store has no crate"]
    wrong += [f"crates/{store}: a store without functions" for store in stores if not any(file.functions for file in files if file.store == store)]
    functions = [function.name for file in files for _, function in file.functions]
    for file in files:
        others = {"std", *known.get(file.store, [])} - set(stores)
        declared = {name for other in files if other.store == file.store for name in NAMED.findall(other.code)}
        wrong += file.divisions() + file.strangers(HERE | set(stores) | declared - others, others, set(functions))
    print("\n".join(wrong + [f"{len(functions)} functions of {len(stores)} stores, {len(wrong)} faults"]))
    return 1 if wrong else 0


if __name__ == "__main__":
    sys.exit(main())
