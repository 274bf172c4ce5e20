"""Holds the documents to the repository.

Usage: python3 tools/documents.py           fails where a document is not true of the repository
       python3 tools/documents.py --sizes   prints the table of sizes of docs/CHECKS.md
"""
import glob
import os
import re
import sys

sys.dont_write_bytecode = True
import listing
import pages

CODE = re.compile(r"`([^`]+)`")
DECLARING = ("crates", "rust", "include", "tests", "tools")
PLACE = re.compile(r"(crates|rust|include|tests|tools|docs|scripts|examples|archives|\.ci)/")


def code_lines(pattern, *aside):
    """Lines that are neither blank nor begin with one of these."""
    count = 0
    for path in glob.glob(pattern, recursive=True):
        for line in open(path, encoding="utf-8"):
            text = line.strip()
            count += bool(text) and not text.startswith(aside)
    return count


def size_row(name, code, specs, proofs, edits):
    """A line of the table of sizes."""
    ratio = f"{proofs / code:.1f}" if code else "no code"
    return f"| {name} | {code} | {specs} | {proofs} | {ratio} | {edits} |"


def sizes():
    """The table of sizes."""
    rows = ["| Crate | Code | Specs | Proofs | Proof lines per code line | Must-fail edits |", "|---|---|---|---|---|---|"]
    total = [0, 0, 0, 0]
    for name in listing.crates():
        at = os.path.join("crates", name)
        row = [
            code_lines(f"{at}/src/**/*.rt", "//", "#![tactic("),
            code_lines(f"{at}/specs/**/*.antt", "--"),
            code_lines(f"{at}/proofs/**/*.antt", "--"),
            len(glob.glob(f"{at}/must-fail/*.edit") + glob.glob(f"{at}/edits/*.edit")),
        ]
        total = [a + b for a, b in zip(total, row)]
        rows.append(size_row(name, *row))
    return "\n".join(rows + [size_row("all", *total)])


def declares(path, name):
    """Whether a file declares the name: a definition, statement, law or field, or a function or type of code."""
    word = re.escape(name)
    forms = {
        ".antt": rf"^\s*(?:(?:abbrev|unfoldable|pub|record|data) )*{word}(?: [^=\n]*)? ?:",
        ".rt": rf"\b(?:fn|struct|enum|const) {word}\b",
        ".rs": rf"\b(?:fn|struct|enum|const|mod) {word}\b",
        ".c": rf"^(?:\w+ )+\**{word}\(",
        ".h": rf"^(?:#define {word}\b|(?:\w+ )+\**{word}\()",
        ".py": rf"^(?:def|class) {word}\b",
    }
    form = forms.get(os.path.splitext(path)[1], rf"(^|[^\w'-]){word}([^\w'-]|$)")
    return re.search(form, open(path, encoding="utf-8").read(), re.M)


def missing_names(path):
    """Files that a document names and that are not there, and, in the promises, names that the file named before them does not declare."""
    wrong, promises = [], path == pages.CONTENTS or path.startswith(pages.FOLDER)
    for number, line in enumerate(open(path, encoding="utf-8"), 1):
        where = None
        for word in CODE.findall(line):
            if PLACE.match(word):
                where = word if os.path.isfile(word) and PLACE.match(word).group(1) in DECLARING else None
                if not os.path.exists(word):
                    wrong.append(f"{path}:{number}: no file {word}")
            elif where and promises and not declares(where, word):
                wrong.append(f"{path}:{number}: no {word} in {where}")
    return wrong


def unnamed_crates():
    """Crates that README's list of what is where leaves out."""
    text = listing.read("README.md")
    return [f"README.md: it does not say what crates/{crate} is" for crate in listing.crates() if f"`crates/{crate}`" not in text]


def form(documents):
    """The faults of the form of documents: headings, lines, contents, entries and signs."""
    wrong = [fault for path in documents for fault in pages.disorder(path)]
    short = [pages.CONTENTS, "CONTRIBUTING.md", *pages.pages()]
    wrong += [fault for path in short for fault in pages.too_long(path)]
    return wrong + pages.contents() + pages.unspoken() + [fault for path in pages.pages() for fault in pages.entries(path)]


def main():
    """Prints the table, or every fault; 1 if there is one."""
    if "--sizes" in sys.argv:
        print(sizes())
        return 0
    wrong = []
    if sizes() not in listing.read("docs/CHECKS.md"):
        wrong.append("docs/CHECKS.md: its table of sizes is not the repository's (python3 tools/documents.py --sizes)")
    documents = sorted(glob.glob("docs/**/*.md", recursive=True)) + ["README.md", "CONTRIBUTING.md", "CHANGELOG.md"]
    for path in documents:
        wrong += missing_names(path)
    wrong += unnamed_crates() + form(documents)
    for line in wrong:
        print(line)
    print(f"{len(documents)} documents, {len(wrong)} faults")
    return 1 if wrong else 0


if __name__ == "__main__":
    sys.exit(main())
