"""Holds every law of a product to two wrong ones that are proved to break it, and the documents to their lists and numbers of these.

Usage: python3 tools/laws.py           fails where a law has fewer than two, where a page of laws is not true of the repository, and where a
                                       number of docs/CHECKS.md is not
       python3 tools/laws.py --lists   prints for each law the lists of wrong bridges or mailboxes of its page
tools/products.py has the products. The laws of one are the lists `laws` and `rooms` of the file Laws.antt in the specs of its crate of laws;
the second, which looks at the room told, a product need not have. A refutation is a theorem of a file in the proofs of its crate of wrong
ones, in one of these forms, where WRONG is a wrong bridge or a wrong mailbox:
    pub NAME : Breaks WRONG LAW
    pub NAME : BreaksAs MACHINE LAW
    pub NAME : BreaksTelling WRONG LAW
    pub NAME : (e : KIND) → Breaks WRONG LAW
A law over a KIND, an event of a bridge or a direction of a mailbox, is one of a family, such as Stays, and counts with its family: a
refutation for all of the KIND counts once, and so does one for one of them. What a wrong one does is said by the remark above its definition.
"""
import glob
import os
import re
import sys
from typing import NamedTuple

sys.dont_write_bytecode = True
import law_pages
import listing
from products import PRODUCTS

CHECKS = "docs/CHECKS.md"
LEAST = 2
REMARK = re.compile(r"--[^\n]*")
LIST = re.compile(r"^(?:laws|rooms) =(.*?)∷ \[\]", re.M | re.S)
THEOREM = re.compile(r"^pub (\S+) :(?=[^\n]*\bBreaks)([^\n]*(?:\n[ \t]+[^\n]*)*)", re.M)
TERM = r"([\w']+|\([^()]*\))"
USE = re.compile(r"^use ([^\s{]+)\.\{([^}]*)\}", re.M)
DECLARED = re.compile(r"^ *(?:(?:abbrev|unfoldable|pub|record|data) )*(\w+)(?: [^=:\n]*)? :", re.M)


class Refutation(NamedTuple):
    """A theorem that a wrong one breaks a law, for all of a kind where there is a word that stands for each of them."""

    law: str
    wrong: str
    name: str
    path: str
    each: str

    def family(self):
        """The law's name without what it is over."""
        return self.law.split()[0]


def plain(term):
    """A term without the brackets around it."""
    return " ".join(term.strip("()").split())


def listed(product):
    """The laws of the lists, in their order."""
    found = LIST.findall(REMARK.sub("", listing.read(product.law_list())))
    return [plain(law) for laws in found for law in laws.split("∷")]


def refutations(product):
    """The refutations in the order of files and lines, and the theorems that speak of Breaks in another form."""
    form = re.compile(rf"(?:\((\w+) : {product.over}\) → )?Breaks(?:As|Telling)? {TERM} {TERM}")
    found, odd = [], []
    for path in sorted(glob.glob(f"{product.proofs()}/*.antt")):
        for theorem in THEOREM.finditer(REMARK.sub("", listing.read(path))):
            name, said = theorem.group(1), " ".join(theorem.group(2).split())
            if right := form.fullmatch(said):
                found.append(Refutation(plain(right.group(3)), plain(right.group(2)), name, path, right.group(1) or ""))
            else:
                odd.append(f"{path}: {name} is of none of the four forms: {said}")
    return found, odd


class Laws:
    """The laws of a product with their refutations."""

    def __init__(self, product):
        self.product = product
        self.laws = listed(product)
        self.families = list(dict.fromkeys(law.split()[0] for law in self.laws))
        self.found, self.odd = refutations(product)

    def made(self, one):
        """The wrong one of a refutation without the event or direction that it is made for."""
        over = {word for law in self.laws for word in law.split()[1:]} | {one.each}
        return " ".join(word for word in one.wrong.split() if word not in over)

    def unlisted(self):
        """Refutations of what is no law of the list."""
        known = set(self.laws)
        for family in self.families:
            known |= {f"{family} {one.each}" for one in self.found if one.each and any(law.startswith(f"{family} ") for law in self.laws)}
        strange = [one for one in self.found if one.law not in known]
        return [f"{one.path}: {one.name} is of {one.law}, which is not in the list of {self.product.law_list()}" for one in strange]

    def too_few(self):
        """Laws with fewer wrong ones than each must have."""
        faults = [] if self.laws else [f"{self.product.law_list()}: no list of laws"]
        for law in self.families:
            count = len({self.made(one) for one in self.found if one.family() == law})
            if count < LEAST:
                faults.append(f"{self.product.law_list()}: {law} is broken by {count} wrong {self.product.many}, not by {LEAST}")
        return faults

    def unread(self):
        """Files of refutations that the crate does not bring in, so that the prover does not see them."""
        lib = f"{self.product.proofs()}/Lib.antt"
        brought = re.findall(r"^pub mod (\w+)", listing.read(lib), re.M)
        names = sorted({one.path for one in self.found})
        return [f"{path}: {lib} does not bring it in" for path in names if os.path.splitext(os.path.basename(path))[0] not in brought]

    def own_meaning(self):
        """Files of the crate in which Breaks or a law's name means something of their own."""
        product, faults = self.product, []
        home = {law: f"Rattle.{product.laws}.specs." for law in self.families}
        home |= {name: f"Rattle.{product.wrong}.specs.{product.broken}" for name in ("Breaks", "BreaksAs", "BreaksTelling")}
        for path in sorted(glob.glob(f"{product.proofs()}/*.antt") + glob.glob(f"{product.specs()}/*.antt")):
            text = REMARK.sub("", listing.read(path))
            for module, names in USE.findall(text):
                for name in (one.strip() for one in names.split(",")):
                    old, _, new = name.partition(" as ")
                    if new in home or not module.startswith(home.get(old, "")):
                        faults.append(f"{path}: {name} is taken from {module}")
            if path != f"{product.specs()}/{product.broken}.antt":
                faults += [f"{path}: it declares {name}" for name in DECLARED.findall(text) if name in home]
        return faults

    def undefined(self):
        """Refutations of what is defined nowhere in the specs."""
        known, specs = law_pages.described(self.product), self.product.specs()
        strange = [one for one in self.found if one.wrong.split()[0] not in known]
        return [f"{one.path}: {one.name} is of {one.wrong}, which no file of {specs} defines" for one in strange]

    def numbers(self):
        """How many laws, wrong ones and refutations there are."""
        name, many = self.product.name, self.product.many
        wrong = len({self.made(one) for one in self.found})
        return {f"laws of a {name}": len(self.families), f"wrong {many}": wrong, f"refutations of {many}": len(self.found)}

    def wrong_numbers(self):
        """Numbers that docs/CHECKS.md does not have."""
        said = listing.read(CHECKS)
        lines = [f"- {what.capitalize()}: {count}." for what, count in self.numbers().items()]
        return [f"{CHECKS}: it does not say '{line}'" for line in lines if line not in said]

    def faults(self):
        """Every fault of the laws, their refutations, their pages and their numbers."""
        wrong = self.odd + self.too_few() + self.unlisted() + self.unread() + self.undefined() + self.own_meaning()
        return wrong + law_pages.faults(self.product, self.families, self.found) + self.wrong_numbers()


def main():
    """Prints the lists, or every fault and the numbers; 1 if there is a fault."""
    books = [Laws(product) for product in PRODUCTS]
    if "--lists" in sys.argv:
        print("".join(law_pages.lists(book.product, book.families, book.found) for book in books), end="")
        return 0
    wrong = [fault for book in books for fault in book.faults()]
    print("".join(f"{fault}\n" for fault in wrong), end="")
    for book in books:
        print(", ".join(f"{count} {what}" for what, count in book.numbers().items()))
    print(f"{len(wrong)} faults")
    return 1 if wrong else 0


if __name__ == "__main__":
    sys.exit(main())
