"""The products that have laws: the crates of their laws and of the wrong ones that break them, and the pages of their laws."""
from typing import NamedTuple


class Product(NamedTuple):
    """A product that has laws.

    The crate `laws` has them, and the crate `wrong` has wrong products with the proofs that they break them; its file `broken` says what it is
    to break a law. A law over something of the kind `over` is one of a family, and `spoken` says in words what is of that kind. The pages of
    laws begin with `pages`, and the page of that very name says what they are.
    """

    name: str
    many: str
    laws: str
    wrong: str
    broken: str
    over: str
    spoken: dict
    pages: str

    def law_list(self):
        """The file with the list of its laws."""
        return f"crates/{self.laws}/specs/Laws.antt"

    def specs(self):
        """The folder of the wrong ones."""
        return f"crates/{self.wrong}/specs"

    def proofs(self):
        """The folder of the refutations."""
        return f"crates/{self.wrong}/proofs"


WAYS = {"to_bus": "to the bus", "to_loop": "to the loop"}
PRODUCTS = (
    Product("bridge", "bridges", "laws", "wrong", "Broken", "Event", {}, "docs/promises/laws"),
    Product("mailbox", "mailboxes", "maillaws", "mailwrong", "BrokenMail", "Direction", WAYS, "docs/promises/mailbox-laws"),
)
