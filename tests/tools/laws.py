"""Laws, refutations and pages of laws with faults that tools/laws.py must find, for each product."""
from typing import NamedTuple

from planting import Room

TOOL = ["python3", "tools/laws.py"]
CHECKS = "docs/CHECKS.md"
WRONG = """-- says no
abbrev pub naysayer : Call → World → Did
naysayer = refusing 2

-- leaves the number d out
abbrev pub without : ℕ → Call → World → Did
without d = leaving d
"""
THEOREMS = """use Rattle.LAWS.specs.Laws.{First, Stays}
use Rattle.WRONG.specs.BROKEN.{Breaks, BreaksAs}
-- in words: Breaks nothing First
pub naysayer_falls : Breaks naysayer First
naysayer_falls law = law
pub without_7_falls : BreaksAs (without 7) First
without_7_falls law = law
pub every_one : (e : KIND) → Breaks naysayer (Stays e)
every_one e law = law
pub one_of_them : Breaks (without 8) (Stays ONE)
one_of_them law = law
"""
LINE = "- `without 7`: leaves the number 7 out. Proof: `without_7_falls`."
FIRST, SECOND = "pub naysayer_falls", "pub without_7_falls : BreaksAs (without 7) First"


class Side(NamedTuple):
    """A product in the room: what it is called, its crates and the file of what it is to break a law, a kind with two of it, its pages."""

    name: str
    many: str
    laws: str
    wrong: str
    broken: str
    kind: str
    one: str
    two: str
    pages: str

    def law_list(self):
        """The file with the list of laws."""
        return f"crates/{self.laws}/specs/Laws.antt"

    def specs(self, name="Wrong"):
        """A file of wrong ones."""
        return f"crates/{self.wrong}/specs/{name}.antt"

    def proofs(self, name="Wrong"):
        """A file of refutations."""
        return f"crates/{self.wrong}/proofs/{name}.antt"

    def page(self):
        """The page of laws."""
        return f"docs/promises/{self.pages}-all.md"

    def theorems(self):
        """The refutations."""
        text = THEOREMS.replace("LAWS", self.laws).replace("WRONG", self.wrong).replace("BROKEN", self.broken)
        return text.replace("KIND", self.kind).replace("ONE", self.one)

    def third(self):
        """The refutation for one of the kind."""
        return f"pub one_of_them : Breaks (without 8) (Stays {self.one})"


SIDES = (
    Side("bridge", "bridges", "laws", "wrong", "Broken", "Event", "broken", "pressed", "laws"),
    Side("mailbox", "mailboxes", "maillaws", "mailwrong", "BrokenMail", "Direction", "to_bus", "to_loop", "mailbox-laws"),
)


def build(room):
    """A small repository with two laws of each product, one of them a family, and pages that are true of them."""
    figures = ""
    for side in SIDES:
        room.write(side.law_list(), f"-- all of them\nlaws =\n    First ∷ Stays {side.one}\n    ∷ Stays {side.two}\n    ∷ []\n")
        room.write(side.proofs("Lib"), "pub mod Wrong\n")
        room.write(side.specs(), WRONG)
        room.write(side.specs(side.broken), "abbrev pub Breaks : (Call → World → Did) → Law → Type 0\n")
        room.write(side.proofs(), side.theorems())
        figures += f"- Laws of a {side.name}: 2. Two.\n- Wrong {side.many}: 3. Three.\n- Refutations of {side.many}: 4.\n"
    room.write(CHECKS, figures)
    for side, text in zip(SIDES, room.run(TOOL + ["--lists"])[1].split("## `First`\n")[1:]):
        room.write(side.page(), "# Laws\n\n## `First`: it is so\n\nStated by:\n\n- `other`: `x`\n" + text)


def few(room, side):
    """Laws with too few wrong ones, and what only looks like a refutation."""
    laws, proofs, many = side.law_list(), side.proofs(), f"wrong {side.many}"
    room.finds(TOOL, f"Second is broken by 0 {many}", (laws, "First", "First ∷ Second"))
    room.finds(TOOL, f"Third is broken by 0 {many}", (laws, "∷ []\n", "∷ []\nrooms = Third ∷ []\n"))
    room.finds(TOOL, f"First is broken by 1 {many}", (proofs, FIRST, "-- pub naysayer_falls"))
    room.finds(TOOL, f"First is broken by 1 {many}", (proofs, FIRST, "naysayer_falls"))
    room.finds(TOOL, f"First is broken by 1 {many}", (proofs, SECOND, SECOND.replace("(without 7)", "naysayer")))
    room.finds(TOOL, f"Stays is broken by 1 {many}", (proofs, side.third(), "one_of_them : Unit"))
    room.finds(TOOL, f"First is broken by 0 {many}", (proofs, None))
    room.finds(TOOL, f"{laws}: no list of laws", (laws, "laws =", "rules ="))
    twice = f"pub one_of_them : Breaks (without {side.one}) (Stays {side.one})\n"
    twice += f"pub other_of_them : Breaks (without {side.two}) (Stays {side.two})\n"
    room.finds(TOOL, f"Stays is broken by 1 {many}", (proofs, f"{side.theorems().split('pub every_one')[0]}{twice}"))


def odd(room, side):
    """Refutations of what is no law, of what is no wrong one, in another form, and where the prover does not look."""
    proofs, third, kind = side.proofs(), side.third(), side.kind
    room.finds(TOOL, "one_of_them is of Stays overrun, which is not in the list", (proofs, third, third.replace(side.one, "overrun")))
    room.finds(TOOL, "naysayer_falls is of Other, which is not in the list", (proofs, "naysayer First", "naysayer Other"))
    room.finds(TOOL, "naysayer_falls is of Other, which is not in the list", (proofs, "Breaks naysayer First", "BreaksTelling naysayer Other"))
    room.finds(TOOL, "every_one is of First e, which is not in the list", (proofs, "(Stays e)", "(First e)"))
    room.finds(TOOL, "naysayer_falls is of nobody, which no file", (proofs, "Breaks naysayer First", "Breaks nobody First"))
    room.finds(TOOL, "naysayer_falls is of none of the four forms", (proofs, "Breaks naysayer First", "⊥ → Breaks naysayer First"))
    room.finds(TOOL, "every_one is of none of the four forms", (proofs, f"(e : {kind})", "(e : Other)"))
    room.finds(TOOL, f"{proofs}: it declares Breaks", (proofs, side.theorems() + "abbrev Breaks : Type 0\nBreaks = Unit\n"))
    room.finds(TOOL, f"{proofs}: it declares BreaksTelling", (proofs, side.theorems() + "abbrev BreaksTelling : Type 0\nBreaksTelling = Unit\n"))
    room.finds(TOOL, f"{side.specs()}: it declares First", (side.specs(), WRONG + "abbrev pub First : Law\nFirst = other\n"))
    room.finds(TOOL, f"{proofs}: Other as Stays is taken from", (proofs, f"use Rattle.{side.laws}.specs.Laws.{{Other as Stays}}\n" + side.theorems()))
    room.finds(TOOL, f"{proofs}: {side.proofs('Lib')} does not bring it in", (side.proofs("Lib"), "pub mod Other\n"))
    for laws in ["other", *(other.laws for other in SIDES if other is not side)]:
        room.finds(TOOL, f"{proofs}: First is taken from Rattle.{laws}.specs.Laws", (proofs, f"use Rattle.{laws}.specs.Laws.{{First}}\n" + side.theorems()))
    for other in SIDES:
        taken = f"use Rattle.{other.wrong}.specs.{other.broken}.{{Breaks}}\n"
        if other is not side:
            room.finds(TOOL, f"{proofs}: Breaks is taken from", (proofs, taken + side.theorems()))


def lists(room, side):
    """Lists of wrong ones that are not the repository's."""
    row, page, proofs, wrong = LINE + "\n", side.page(), side.proofs(), f"wrong {side.name}"
    room.finds(TOOL, f"no {wrong} First without 7", (page, row, ""))
    room.finds(TOOL, f"no {wrong} First without 7", (page, "`without 7`", "`without 6`"))
    room.finds(TOOL, f"a {wrong} First without 6", (page, "`without 7`", "`without 6`"))
    room.finds(TOOL, f"no line of a {wrong}: - `without 7`, for `Stays e`", (page, "`without 7`", "`without 7`, for `Stays e`"))
    room.finds(TOOL, f"a {wrong} First e without 7", (page, "`without 7`", "`without 7`, for `First e`"))
    room.finds(TOOL, f"a {wrong} First without 7 {proofs} gone", (page, "`without_7_falls`", "`gone`"))
    room.finds(TOOL, f"a {wrong} First without 7 {side.proofs('Other')}", (page, "proofs/Wrong.antt`:", "proofs/Other.antt`:"))
    room.finds(TOOL, f"two of {wrong} First without 7", (page, row, row + row))
    room.finds(TOOL, f"a {wrong} First naysayer", (proofs, FIRST, "-- pub naysayer_falls"))
    room.finds(TOOL, f"a {wrong} Stays e without 8", (page, f"for `Stays {side.one}`", "for `Stays e`"))
    room.finds(TOOL, "without 7 does not do this: leaves the number 6 out", (page, "the number 7", "the number 6"))
    room.finds(TOOL, f"no line of a {wrong}: - `without 7`, which", (page, "`without 7`: leaves", "`without 7`, which leaves"))
    room.finds(TOOL, f"no {wrong} First naysayer", (page, "Broken by, in", "By, in"))


def headings(room, side):
    """Laws without a heading, with two, and headings of what is no law; and a page that has the name of no page of this product."""
    page, pages = side.page(), f"docs/promises/{side.pages}-*.md"
    room.finds(TOOL, f"{pages}: no law Stays", (page, "## `Stays`", "## Stays"))
    room.finds(TOOL, f"{pages}: a law Third, which there is not", (page, "## `Stays`", "## `Third`\n\n## `Stays`"))
    room.finds(TOOL, f"{pages}: two of law Stays", (page, "## `Stays`", "## `Stays`\n\n## `Stays`"))
    room.finds(TOOL, f"{pages}: no law First", (page, None))
    room.finds(TOOL, f"{pages}: no law First", (page, None), ("docs/promises/other-all.md", room.text(page)))


def figures(room, side):
    """Numbers of the document that are not the repository's."""
    for line in (f"Laws of a {side.name}: 2.", f"Wrong {side.many}: 3.", f"Refutations of {side.many}: 4."):
        room.finds(TOOL, f"it does not say '- {line}'", (CHECKS, line, line.replace(":", ": 1")))


def spoken(room):
    """A direction is said in words where a wrong mailbox is described."""
    side = SIDES[1]
    third = side.third().replace("without 8", "without to_loop")
    right = "- `without to_loop`, for `Stays to_bus`: leaves the number to the loop out. Proof: `one_of_them`."
    room.write(side.proofs(), side.theorems().replace(side.third(), third))
    room.passes(TOOL + ["--lists"], right)
    room.write(side.proofs(), side.theorems())


def run():
    """Plants every fault; how many."""
    with Room("tools") as room:
        build(room)
        for side in SIDES:
            room.passes(TOOL, f"2 laws of a {side.name}, 3 wrong {side.many}, 4 refutations of {side.many}\n")
        room.passes(TOOL, "\n0 faults\n")
        room.passes(TOOL + ["--lists"], LINE)
        spoken(room)
        for faults in (few, odd, lists, headings, figures):
            for side in SIDES:
                faults(room, side)
        return room.count
