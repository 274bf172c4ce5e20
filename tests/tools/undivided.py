"""Divisions and remainders in stores that tools/undivided.py must find, wherever they stand, and what it must not take for one."""
import os
import re

from planting import ROOT, Room

TOOL = ["python3", "tools/undivided.py"]
STORE = "crates/store/src/lib.rt"
CELLS = "crates/cells/src/lib.rt"
DEEP = "crates/store/src/deep/half.rt"
TAPE = "crates/tape/src/lib.rt"
HALF = "fn half(n: usize) -> usize {\n    n / 2\n}\n"
SAYS = "ensures { result ≡ n }"
TOLD = "cannot be told from code"

# Code that is put behind a store's, and what is said of it.
ANYWHERE = (
    ("\n" + HALF, "half divides"),
    ("\npub " + HALF, "half divides"),
    (f"\nmod deep {{\n    pub mod far {{\n        {HALF}    }}\n}}\n", "half divides"),
    (f"\nimpl Stretch {{\n    pub {HALF}}}\n", "half divides"),
    ("\nconst HALF: usize = 32768 / 2;\n", "what stands in no function divides"),
    ("\nstruct Odd {\n    pub places: [u8; 7 % 4],\n}\n", "what stands in no function takes a remainder"),
    ("\nfn half(places: [u8; 8 / 2]) -> u8 {\n    places[0]\n}\n", "half divides"),
    ("\nfn half(n: usize) -> [u8; 8 % 5] {\n    [0; 3]\n}\n", "half takes a remainder"),
    (f"\nfn half(n: usize) -> usize {SAYS} {{ n / 2 }}\n", "half divides"),
    (f"\nfn half(n: usize) -> usize requires small {{ n < 8 }} {SAYS} {{ n % 2 }} // {{ half\n", "half takes a remainder"),
    ("\n#[derive(Clone, Hash)]\nstruct Odd {}\n", "what stands in no function calls derive, which is of no store"),
    ("\n#[derive(state::Clone)]\nstruct Odd {}\n", "what stands in no function names state::Clone, which is of no store"),
    ("\n#[tactic(auto)] fn half(n: usize) -> usize { n / 2 }\n", "half divides"),
    ("\n#[tactic(auto, using(n / 2))]\nfn half(n: usize) -> usize { n }\n", "what stands in no function divides"),
    (f"\nfn one(n: usize) -> usize {SAYS} {{ n / 2 }} fn two(n: usize) -> usize {SAYS} {{ n }}\n", "one divides"),
    ("\nfn half(n: usize) -> usize\n    ensures { result ≡ n }\n{\n    n / 2 // }\n}\n", "half divides"),
    ("\nghost use Rattle.std.specs.Prelude.{◌≡◌}; fn half(n: usize) -> usize { n / 2 }\n", "half divides"),
)

# Lines of a function that hide a division behind what looks like a comment or a text.
HIDDEN = (
    'let t = b"//"; let q = p / 2;',
    'let t = b"/*"; let q = p / 2; let u = b"*/";',
    "let t = b'\"'; let q = p / 2; let u = b'\"';",
    "let t = b'\\''; let q = p / 2; // '",
    'let t = b"\\\\"; let q = p / 2; let u = b"";',
    'let t = b"\\""; let q = p / 2; let u = b"\\"";',
    'let t = br"\\"; let q = p / 2; let u = br"\\";',
    'let t = br#"""#; let q = p / 2; let u = b"";',
    'let t = b"a\nb"; let q = p / 2; let u = b"c\nd";',
    "/* { */ let q = p / 2; /* } */",
    "let q = p / /* half */ 2;",
    "let q = p // of two\n        / 2;",
)

# What ends two contracts, one after the other: in the first a bracket is hidden that the second would close, with all that is between them.
UNREAD = (
    ("-- {\n}", "-- }\n}"),
    ("{- { -} }", "{- } -} }"),
    ('× "{" }', '× "}" }'),
    ("× ⟦ n == b'{' ⟧ }", "× ⟦ n == b'}' ⟧ }"),
    ("× ⟦ n /* { */ ⟧ }", "× ⟦ n /* } */ ⟧ }"),
    ("× ⟦ n // {\n⟧ }", "× ⟦ n // }\n⟧ }"),
    ("× ( }", "× ) }"),
    ("", "}"),
)

# Lines of a function that lead out of the stores, and what is said of them.
AWAY = (
    ("bytes::copy(s, t);", "names bytes::copy, which"),
    ("let q = std::num::wrapping_add_u32(1, 2);", "names std::num::wrapping_add_u32, which"),
    ("let q = std :: num :: wrapping_add_u32 (1, 2);", "names std::num::wrapping_add_u32, which"),
    ("let q = state::capacity;", "names state::capacity, which"),
    ("let q: state::State = r;", "names state::State, which"),
    ("let q = u32::count_ones(1);", "names u32::count_ones, which"),
    ("let q = p.rem_euclid(2);", "calls rem_euclid, which"),
    ("let q = halved(p);", "calls halved, which"),
)

# Names that are brought in of what is no store.
BROUGHT = ("bytes::copy", "bytes::*", "std::num", "std as places", "state::State", "state::{Outcome, State}", "{store::Ring, std::num}", "{{std::num}}")

# What is in order, behind a store's code.
FINE = (
    "\n// n / 2 and n % 2\n/* n / 2 */\n",
    f"\nfn text(n: usize) -> usize\n    {SAYS}\n{{\n    let t = b\"n / 2 % 3\"; let u = br#\"\"/\"#; let v = b'%'; let w = b'/'; // %\n    n\n}}\n",
    "\nfn rest(n: usize) -> usize\n    requires { n % 2 ≡ 0 }\n    ensures { (result ≡ n / 2 * 2)\n      × (result % 2 ≡ 0) }\n{\n    n\n}\n",
    "\nfn rest(n: usize) -> usize\n    ghost { ℕ }\n    requires* tied { λ g. ⌜ g ≡ n % 2 ⌝ }\n"
    "    ensures even { let g = n % 2 in result % 2 ≡ g }\n{\n    n\n}\n",
    "\nghost use Rattle.std.specs.Prelude.{◌/◌, ◌%◌};\n",
    "\n#[derive(Clone, Copy, Drop)]\npub struct Odd {\n    pub n: usize,\n}\n",
    "\n#[tactic(auto, using(crate::proofs::Laws::held_at), unfolding(crate::specs::Ring::wrap))]\nfn rest(n: usize) -> usize {\n    n\n}\n",
    "\npub struct Even {\n    pub n: usize,\n    ghost even: { n % 2 ≡ 0 },\n}\n",
    "\nimpl Stretch {\n    fn long(self, s: &[u8]) -> usize {\n        Self::least(s.len(), usize::MAX)\n    }\n\n"
    "    fn least(a: usize, b: usize) -> usize {\n        if (a < b) & (a < u8::MAX) { a } else { b }\n    }\n}\n",
    "\npub mod deep;\nuse deep::{self, half as whole};\nuse self::deep::Step::*;\n\n"
    "fn far(n: usize) -> usize {\n    whole(deep::half(crate::deep::half(n)))\n}\n",
)


def within(room, path, name, code):
    """A change that puts a line of code first into a function."""
    head = re.search(rf"\bfn {name}(?:<[^>]*>)?\(.*?\n\{{\n", room.text(path), re.S).group(0)
    return path, head, head + f"    {code}\n"


def behind(room, path, code):
    """A change that puts code behind a file's."""
    return path, (room.text(path) or "") + code


def divided(room):
    """Divisions and remainders, in every place that code can stand."""
    for path, name, code, said in (
        (STORE, "place", "let q = p % cap;", "place takes a remainder"),
        (STORE, "place", "let q = (p + cap) / cap;", "place divides"),
        (STORE, "offer", "let mut q = r.len; q %= r.cap;", "offer takes a remainder"),
        (STORE, "drop_oldest", "let mut q = n; q /= 2;", "drop_oldest divides"),
        (STORE, "look", "let q = k / 2;", "look divides"),
        (STORE, "put", "let q = r.len % r.cap;", "put takes a remainder"),
        (CELLS, "replace_newest", "let q = r.len % r.cap;", "replace_newest takes a remainder"),
    ):
        change = within(room, path, name, code)
        at = room.text(path).split(change[1])[0] + change[1]
        room.finds(TOOL, f"{path}:{at.count(chr(10)) + 1}: {said}\n", change)
    for code, said in ANYWHERE:
        room.finds(TOOL, f": {said}\n", behind(room, STORE, code))
    room.finds(TOOL, f"{DEEP}:2: half divides\n", (DEEP, "pub " + HALF))
    room.finds(TOOL, "2 faults\n", (DEEP, HALF), behind(room, CELLS, HALF))


def hidden(room):
    """Divisions behind what looks like a comment, a text or a contract, and contracts that cannot be told from code."""
    for code in HIDDEN:
        room.finds(TOOL, ": place divides\n", within(room, STORE, "place", code))
    for first, second in UNREAD:
        one, two = (f"\nfn {name}(n: usize) -> usize\n    ensures {{ (result ≡ n) {end}\n" for name, end in (("one", first), ("two", second)))
        room.finds(TOOL, TOLD, behind(room, STORE, one + "{\n    n / 2\n}\n" + two + "{\n    n\n}\n"))
    room.finds(TOOL, "half has no body here", behind(room, STORE, "\nmod deep {\nfn half(n: usize) -> usize ensures { n { n / 2 } }\n"))
    room.finds(TOOL, TOLD, behind(room, STORE, "\nfn half(n: usize) -> usize\n    ensures /* { */ { result // n } { n / 2 }\n"))
    room.finds(TOOL, TOLD, behind(room, STORE, '\nghost use Rattle.std.specs.Prelude.{◌≡◌} // ; "\n;\nfn half(n: usize) -> usize { n / 2 } // "\n'))


def away(room):
    """Calls and names that lead out of the stores, and functions that are elsewhere."""
    for code, said in AWAY:
        room.finds(TOOL, f": put {said} is of no store\n", within(room, STORE, "put", code))
    for tree in BROUGHT:
        room.finds(TOOL, f"{CELLS}:1: {tree} is brought in, which is of no store\n", (CELLS, f"use {tree};\n" + room.text(CELLS)))
    room.finds(TOOL, "half names state::State, which", behind(room, CELLS, "\nfn half(s: state::State) -> u8 {\n    0\n}\n"))
    room.finds(TOOL, "names state::State, which", behind(room, CELLS, "\ntype Other = state::State;\n"))
    room.finds(TOOL, "late has no body here", behind(room, CELLS, '\nextern "C" {\n    fn late(n: u8) -> u8;\n}\n'))
    needs = re.search(r"^cells: .*", room.text("crates.txt"), re.M).group(0)
    for own in ("mod bytes {\n        pub fn look() {}\n    }\n", "use store::Ring as bytes;\n"):
        code = f"\nmod deep {{\n    {own}}}\n\nfn late() {{\n    bytes::look()\n}}\n"
        room.finds(TOOL, "late names bytes::look, which", behind(room, CELLS, code), ("crates.txt", needs, needs + " bytes"))


def empty(room):
    """Nothing to look at: a layer without stores, and stores without functions; and a new store."""
    layer = re.search(r"^# layer store: .*", room.text("crates.txt"), re.M).group(0)
    for line in ("# layer store:", layer.replace("store:", "stores:"), layer[2:]):
        room.finds(TOOL, "crates.txt: the layer store has no crate\n", ("crates.txt", layer, line))
    more = ("crates.txt", layer, layer + " tape")
    for change in ((TAPE, None), (TAPE, "pub struct Tape {\n    pub n: usize,\n}\n\n// fn wind() {}\n"), ("crates/tape/src/lib.txt", HALF)):
        room.write(change[0], "")
        room.finds(TOOL, "crates/tape: a store without functions\n", change, more)
        room.write(change[0], None)
    room.finds(TOOL, f"{TAPE}:2: half divides\n", (TAPE, HALF), more)


def fine(room):
    """What is no division: in contracts, comments, texts, bytes and proofs; and what is called of the stores' own."""
    for code in FINE:
        kept = room.text(STORE)
        room.write(DEEP, "pub fn half(n: usize) -> usize {\n    n\n}\n")
        room.write(STORE, kept + code)
        room.passes(TOOL, ", 0 faults\n")
        room.write(STORE, kept)
        room.write(DEEP, None)
    room.write("crates/store/proofs/look/Invariants.antt", "abbrev loop : goal.loop\nloop n i = i % 2 ≡ n / 2\n")
    room.passes(TOOL, ", 0 faults\n")


def run():
    """Plants every fault; how many."""
    with Room("crates.txt", "tools") as room:
        stores = re.search(r"^# layer store: (.*)", room.text("crates.txt"), re.M).group(1).split()
        for store in stores:
            room.copy(os.path.join(ROOT, "crates", store, "src"), f"crates/{store}/src")
        known = sum(len(re.findall(r"^ *(?:pub )?fn ", room.text(path), re.M)) for path in room.sources())
        room.passes(TOOL, f"{known} functions of {len(stores)} stores, 0 faults\n")
        for part in (divided, hidden, away, empty, fine):
            part(room)
        return room.count
