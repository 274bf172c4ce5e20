"""Faults of documents that tools/documents.py must find."""
from planting import Room

TOOL = ["python3", "tools/documents.py"]
NOTE = "docs/NOTE.md"
PROMISES = "docs/PROMISES.md"
PAGE = "docs/promises/one.md"
LAWS = ("docs/promises/laws-all.md", "docs/promises/mailbox-laws-all.md")
PLAIN = ("docs/promises/laws.md", "docs/promises/mailbox-laws.md")
SIGNS = "docs/promises/signs.md"
ENTRY = """# One

## First sentence: it is seven

Stated by:

- `crates/one/specs/Lib.antt`: `seven`, `known`

Proved by:

- `crates/one/src/lib.rt`: `first`

Run by:

- `tests/c/calls.c`: `calls`
- `tests/run.py`: `runs`
- `tests/run.rs`: `holds`
- `tests/c/calls.h`: `asks`, `ASKED`

## Second sentence: nobody runs it

Stated by:

- `crates/one/src/lib.rt`

Proved by: nothing; it is run.

Run by: nothing; the proof alone.
"""
LAW = """# Laws

## `First`: it is so

Stated by:

- `crates/one/specs/Lib.antt`: `seven`

Proved by:

- `crates/one/src/lib.rt`: `first`

Broken by, in `crates/one/src/lib.rt`:

- `naysayer`: says no. Proof: `naysayer-falls`.
"""
CONTENTS = """# Contents

- [One](promises/one.md): 2 entries.
- [Laws](promises/laws-all.md): 1 entry.
- [Laws](promises/mailbox-laws-all.md): 1 entry.
- [What laws are](promises/laws.md): what a law is.
- [What laws are](promises/mailbox-laws.md): what a law is.
- [Signs](promises/signs.md): how to read.
"""


def build(room):
    """A small repository with one crate, and documents that are true of it."""
    room.write("crates.txt", "# layer base: one\none:\n")
    room.write("crates/one/src/lib.rt", "// a comment\npub fn first() -> u8 {\n    7\n}\n")
    room.write("crates/one/specs/Lib.antt", "-- a comment\nabbrev pub seven : ℕ\nseven = 7\n\npub record Known : Type 0 where\n  pub known : ℕ\n")
    room.write("crates/one/edits/e.edit", "file: src/lib.rt\n")
    room.write("tests/c/calls.c", "/* a comment */\nstatic void calls(void) {\n    helps();\n}\n")
    room.write("tests/c/calls.h", "/* a comment */\n#define ASKED 7\nstatic inline int asks(void) { return helps(); }\n")
    room.write("tests/run.py", "# a comment\ndef runs():\n    helps()\n")
    room.write("tests/run.rs", "// a comment\nfn holds() {\n    helps();\n}\n")
    for path in ("README.md", "CONTRIBUTING.md", "CHANGELOG.md"):
        room.write(path, "# All\n\nSee `docs/NOTE.md`.\n\n```\n# no heading\n```\n\n- `crates/one`: the only one.\n")
    room.write(NOTE, "# Note\n\nSee `crates/one/src/lib.rt`.\n")
    room.write(PROMISES, CONTENTS)
    room.write(PAGE, ENTRY)
    for path in LAWS:
        room.write(path, LAW)
    for path in PLAIN:
        room.write(path, "# What laws are\n\n## What a law is\n\nA statement.\n")
    room.write(SIGNS, "# Signs\n\n## Plain\n\n| Sign | Name | Read |\n|---|---|---|\n| `ℕ` | double-struck capital N | numbers |\n")
    room.write("docs/CHECKS.md", f"# Checks\n\n{room.run(TOOL + ['--sizes'])[1]}")


def figures(room):
    """A table of sizes that is not the repository's."""
    for path in ("crates/one/src/lib.rt", "crates/one/specs/Lib.antt"):
        room.finds(TOOL, "its table of sizes is not the repository's", (path, room.text(path) + "more\n"))
    room.finds(TOOL, "its table of sizes", ("crates/one/edits/f.edit", ""))
    room.finds(TOOL, "its table of sizes", ("crates/one/proofs/Lib.antt", "more = 7\n"))


def names(room):
    """Files that are not there, and names that a file does not declare."""
    code = ("crates/one/src/gone.rt", "rust/gone", "include/gone.h", "examples/gone.c")
    for path in (*code, "tests/gone", "tools/gone.py", "archives/gone.sh", "docs/GONE.md", "scripts/gone", ".ci/gone"):
        room.finds(TOOL, f"docs/NOTE.md:3: no file {path}", (NOTE, f"# Note\n\nSee `{path}`.\n"))
    for path in ("README.md", "CONTRIBUTING.md", "CHANGELOG.md"):
        room.finds(TOOL, f"{path}:3: no file docs/NOTE.md", (NOTE, None))
    room.finds(TOOL, "README.md: it does not say what crates/one is", ("README.md", "`crates/one`", "`crates/one/src`"))
    room.finds(TOOL, "README.md: it does not say what crates/two is", ("crates.txt", "one:\n", "one:\ntwo:\n"))
    room.finds(TOOL, "docs/deep/NOTE.md:1: no file docs/GONE.md", ("docs/deep/NOTE.md", "See `docs/GONE.md`.\n"))
    room.finds(TOOL, "docs/PROMISES.md:9: no eight in", (PROMISES, CONTENTS + "`crates/one/specs/Lib.antt`: `eight`\n"))
    for line, name in ((7, "seven"), (7, "known"), (11, "first"), (15, "calls"), (16, "runs"), (17, "holds"), (18, "asks"), (18, "ASKED")):
        for other in ("gone", "comment", "helps"):
            room.finds(TOOL, f"{PAGE}:{line}: no {other} in", (PAGE, f"`{name}`", f"`{other}`"))
    for path in LAWS:
        room.finds(TOOL, f"{path}:7: no eight in", (path, "`seven`", "`eight`"))


def headings(room):
    """Headings that are not in order, in any document."""
    room.finds(TOOL, "docs/NOTE.md:1: a heading of level 2 after one of level 0", (NOTE, "## Note\n"))
    room.finds(TOOL, "docs/NOTE.md:2: a heading of level 3 after one of level 1", (NOTE, "# Note\n### Deep\n"))
    room.finds(TOOL, "README.md:2: a heading of level 1 after one of level 1", ("README.md", "# One\n# Two\n"))
    room.finds(TOOL, "docs/NOTE.md:3: a second heading 'Part'", (NOTE, "# Note\n## Part\n## Part\n"))
    room.finds(TOOL, "docs/NOTE.md: it has no heading", (NOTE, "Note\n"))


def lines(room):
    """Lines that are too long to listen to."""
    for path in (PROMISES, PAGE, *LAWS, *PLAIN, "CONTRIBUTING.md"):
        room.finds(TOOL, "a line of 301 characters, above 300", (path, room.text(path) + "x" * 301 + "\n"))


def contents(room):
    """Pages that the contents leave out, name twice or call by another title, and pages that are not there."""
    room.finds(TOOL, f"{PAGE} stands in it 0 times", (PROMISES, "- [One](promises/one.md): 2 entries.\n", ""))
    room.finds(TOOL, f"{PAGE} stands in it 2 times", (PROMISES, "- [One]", "- [One](promises/one.md)\n- [One]"))
    room.finds(TOOL, "docs/PROMISES.md: no page two.md", (PROMISES, "- [One]", "- [Two](promises/two.md)\n- [One]"))
    room.finds(TOOL, f"'Two' is not the title of {PAGE}", (PROMISES, "[One]", "[Two]"))
    room.finds(TOOL, f"{PAGE} has 2 entries, and not 3", (PROMISES, "2 entries", "3 entries"))
    room.finds(TOOL, f"{PAGE} has 2 entries, and not none", (PROMISES, ": 2 entries", ""))
    room.finds(TOOL, f"{PAGE} has 1 entries, and not 2", (PAGE, "## Second", "Second"))
    room.finds(TOOL, "docs/promises/signs.md has no entries, and not 1", (PROMISES, "how to read", "1 entry"))
    for path in PLAIN:
        linked = f"({path[len('docs/'):]}): "
        room.finds(TOOL, f"{path} has no entries, and not 1", (PROMISES, linked + "what a law is", linked + "1 entry"))
    room.finds(TOOL, "docs/promises/new.md stands in it 0 times", ("docs/promises/new.md", ENTRY))


def entries(room):
    """Entries that lack a part, or have one without anything in it."""
    room.finds(TOOL, f"{PAGE}:3: the heading 'First sentence' has no place and words", (PAGE, "First sentence: it is seven", "First sentence"))
    room.finds(TOOL, f"{PAGE}: it has no entry", (PAGE, "# One\n"))
    for label in ("Stated by", "Proved by", "Run by"):
        room.finds(TOOL, "'First sentence: it is seven' has", (PAGE, f"{label}:\n", "And:\n"))
        room.finds(TOOL, f"nothing, or two things, after '{label}'", (PAGE, f"{label}:\n", f"{label}: nothing.\n"))
    room.finds(TOOL, "has Stated by, Proved by, and not Stated by, Proved by, Run by", (PAGE, "Run by: nothing; the proof alone.\n", ""))
    room.finds(TOOL, f"{PAGE}:26: nothing, or two things, after 'Proved by'", (PAGE, "Proved by: nothing; it is run.", "Proved by:"))
    room.finds(TOOL, "has Proved by, Stated by, Run by", (PAGE, ENTRY.replace("Stated", "Xed").replace("Proved", "Stated").replace("Xed", "Proved")))
    room.finds(TOOL, f"{PAGE}:11: the item begins with no file", (PAGE, "- `crates/one/src/lib.rt`: `first`", "- the function `first`"))
    room.finds(TOOL, f"{PAGE}:11: the item begins with no file", (PAGE, "- `crates/one/src/lib.rt`: `first`", "- `first`"))
    for path in LAWS:
        room.finds(TOOL, f"{path}:3: '`First`: it is so' has Stated by, Proved by, Run by, and not Stated", (path, "Broken by, in", "Run by, in"))
        room.finds(TOOL, f"{path}:13: nothing, or two things, after 'Broken by'", (path, "- `naysayer`: says no. Proof: `naysayer-falls`.\n", ""))


def signs(room):
    """Signs without a row, with another name, and a row for a sign that no crate has."""
    spec = "crates/one/specs/Lib.antt"
    room.finds(TOOL, f"{SIGNS}: no row that calls ≡ identical to", (spec, "seven = 7", "seven = 7 ≡"))
    room.finds(TOOL, f"{SIGNS}: no row that calls λ greek small letter lamda", ("crates/one/src/lib.rt", "a comment", "a λ"))
    room.finds(TOOL, f"{SIGNS}: no row that calls ℕ double-struck capital n", (SIGNS, "double-struck capital N", "nat"))
    room.finds(TOOL, f"{SIGNS}: a row for ⊎, which no crate has", (SIGNS, "| `ℕ`", "| `⊎` | multiset union | or |\n| `ℕ`"))


def run():
    """Plants every fault; how many."""
    with Room("tools") as room:
        build(room)
        room.passes(TOOL, "0 faults")
        for faults in (figures, names, headings, lines, contents, entries, signs):
            faults(room)
        return room.count
