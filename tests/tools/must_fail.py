"""Faults of must-fail edits, their logs and the file of what was seen refused that tools/must_fail.py and must_fail_logs.py must find."""
import shutil

import prover
from planting import Missed, Room

TRY = ["python3", "tools/must_fail.py"]
LOGS = ["python3", "tools/must_fail_logs.py"]
KIT = ["python3", "tools/kit.py"]
STUB = {}
SEEN = "tools/seen-refused.txt"
LOW = "crates/low/src/lib.rt"
HIGH = "crates/high/src/lib.rt"
CODE = "pub mod deep;\npub fn one() -> u8 {\n    7\n}\npub fn two() -> u8 {\n    8\n}\n"
DEEP = "pub fn three() -> u8 {\n    9\n}\n"
SHOWN = "./proofs/{1}/Answers.antt:1:1: error: the two sides differ\nfn {0}::{1}: not proved\nlogic=not-proved\n"


def edit(new, old="    7"):
    """The text of an edit of a crate's root."""
    return f"file: src/lib.rt\nold: {old}\nnew: {new}\n"


def build(room):
    """A kit, and two crates with two functions in the root and one in a public module, three edits each, and two of `two` in must-fail."""
    STUB.update(prover.furnish(room))
    room.write("crates.txt", "low:\nhigh staticlib: low\n")
    for crate in ("low", "high"):
        room.write(f"crates/{crate}/src/lib.rt", CODE)
        room.write(f"crates/{crate}/src/deep.rt", DEEP)
        for number in range(3):
            room.write(f"crates/{crate}/edits/e{number}.edit", edit(f"wrong {number}"))
        for number in range(2):
            room.write(f"crates/{crate}/must-fail/m{number}.edit", edit("second", "    8"))


def trying(room):
    """Edits that are not refused, or cannot be tried."""
    first = "crates/low/edits/e0.edit"
    room.passes(TRY + ["--all"], "10 edits tried, 10 refused, 0 not", **STUB)
    all_of = TRY + ["low/e0"]
    room.finds(all_of, "edit low/e0: NOT REFUSED (exit 0)", (first, edit("right")), **STUB)
    room.finds(all_of, "edit low/e0: NOT REFUSED (exit 2)", (first, edit("crash")), **STUB)
    room.finds(all_of, "edit low/e0: NOT REFUSED (exit 1)", (first, edit("refuse")), **STUB)
    room.finds(all_of, "edit low/e0: BAD EDIT: an 'old:' text is there 0 times", (first, edit("wrong", "no such text")), **STUB)
    room.finds(all_of, "edit low/e0: BAD EDIT: an 'old:' text is there 2 times", (first, edit("wrong", "-> u8")), **STUB)
    room.finds(all_of, "edit low/e0: BAD EDIT: it has no 'old:'", (first, "file: src/lib.rt\n"), **STUB)
    room.finds(all_of, "low is not proved without any edit", (LOW, CODE + "// wrong"), **STUB)
    room.finds(TRY + ["--all"], "edit low/e0: NOT REFUSED (exit 0)", (first, edit("right")), **STUB)
    room.finds(all_of, "rt's own edits of the crate have one of this label", ("crates/low/must-fail/e0.edit", edit("wrong")), **STUB)
    room.passes(TRY + ["--places"], "0 edits have lost their place", **STUB)
    room.finds(TRY + ["--places"], "an 'old:' text is there 0 times", (first, edit("wrong", "no such text")), **STUB)
    room.finds(TRY + ["--places"], "an 'old:' text is there 0 times", ("crates/low/must-fail/m0.edit", edit("wrong", "no such text")), **STUB)
    room.finds(TRY + ["lower"], "no crate with edits and no edit: lower", **STUB)
    room.finds(all_of + ["--write"], "unfit for the code", (first, edit("unfit")), **STUB)
    room.finds(all_of + ["--write"], "no error in its log", (first, edit("silent")), **STUB)
    room.finds(TRY + ["high/e0"], "low, which high needs, is not proved", STUB_UNPROVED="1", **STUB)
    changes = {**STUB, "STUB_CHANGES": room.at(LOW)}
    room.finds(all_of + ["--write"], "low was changed while its edits were tried", (LOW, CODE), **changes)
    if room.text(SEEN) is not None:
        raise Missed("the file of what was seen refused is written though a log shows nothing")


def standing(room):
    """Entries that hold, and what makes them hold no longer."""
    room.passes(TRY + ["--all", "--write"], "10 edits tried", **STUB)
    room.passes(TRY, "1 edits tried, 1 refused, 0 not; 9 stand by", **STUB)
    room.write("docs/note.md", "A document changes nothing.\n")
    room.passes(TRY, "1 edits tried", **STUB)
    for change, said in (
        ((HIGH, CODE + "// more\n"), ("6 edits tried",)),
        (("crates/high/proofs/New.antt", "-- more\n"), ("6 edits tried",)),
        ((LOW, CODE + "// more\n"), ("10 edits tried",)),
        (("crates.txt", "low: std\nhigh: low\n"), ("10 edits tried",)),
        (("crates/low/edits/e2.edit", edit("wrong again")), ("1 edits tried", "2 edits tried")),
    ):
        kept = room.text(change[0])
        room.write(*change)
        printed = room.run(TRY, **STUB)[1]
        if not any(one in printed for one in said) or "e2.edit" in change[0] and "edit low/e2: refused" not in printed:
            raise Missed(f"after a change of {change[0]} not {' or '.join(said)}:\n{printed}")
        room.write(change[0], kept)
        room.count += 1
    toolchains(room)


def toolchains(room):
    """Entries of another toolchain: they hold of the text, a larger share of them is tried, and one that is tried is of the toolchain that did."""
    kept, other = room.text(SEEN), {**STUB, "STUB_VERSION": "of another toolchain"}
    room.passes(TRY, "9 stand by tools/seen-refused.txt, 0 of them by another toolchain", **STUB)
    room.passes(TRY, "1 edits tried, 1 refused, 0 not; 9 stand by tools/seen-refused.txt, 9 of them by another toolchain", **other)
    room.passes(TRY + ["high", "--write"], "5 stand by tools/seen-refused.txt, 5 of them by another toolchain", **other)
    room.passes(TRY + ["high"], "5 stand by tools/seen-refused.txt, 0 of them by another toolchain", **STUB)
    room.passes(TRY + ["low"], "5 stand by tools/seen-refused.txt, 5 of them by another toolchain", **STUB)
    room.write(SEEN, kept)
    edits = "import sys; sys.path.insert(0, 'tools'); import must_fail; e = {('c', str(n)): '' for n in range(48)}"
    for tests in (
        "s = [must_fail.share(e, n, 12) for n in range(12)]; sys.exit(set().union(*s) != set(e) or max(map(len, s)) > 4)",
        "must_fail.tree_hash = lambda: 7; n = [len(must_fail.chosen(e, set(e), o, [])) for o in (set(), set(e))]; sys.exit(n != [4, 8])",
    ):
        room.passes(["python3", "-c", f"{edits}; {tests}"])


def entries(room):
    """Entries that the tool did not write, or that have lost their edit."""
    text = room.text(SEEN)
    line = next(line for line in text.split("\n") if line.startswith("e1 "))
    for changed in (text.replace(line + "\n", line + "\ne9 " + line[3:] + "\n", 1), text.replace(line, line + " two", 1), text.replace(line + "\n", "", 1)):
        room.finds(TRY, "its sum is not that of its entries", (SEEN, changed), **STUB)
    room.finds(TRY, "no edit low/e2", ("crates/low/edits/e2.edit", None), **STUB)
    room.finds(TRY, "edit low/e6: NOT REFUSED", ("crates/low/edits/e6.edit", edit("right")), **STUB)
    shutil.rmtree(room.at("target/must-fail"))
    room.finds(LOGS, "e0.edit: neither a log of this text nor an entry", (SEEN, text.replace(line, line + " two", 1)), **STUB)


def logs(room):
    """Logs that show nothing, that are of another text or missing, and contracts that too few edits break."""
    log = "target/must-fail/low/m0/.log"
    room.passes(LOGS, "10 must-fail edits, 10 by tools/seen-refused.txt, 0 that show nothing", **STUB)
    room.finds(LOGS, "high: four is broken by 0 edits", ("crates/high/src/deep.rt", DEEP + "pub fn four() {}\n"), **STUB)
    room.finds(LOGS, "low/edits/e6.edit: neither a log of this text nor an entry", ("crates/low/edits/e6.edit", edit("wrong")), **STUB)
    room.finds(LOGS, "low/must-fail/m6.edit: neither a log of this text nor an entry", ("crates/low/must-fail/m6.edit", edit("wrong")), **STUB)
    room.finds(LOGS, "high/edits/e0.edit: neither a log of this text nor an entry", (LOW, CODE + "// more\n"), **STUB)
    room.passes(TRY + ["low"], **STUB)
    room.passes(LOGS, "10 must-fail edits, 5 by tools/seen-refused.txt, 0 that show nothing", **STUB)
    room.finds(LOGS, "m0.edit: no error in its log", (log, None), **STUB)
    room.finds(LOGS, "m0.edit: no error in its log", (log, "logic=proved\n"), **STUB)
    only = "x: error: `f` was not admitted (it was rejected), so this cannot be checked\n"
    room.finds(LOGS, "m0.edit: no error in its log", (log, only), **STUB)
    missing = "./specs/Two.antt:1:1: error: `f`: `true` is not in scope: add `use Low.{true}`\n"
    for said in ("error: `returns` has no `Need-x` that can be named from here\n", "./proofs/two/Answers.antt:1:1: error: `goal` has no `left`\n", missing):
        room.finds(LOGS, "m0.edit: the edit only made the proof unfit", (log, said + SHOWN.format("low", "two")), **STUB)
        room.finds(LOGS, "low/edits/e0.edit: the edit only", ("target/must-fail/low/e0/.log", said), **STUB)
    kept, shown = room.text(log), "./proofs/Two.antt:1:1: error: `f`: expected type `a`, but this has type `b`\n  `q` is not in scope here\n"
    room.write(log, shown + SHOWN.format("low", "two"))
    room.passes(LOGS, "0 that show nothing", **STUB)
    room.write(log, kept)
    room.finds(LOGS, "low: two is broken by 1 edits", (log, SHOWN.format("low", "one")), **STUB)
    caller = SHOWN.format("low", "one") + "fn low::two: no proof: it calls `low::one`, which is not proved\n"
    room.finds(LOGS, "low: two is broken by 1 edits", (log, caller), **STUB)
    room.finds(LOGS, "low/edits/e0.edit: neither a log of this text nor an entry", (LOW, CODE + "// more\n"), **STUB)


def libraries(room):
    """Libraries that rt ci built, which serve as long as they and their text are as they were; else rt lib builds them anew."""
    format_of = "crates/low/out/rlib/low.rlib/format"
    count = ["sh", "-c", "python3 tools/kit.py high > words && echo built: $(cat kit/built)"]
    shutil.rmtree(room.at("crates/low/out"))
    room.passes(KIT + ["--before"], **STUB)
    room.write(format_of, "by rt ci")
    room.passes(KIT + ["--proved"], **STUB)
    room.write("kit/built", "")
    room.passes(count, "built:\n", **STUB)
    for change in ((LOW, CODE + "// more\n"), (format_of, "by another")):
        kept = room.text(change[0])
        room.write(*change)
        room.passes(count, "built: low\n", **STUB)
        room.write(change[0], kept)
        room.write(format_of, "by rt ci")
        room.write("kit/built", "")
    room.passes(count, "built:\n", **STUB)
    room.passes(KIT + ["--before"], **STUB)
    room.passes(KIT + ["--proved"], **STUB)
    room.passes(count, "built: low\n", **STUB)
    room.passes(["grep", "-qx", "staticlib", "words"])


def run():
    """Plants every fault; how many."""
    with Room("tools") as room:
        if room.text(SEEN) is not None:
            room.write(SEEN, None)
        build(room)
        for part in (trying, standing, entries, logs, libraries):
            part(room)
        return room.count
