"""Holds every must-fail edit to a log whose first error is a fact that no longer holds, and every contract to two edits that break it.

Usage: python3 tools/must_fail_logs.py [--print | --promises] [CRATE ..]   (after tools/must_fail.py, which writes the logs)
An edit that only makes a proof file unfit for the code (a goal of another name, another number of goals) proves nothing.
An edit breaks the contract of a public function if the prover refuses the proof of that function after it, or of what that proof rests on.
That a function calls another whose proof is refused breaks nothing of its own. An edit that was not tried in this run stands by its entry in
tools/seen-refused.txt, which says what it breaks. A log is read only if it is of the text as it is. Laws are not counted here: they have
refutations of wrong products instead of edits.
--print shows the first error of each log, --promises how many edits break each contract.
"""
import glob
import os
import re
import sys

sys.dont_write_bytecode = True
import listing
import seen

UNFIT = re.compile(
    r"that can be named from here|not a `×` type|is not a function|too many arguments|BAD EDIT|error\[[\w-]+\]"
    r"|unexpected|parse error|not in scope(?! here)|cannot be resolved|has no field|has no `|is no name|no occurrence of the path"
    r"|operand is missing|expected the end|cannot continue"
    r"|is a declared record, built with|a λ needs a type here|binders, but its type has room"
)
ERROR = re.compile(r"error(?:\[[\w-]+\])?:|it is not proved that")
REFUSED = re.compile(r"^fn (\S+): (?:not proved|no proof)(?!: it calls )", re.M)


def log_path(crate, label, part=".log"):
    """Where the log of an edit is, or what stands beside it."""
    return os.path.join("target", "must-fail", crate, label, part)


def log_of(crate, label):
    """The log of an edit, empty where there is none."""
    path = log_path(crate, label)
    return listing.read(path) if os.path.exists(path) else ""


def is_fresh(crate, label, edit, texts):
    """Whether the log of an edit is of the text as it is."""
    path = log_path(crate, label, ".text")
    return os.path.exists(path) and listing.read(path) == f"{texts.rests(crate)} {seen.of_file(edit)}"


def first_error(text):
    """The first error of a log that does not only follow from an earlier refusal."""
    lines = text.split("\n")
    for at, line in enumerate(lines):
        if ERROR.search(line) and "was not admitted" not in line:
            return "\n".join(lines[at : at + 3])
    return ""


def shows_nothing(edit, text):
    """The fault of an edit whose log shows no fact that no longer holds."""
    found = first_error(text)
    if not found:
        return [f"{edit}: no error in its log"]
    return [f"{edit}: the edit only made the proof unfit for the code: {found[:200]}"] if UNFIT.search(found) else []


def public_functions(crate):
    """The functions of a library that other crates can name: those of its root and of the modules that the root makes public."""
    root = f"crates/{crate}/src/lib.rt"
    if not os.path.exists(root):
        return set()
    modules = re.findall(r"^pub mod (\w+);", listing.read(root), re.M)
    paths = [root] + [path for module in modules for path in glob.glob(f"crates/{crate}/src/{module}.rt")]
    return {function.name for path in paths for function in listing.functions(path) if function.public}


def broken(text):
    """The functions whose proofs a log refuses, those of closures for the function that they stand in."""
    return {[part for part in path.split("::") if re.fullmatch(r"\w+", part)][-1] for path in REFUSED.findall(text)}


def asked():
    """The crates to look at: those that the words name, or all."""
    return [word for word in sys.argv[1:] if not word.startswith("--")] or list(listing.crates())


def key(path):
    """The crate and the label of an edit, by its path."""
    return path.split(os.sep)[1], os.path.splitext(os.path.basename(path))[0]


def edits():
    """Each edit's crate, label and path."""
    for edit in sorted(glob.glob("crates/*/must-fail/*.edit") + glob.glob("crates/*/edits/*.edit")):
        if key(edit)[0] in asked():
            yield *key(edit), edit


def judged():
    """What each edit breaks, by its path, and the edits that show nothing."""
    texts, (entries, _) = seen.Texts(), seen.read()
    breaks, bad, stand = {}, [], 0
    for crate, label, edit in edits():
        entry = entries.get((crate, label), ())
        if is_fresh(crate, label, edit, texts):
            text = log_of(crate, label)
            bad += shows_nothing(edit, text)
            breaks[edit] = broken(text)
            if "--print" in sys.argv:
                print(f"{edit}: {first_error(text)[:300]}")
        elif entry[:2] == (texts.rests(crate), seen.of_file(edit)):
            stand += 1
            breaks[edit] = set(entry[3])
        else:
            bad.append(f"{edit}: neither a log of this text nor an entry in {seen.PATH}")
    return breaks, bad, stand


def main():
    """Prints what shows nothing and what too few edits break; 1 if there is any."""
    breaks, bad, stand = judged()
    counts = {(crate, name): 0 for crate in asked() for name in public_functions(crate)}
    for edit, names in breaks.items():
        for name in names:
            if (edit.split(os.sep)[1], name) in counts:
                counts[edit.split(os.sep)[1], name] += 1
    few = [f"{crate}: {name} is broken by {count} edits" for (crate, name), count in sorted(counts.items()) if count < 2]
    if "--promises" in sys.argv:
        print("| Crate | Function | Edits that break its contract |\n|---|---|---|")
        print("\n".join(f"| {crate} | {name} | {count} |" for (crate, name), count in sorted(counts.items())))
    print("".join(f"{line}\n" for line in bad + few), end="")
    print(f"{len(list(edits()))} must-fail edits, {stand} by {seen.PATH}, {len(bad)} that show nothing")
    print(f"{len(counts)} public functions, {len(few)} with fewer than two edits that break them")
    return 1 if bad or few else 0


if __name__ == "__main__":
    sys.exit(main())
