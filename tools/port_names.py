"""Brings the names of this repository's own definitions and lemmas to snake case, after port.py has run.

Usage: python3 tools/port_names.py [--say]     at the top of the repository; --say writes nothing and prints each name with its new spelling

A name that a file of specs/ or proofs/ declares (a file of one function's proof aside) and that begins with a small letter gets its words
joined by underscores: controlOf becomes control_of, and made-parts made_parts. The proof of a function F is F_spec. A lemma that would meet
the definition that it is named after gets _lem behind it. Names of types, of functions, fields and cases of src/, of C functions, strings and
all data stay as they are, and so does a name in a file that imports it from a library.
"""
import collections
import glob
import re
import sys

WORD = re.compile(r'[^\s(){}.;,@"«»]+')
DECLARED = re.compile(
    r"(?m)^ *((?:pub |abbrev |unfoldable )*)(?!ruleset |record |data |use |mod |module )"
    r"""([^\s(){}.;,@"«»:]+)(?: \{[^{}\n]*\})*(?: \([^()\n]*\))* :(?=\s)"""
)
RULESET = re.compile(r"(?m)^ *(?:pub )?ruleset ([^\s=]+)")
IMPORT = re.compile(r"\buse ([^\s;{]+?)\.?(\{[^}]*\})")
SPEC = re.compile(r"(?<![\w-])([a-z][\w-]*)-spec(?![\w-])")
CLAUSE = re.compile(r"\b(?:requires|ensures)\s*(?:\w+\s*)?\{")


def of_function(name):
    """Whether a file is one of a function's own proof."""
    return re.search(r"/proofs/.+/(Proof|Answers|Invariants)\.antt$", name) is not None


def files():
    """The files of antt and of Rattle in all crates."""
    return sorted(glob.glob("crates/*/specs/**/*.antt", recursive=True) + glob.glob("crates/*/proofs/**/*.antt", recursive=True)), sorted(
        glob.glob("crates/*/src/**/*.rt", recursive=True)
    )


def read(name):
    with open(name, encoding="utf-8", newline="") as file:
        return file.read()


def snake(name):
    """A name with its words joined by underscores."""
    parts = re.sub(r"(?<=[a-z0-9₀-₉'])[A-Z]|(?<=[A-Z])[A-Z](?=[a-z])", lambda m: "_" + m.group(0).lower(), name)
    return re.sub(r"(?<=[\w'₀-₉])-(?=[\w'₀-₉])", "_", parts)


def code(text):
    """A text of antt without its comments."""
    return re.sub(r"--[^\n]*", "", text)


def declared(antt):
    """The names that the texts declare, each with the files that do."""
    names = collections.defaultdict(set)
    for name in antt:
        if of_function(name):
            continue
        text = code(read(name))
        for found in [m.group(2) for m in DECLARED.finditer(text)] + RULESET.findall(text):
            if found[:1].islower():
                names[found].add(name)
    return names


def foreign(text):
    """The names that a file imports from a library."""
    out = set()
    for path, items in IMPORT.findall(text):
        own = path.startswith("Rattle.") and not path.startswith("Rattle.std.")
        if not own:
            out.update(WORD.findall(items))
    return out


def table(antt):
    """The new spelling of each name that gets one."""
    names = declared(antt)
    groups = collections.defaultdict(set)
    for name in names:
        groups[snake(name)].add(name)
    words = {f: set(WORD.findall(code(read(f)))) for f in antt}
    new = {}
    for spelled, group in groups.items():
        for name in group:
            new[name] = spelled
        if len(group) > 1 and any(len(group & w) > 1 for w in words.values()):
            dashed = {name for name in group if "-" in name}
            for name in dashed or {spelled} & group:
                new[name] = spelled + "_lem"
            if len({new[name] for name in group}) < len(group):
                print("left: these names meet:", *group)
    return {old: spelled for old, spelled in new.items() if old != spelled}


def turned(text, new, after_dots=True):
    """A text of antt, code alone, with its names spelled anew."""
    def word(m):
        if not after_dots and m.start() and text[m.start() - 1] == "." and text[m.start() - 2 : m.start() - 1] not in ("}",):
            return m.group(0)
        return new.get(m.group(0), m.group(0))

    return WORD.sub(word, text)


def antt_turned(name, text, new):
    """A file of antt with its names spelled anew, in its code and in the code spans of its comments."""
    keep = foreign(text)
    here = {old: spelled for old, spelled in new.items() if old not in keep}
    out = []
    for line in text.split("\n"):
        at = line.find("--")
        head, note = (line, "") if at < 0 else (line[:at], line[at:])
        if of_function(name):
            head = SPEC.sub(lambda m: m.group(1).replace("-", "_") + "_spec", head)
            head = turned(head, here, after_dots=False) if not head.lstrip().startswith(("use", "pub use")) else turned(head, here)
        else:
            head = turned(head, here)
        note = re.sub(r"`[^`]*`", lambda m: turned(m.group(0)[1:-1], here).join("``"), note)
        out.append(head + note)
    return "\n".join(out)


def clauses(text):
    """Where the clauses of a text of Rattle stand, and its lines that import for them."""
    spans = [(m.start(), m.end()) for m in re.finditer(r"(?m)^ *ghost use [^;]*;", text)]
    for m in CLAUSE.finditer(text):
        depth, at = 1, m.end()
        while at < len(text) and depth:
            depth += {"{": 1, "}": -1}.get(text[at], 0)
            at += 1
        spans.append((m.end(), at))
    return sorted(spans)


def rust_turned(text, new):
    """A text of Rattle with the names in its clauses and its imports spelled anew."""
    keep = foreign(text)
    here = {old: spelled for old, spelled in new.items() if old not in keep}
    out, at = [], 0
    for start, end in clauses(text):
        if start < at:
            continue
        out += [text[at:start], turned(text[start:end], here)]
        at = end
    return "".join(out) + text[at:]


def meetings(name, text, new):
    """Names that a file has already, beside an old name that gets the same spelling."""
    words = set(WORD.findall(code(text)))
    for old in words & set(new):
        if new[old] in words:
            yield f"look: {name}: {old} becomes {new[old]}, which is there"


def main():
    antt, rust = files()
    new = table(antt)
    if "--say" in sys.argv:
        for old in sorted(new):
            print(old, new[old])
    for name in antt + rust:
        text = read(name)
        if name.endswith(".antt"):
            for line in meetings(name, text, new):
                print(line)
        after = antt_turned(name, text, new) if name.endswith(".antt") else rust_turned(text, new)
        if "--say" not in sys.argv and after != text:
            with open(name, "w", encoding="utf-8", newline="") as file:
                file.write(after)


main()
