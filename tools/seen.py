"""The file of must-fail edits that were seen refused, and on which text.

tools/must_fail.py writes it; no entry is written by hand. For each crate it has a hash of all the text that a check of the crate rests on
(the code, specs and proofs of the crate and of the crates below it, their lines in crates.txt), and below it a line for each edit: its
label, a hash of its text, one of the toolchain that refused it, and the public functions whose contracts its log showed broken. An entry
holds only while both hashes of texts are those of the repository. Of what another toolchain refused a larger share is tried again.
The last line is a sum over the others: it finds an entry that was changed, added or removed by an editor or a merge. It cannot find one
that somebody forged together with the sum; what finds that is the share of the edits that every run of the gate tries again, and
`python3 tools/must_fail.py --all`.
"""
import hashlib
import os
import subprocess

import listing

PATH = "tools/seen-refused.txt"


def digest(*parts):
    """A short hash of texts, each apart from the next."""
    return hashlib.sha256("\0".join(parts).encode("utf-8")).hexdigest()[:20]


def of_file(path):
    """A short hash of a file."""
    with open(path, "rb") as file:
        return hashlib.sha256(file.read()).hexdigest()[:20]


class Texts:
    """Hashes of what a check of each crate rests on, each computed once."""

    def __init__(self):
        self.toolchain = digest(subprocess.run(["rt", "version"], stdout=subprocess.PIPE, check=True).stdout.decode("utf-8"))
        self.known, self.own, self.found = listing.crates(), {}, {}

    def crate(self, name):
        """The hash of one crate's own text."""
        if name not in self.own:
            self.own[name] = digest(*(f"{path} {of_file(path)}" for path in listing.texts(name)))
        return self.own[name]

    def rests(self, name):
        """The hash of all the text that a check of this crate rests on."""
        if name not in self.found:
            lower = sorted(listing.below(name, self.known))
            self.found[name] = digest(*(f"{one}: {' '.join(self.known[one])} {self.crate(one)}" for one in lower))
        return self.found[name]


def read():
    """The entries by crate and label, each three hashes and what the edit breaks; none and False where the sum is wrong."""
    if not os.path.exists(PATH):
        return {}, True
    *lines, last = listing.read(PATH).rstrip("\n").split("\n")
    if last != f"sum {digest(*lines)}":
        return {}, False
    entries, crate, rests = {}, "", ""
    for line in lines:
        words = line.split()
        if line.startswith("crate "):
            crate, rests = words[1:]
        elif not line.startswith("#"):
            entries[crate, words[0]] = (rests, words[1], words[2], words[3:])
    return entries, True


def write(entries):
    """Writes the entries, which all hold of the text as it is."""
    lines = ["# Must-fail edits seen refused. Written by tools/must_fail.py --write, never by hand; tools/seen.py says what the lines mean."]
    last = None
    for (crate, label), (rests, text, toolchain, broken) in sorted(entries.items()):
        lines += [f"crate {crate} {rests}"] if crate != last else []
        lines.append(" ".join([label, text, toolchain, *sorted(broken)]))
        last = crate
    with open(PATH, "w", encoding="utf-8") as file:
        file.write("\n".join(lines + [f"sum {digest(*lines)}"]) + "\n")


def holding(entries, edits, texts):
    """Of these edits, given as paths by crate and label, those that an entry still holds of."""
    return {key for key, path in edits.items() if key in entries and entries[key][:2] == (texts.rests(key[0]), of_file(path))}


def elsewhere(entries, held, texts):
    """Of the edits that an entry holds of, those that another toolchain refused."""
    return {key for key in held if entries[key][2] != texts.toolchain}
