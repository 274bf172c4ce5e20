"""Tries the must-fail edits of crates/NAME/edits and crates/NAME/must-fail, each over what is already proved of its crate.

Usage: python3 tools/must_fail.py [--write]             those that no entry of tools/seen-refused.txt holds of, and a share of the others
       python3 tools/must_fail.py --all [--write]       all of them
       python3 tools/must_fail.py NAME .. [--write]     all those of a crate, or one: CRATE/LABEL
       python3 tools/must_fail.py --places              tries none, and sees in a second whether the text that each changes is there
(after rt ci, whose libraries serve here, or rt check; where a library is missing or of another text, rt lib builds it)
rt ci tries those of must-fail itself. Here a crate is checked once in full, and each edit then checks again only what rests on the line
it changes, in a copy of the crate in a folder of its own, so that an edit takes seconds.
The log of an edit is target/must-fail/NAME/LABEL/.log, where tools/must_fail_logs.py reads it, and beside it what text it is of.
With --write, and if every edit that was tried is refused with a log that shows a fact, the file of what was seen refused is written;
tools/seen.py says what stands in it. The share that is tried though an entry holds is chosen by the hash of the tree: a twelfth of what this
toolchain refused, and a sixth of what only another one did.
"""
import glob
import os
import shutil
import subprocess
import sys
import tempfile
import threading
import time
from concurrent.futures import ThreadPoolExecutor

sys.dont_write_bytecode = True
import kit
import listing
import must_fail_logs
import seen

ROOT = os.getcwd()
JOBS = min(len(os.sched_getaffinity(0)), 4)
SHARES = 12
SHARES_ELSEWHERE = 6
EDITS = ("edits", "must-fail")


def replaced(text, old, new):
    """The text with its one place of old changed to new."""
    if not old or text.count(old) != 1:
        raise ValueError(f"an 'old:' text is there {text.count(old) if old else 0} times, not once")
    return text.replace(old, new)


def changed(edit, crate_dir):
    """The texts of the crate's files that the edit changes, as it changes them."""
    name, old, texts = None, None, {}
    for line in listing.read(edit).split("\n"):
        if line.startswith("file: "):
            name = os.path.join(crate_dir, line[len("file: ") :])
        elif line.startswith("old: "):
            old = line[len("old: ") :]
        elif line.startswith("new:"):
            new = line[len("new:") :]
            texts[name] = replaced(texts.get(name) or listing.read(name), old, new[1:] if new.startswith(" ") else new)
    if not texts:
        raise ValueError("it has no 'old:' and 'new:' pair")
    return texts


def apply_edit(edit, crate_dir):
    """Changes the crate's files as the edit says."""
    for name, text in changed(edit, crate_dir).items():
        with open(name, "w", encoding="utf-8") as file:
            file.write(text)


def every_edit():
    """The paths of all edits."""
    return sorted(path for folder in EDITS for path in glob.glob(f"crates/*/{folder}/*.edit"))


def misplaced():
    """Edits whose texts do not stand in their crates as they say."""
    wrong = []
    for edit in every_edit():
        try:
            changed(edit, os.path.join("crates", edit.split(os.sep)[1]))
        except (ValueError, OSError) as fault:
            wrong.append(f"{edit}: {fault}")
    return wrong


def linked(source, target):
    """Copies a folder of what was proved: such files are replaced and never changed, so a link serves where one can be made."""

    def copy(one, other):
        try:
            return os.link(one, other) if one.endswith(".oantt") else shutil.copy2(one, other)
        except OSError:
            return shutil.copy2(one, other)

    shutil.copytree(source, target, copy_function=copy)


class Crate:
    """A crate whose edits are tried: a folder for copies of it, the compiler's words, and how many edits are still to be tried."""

    def __init__(self, name, work, home, due):
        self.name, self.home, self.due = name, home, due
        self.folder, self.seed = os.path.join(work, name), os.path.join(work, name, "proved")
        self.words, self.lock = kit.words(name, home), threading.Lock()

    def copied(self, label):
        """A copy of the crate."""
        room = os.path.join(self.folder, label)
        for part in ("src", "specs", "proofs"):
            if os.path.isdir(f"crates/{self.name}/{part}"):
                shutil.copytree(f"crates/{self.name}/{part}", f"{room}/{part}")
        return room

    def check(self, room, kept, log):
        """Checks a copy of the crate over what is proved in a folder, which then holds what this check proved; its exit status."""
        words = [os.path.join(self.home, *kit.COMPILER), "check", *self.words, "--incremental", kept]
        with open(log, "w", encoding="utf-8") as out:
            return subprocess.run(words, cwd=room, stdout=out, stderr=subprocess.STDOUT, stdin=subprocess.DEVNULL, check=False).returncode

    def prove(self):
        """Checks the crate as it is, and keeps what is proved for its edits."""
        log, begun = os.path.join(ROOT, "target", "edits", f"{self.name}.log"), f"crates/{self.name}/out/incremental"
        linked(begun, self.seed) if os.path.isdir(begun) else os.makedirs(self.seed)
        proved = self.check(self.copied("as-it-is"), self.seed, log) == 0
        if not proved:
            print(f"{self.name} is not proved without any edit: target/edits/{self.name}.log", flush=True)
        return proved

    def judged(self, edit, label, log):
        """Tries an edit on a copy of the crate: whether the prover refuses it, and what to say."""
        room = self.copied(label)
        try:
            apply_edit(edit, room)
            linked(self.seed, f"{room}/proved")
            status = self.check(room, f"{room}/proved", log)
            refused = status == 1 and "\nlogic=not-proved" in listing.read(log)
            return refused, "refused, as it must be" if refused else f"NOT REFUSED (exit {status})"
        except (ValueError, OSError) as fault:
            return False, f"BAD EDIT: {fault}"
        finally:
            shutil.rmtree(room)
            self.done()

    def done(self):
        """Counts an edit as tried; after the last one nothing of the crate is kept."""
        with self.lock:
            self.due -= 1
            if not self.due:
                shutil.rmtree(self.folder, ignore_errors=True)


def try_edit(crate, key, edit, texts):
    """Whether the prover refuses the edit. Its log gets the hashes of the text that it is of."""
    where = os.path.join(ROOT, "target", "must-fail", *key)
    shutil.rmtree(where, ignore_errors=True)
    os.makedirs(where)
    began = time.monotonic()
    refused, said = crate.judged(edit, key[1], os.path.join(where, ".log"))
    if refused:
        with open(os.path.join(where, ".text"), "w", encoding="utf-8") as file:
            file.write(f"{texts.rests(key[0])} {seen.of_file(edit)}")
    print(f"edit {'/'.join(key)}: {said} ({time.monotonic() - began:.0f} s)", flush=True)
    return refused


def try_all(edits, texts):
    """Tries these edits; those that are refused."""
    names = sorted({name for name, _ in edits})
    for name in names:
        texts.rests(name)
        said = kit.prepare(name, texts)
        if said:
            sys.exit(said)
    os.makedirs(os.path.join("target", "edits"), exist_ok=True)
    home = kit.home() if names else ""
    with tempfile.TemporaryDirectory(prefix="must-fail-") as work, ThreadPoolExecutor(JOBS) as pool:
        crates = {name: Crate(name, work, home, sum(name == crate for crate, _ in edits)) for name in names}
        proved = dict(zip(names, pool.map(lambda name: crates[name].prove(), names)))
        tried = [key for key in sorted(edits) if proved[key[0]]]
        refused = pool.map(lambda key: try_edit(crates[key[0]], key, edits[key], texts), tried)
        return {key for key, good in zip(tried, refused) if good}


def tree_hash():
    """The hash of the committed tree as a number; 0 where there is no git."""
    asked = subprocess.run(["git", "rev-parse", "HEAD^{tree}"], stdout=subprocess.PIPE, stderr=subprocess.DEVNULL, check=False).stdout
    return int(asked.strip() or b"0", 16)


def share(edits, tree, shares):
    """One of so many shares of the edits, which a hash chooses, never none: neighbours, so that few crates are checked in full for it."""
    keys, shares = sorted(edits), min(shares, max(len(edits), 1))
    number = tree % shares
    return set(keys[number * len(keys) // shares : (number + 1) * len(keys) // shares])


def chosen(edits, held, others, words):
    """The edits to try: what the words name, all, or those that no entry holds of and shares of the rest, by which toolchain refused them."""
    names = [word for word in words if not word.startswith("--")]
    for name in names:
        if not any(name in (crate, f"{crate}/{label}") for crate, label in edits):
            sys.exit(f"no crate with edits and no edit: {name}")
    if names:
        return {key for key in edits if key[0] in names or "/".join(key) in names}
    if "--all" in words:
        return set(edits)
    tree = tree_hash()
    return (edits.keys() - held) | share(held - others, tree, SHARES) | share(others, tree, SHARES_ELSEWHERE)


def write_seen(entries, held, edits, texts):
    """Writes what was tried now, and of what was seen before that which still holds; the faults of logs that show nothing."""
    kept, again = {key: entries[key] for key in held}, seen.Texts()
    faults = [f"{crate} was changed while its edits were tried" for crate in sorted({crate for crate, _ in edits}) if again.rests(crate) != texts.rests(crate)]
    for crate, label in edits:
        text = must_fail_logs.log_of(crate, label)
        faults += must_fail_logs.shows_nothing(f"{crate}/{label}", text)
        broken = must_fail_logs.broken(text) & must_fail_logs.public_functions(crate)
        kept[crate, label] = (texts.rests(crate), seen.of_file(edits[crate, label]), texts.toolchain, broken)
    if not faults:
        seen.write(kept)
    return faults


def wrong_entries(entries, right, edits):
    """The faults of the file of what was seen refused."""
    wrong = [] if right else [f"{seen.PATH}: its sum is not that of its entries, so they were not written by the tool"]
    return wrong + [f"{seen.PATH}: no edit {crate}/{label}" for crate, label in sorted(entries.keys() - edits.keys())]


def same_labels(edits):
    """Edits whose logs would lie over those of the folder must-fail."""
    twice = [edit for edit in edits if "/edits/" in edit and os.path.exists(edit.replace("/edits/", "/must-fail/"))]
    return [f"{edit}: rt's own edits of the crate have one of this label" for edit in twice]


def main():
    """Tries what is due and says how many were tried and how many stand by the file; 1 if one is not refused or an entry is wrong."""
    if "--places" in sys.argv:
        wrong = misplaced()
        print("".join(f"{fault}\n" for fault in wrong) + f"{len(wrong)} edits have lost their place")
        return 1 if wrong else 0
    began, texts = time.monotonic(), seen.Texts()
    edits = {must_fail_logs.key(path): path for path in every_edit()}
    entries, right = seen.read()
    faults = wrong_entries(entries, right, edits) if "--write" not in sys.argv else []
    held = seen.holding(entries, edits, texts)
    others = seen.elsewhere(entries, held, texts)
    tried = {key: edits[key] for key in chosen(edits, held, others, sys.argv[1:])}
    refused = try_all(tried, texts)
    bad = len(tried) - len(refused)
    faults += same_labels(every_edit())
    if "--write" in sys.argv and not bad:
        faults += write_seen(entries, held, tried, texts)
    print("".join(f"{fault}\n" for fault in faults), end="")
    stand = f"{len(held - tried.keys())} stand by {seen.PATH}, {len(others - tried.keys())} of them by another toolchain"
    print(f"{len(tried)} edits tried, {len(refused)} refused, {bad} not; {stand}; {time.monotonic() - began:.0f} s")
    return 1 if bad or faults else 0


if __name__ == "__main__":
    sys.exit(main())
