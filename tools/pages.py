"""The form of documents that are read by ear: headings in order, short lines, a page of contents, entries that lack nothing, spoken signs.

The promises are pages of docs/promises, and docs/PROMISES.md is their page of contents. An entry is a section of such a page: a heading
with a place and a few words, and under it what states the sentence, what proves it and what runs it. On a page of laws, of any product, an
entry has the wrong ones in the place of what runs it.
"""
import glob
import os
import re
import unicodedata

import listing
from products import PRODUCTS

CONTENTS = "docs/PROMISES.md"
FOLDER = "docs/promises"
LAWS = tuple(f"{product.pages}-" for product in PRODUCTS)
SIGNS = f"{FOLDER}/signs.md"
PLAIN = (*(f"{product.pages}.md" for product in PRODUCTS), SIGNS)
LABELS = ("Stated by", "Proved by", "Run by")
LAW_LABELS = ("Stated by", "Proved by", "Broken by")
LONGEST = 300
HEADING = re.compile(r"(#+) (.*)")
LINK = re.compile(r"\[([^\]]+)\]\(promises/([^)]+)\)(?:: (\d+) entr)?")
LABEL = re.compile(rf"({'|'.join(dict.fromkeys(LABELS + LAW_LABELS))})[:,]")
ITEM = re.compile(r"- `([^`]+)`")
SIGN = re.compile(r"^\| `([^\x00-\x7f])` \| ([^|]+) \|", re.M)


def pages():
    """The pages of promises."""
    return sorted(glob.glob(f"{FOLDER}/*.md"))


def lines(path):
    """The lines of a document with their numbers, without those of fenced code."""
    found, fenced = [], False
    for number, line in enumerate(listing.read(path).split("\n"), 1):
        fenced ^= line.startswith("```")
        if not fenced:
            found.append((number, line))
    return found


def headings(path):
    """The headings of a document: the number of the line, the level and the words."""
    matched = [(number, HEADING.match(line)) for number, line in lines(path)]
    return [(number, len(found.group(1)), found.group(2)) for number, found in matched if found]


def disorder(path):
    """Headings that are not in order: one of level 1 comes first, no level is left out, and no two are alike."""
    wrong, last, known = [], 0, set()
    for number, level, words in headings(path):
        if level > last + 1 or level == 1 and last:
            wrong.append(f"{path}:{number}: a heading of level {level} after one of level {last}")
        if words in known:
            wrong.append(f"{path}:{number}: a second heading '{words}'")
        known.add(words)
        last = level
    return wrong or ([] if known else [f"{path}: it has no heading"])


def too_long(path):
    """Lines that are too long to listen to."""
    found = [(number, len(line)) for number, line in enumerate(listing.read(path).split("\n"), 1)]
    return [f"{path}:{number}: a line of {size} characters, above {LONGEST}" for number, size in found if size > LONGEST]


def contents():
    """Pages that the contents leave out, name twice, or with another title or number of entries, and pages that are not there."""
    linked = LINK.findall(listing.read(CONTENTS))
    there = {os.path.basename(path): path for path in pages()}
    wrong = [f"{CONTENTS}: no page {page}" for _, page, _ in linked if page not in there]
    for page, path in there.items():
        named = [(words, count) for words, other, count in linked if other == page]
        titles = [title for _, level, title in headings(path) if level == 1]
        entered = "" if path in PLAIN else str(len(sections(path)))
        if len(named) != 1:
            wrong.append(f"{CONTENTS}: {path} stands in it {len(named)} times")
        elif [named[0][0]] != titles:
            wrong.append(f"{CONTENTS}: '{named[0][0]}' is not the title of {path}")
        elif named[0][1] != entered:
            wrong.append(f"{CONTENTS}: {path} has {entered or 'no'} entries, and not {named[0][1] or 'none'}")
    return wrong


def sections(path):
    """The sections of a page: of each the number and words of its heading, and its lines."""
    found = []
    for number, line in lines(path):
        heading = HEADING.match(line)
        if heading and len(heading.group(1)) > 1:
            found.append((number, heading.group(2), []))
        elif found:
            found[-1][2].append((number, line))
    return found


def labels(body):
    """The labels of an entry in their order, each with its number, what stands on its line, and the list items under it."""
    found = []
    for number, line in body:
        label = LABEL.match(line)
        if label:
            found.append((number, label.group(1), line.partition(":")[2].strip(), []))
        elif line.startswith("- ") and found:
            found[-1][3].append((number, line))
    return found


def entry(path, heading, body):
    """The faults of one entry."""
    number, words = heading
    wrong = [] if ": " in words else [f"{path}:{number}: the heading '{words}' has no place and words"]
    found = labels(body)
    due = LAW_LABELS if path.startswith(LAWS) else LABELS
    names = tuple(dict.fromkeys(label for _, label, _, _ in found))
    if names != due:
        wrong.append(f"{path}:{number}: '{words}' has {', '.join(names) or 'nothing'}, and not {', '.join(due)}")
    for at, label, said, items in found:
        if bool(said) == bool(items):
            wrong.append(f"{path}:{at}: nothing, or two things, after '{label}'")
        if label != "Broken by":
            wrong += [f"{path}:{place}: the item begins with no file" for place, line in items if not names_file(line)]
    return wrong


def names_file(item):
    """Whether a list item begins with a file or folder of the repository."""
    found = ITEM.match(item)
    return bool(found) and os.path.exists(found.group(1))


def entries(path):
    """The faults of the entries of a page; a page without one is a fault too."""
    if path in PLAIN:
        return []
    found = sections(path)
    return [fault for number, words, body in found for fault in entry(path, (number, words), body)] or ([] if found else [f"{path}: it has no entry"])


def unspoken():
    """Signs of the crates that the page of signs leaves out or calls by another name than Unicode does, and rows for signs of no crate."""
    files = [path for crate in listing.crates() for path in listing.texts(crate) if path.endswith((".rt", ".antt"))]
    used = {sign for path in files for sign in listing.read(path) if ord(sign) > 127}
    said = {sign: name.lower() for sign, name in SIGN.findall(listing.read(SIGNS))}
    names = {sign: unicodedata.name(sign).lower() for sign in sorted(used)}
    wrong = [f"{SIGNS}: no row that calls {sign} {name}" for sign, name in names.items() if said.get(sign) != name]
    return wrong + [f"{SIGNS}: a row for {sign}, which no crate has" for sign in said if sign not in used]
