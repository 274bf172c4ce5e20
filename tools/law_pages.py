"""The pages of laws: under the heading of each law, the wrong bridges or mailboxes that are proved to break it.

A law's wrong ones are lists, one for each file of refutations:
    Broken by, in `FILE`:
    - `WRONG`: what it does. Proof: `THEOREM`.
    - `WRONG`, for `LAW OVER`: what it does. Proof: `THEOREM`.
What a wrong one does is said by the remark above its definition.
"""
import glob
import re

import listing

HEADING = re.compile(r"## `([^`]+)`")
FILE = re.compile(r"Broken by, in `([^`]+)`:")
LINE = re.compile(r"- `([^`]+)`(?:, for `([^`]+)`)?: (.*)\. Proof: `([^`]+)`\.")


def described(product):
    """What each wrong one does, by the name of its definition: the last remark above it, and the words that its arguments have there."""
    known = {}
    for path in sorted(glob.glob(f"{product.specs()}/*.antt")):
        remark, last = [], ""
        for line in listing.read(path).split("\n"):
            if line.startswith("-- "):
                remark = remark + [line[3:]] if last.startswith("--") else [line[3:]]
            elif found := re.match(r"(?:abbrev |unfoldable )?pub (\w+) :", line):
                known.setdefault(found.group(1), [" ".join(remark)])
            elif (words := line.partition(" =")[0].split()) and len(known.get(words[0], "..")) == 1:
                known[words[0]] += words[1:] or [""]
            last = line
    return known


def deed(product, known, wrong):
    """What a wrong one does, with what it is made for in the place of the words that stand for it."""
    name, *given = wrong.split()
    said, *words = known.get(name, [""])
    for word, value in zip(words, given):
        said = re.sub(rf"\b{word}\b", product.spoken.get(value, value), said) if word else said
    return said


def line(product, known, one):
    """The line of a refutation."""
    over = f", for `{one.law}`" if " " in one.law else ""
    return f"- `{one.wrong}`{over}: {deed(product, known, one.wrong)}. Proof: `{one.name}`."


def lists(product, laws, found):
    """The lists of all laws, in their order, each below its law."""
    known, text = described(product), ""
    for law in laws:
        text += f"## `{law}`\n\n"
        broken = [one for one in found if one.family() == law]
        for path in dict.fromkeys(one.path for one in broken):
            rows = [line(product, known, one) for one in broken if one.path == path]
            text += "\n".join([f"Broken by, in `{path}`:", "", *rows, "", ""])
    return text


def read(product):
    """What the pages have: the laws of their headings, each wrong one with its law, file, theorem and deed, and lines in no form."""
    laws, rows, odd = [], [], []
    for page in sorted(glob.glob(f"{product.pages}-*.md")):
        law = path = ""
        for number, text in enumerate(listing.read(page).split("\n"), 1):
            if found := HEADING.match(text):
                law, path = found.group(1), ""
                laws.append((law,))
            elif text.endswith(":"):
                path = (FILE.fullmatch(text) or [""] * 2)[1]
            elif path and (found := LINE.fullmatch(text)) and (found.group(2) or f"{law} ").startswith(f"{law} "):
                wrong, over, does, name = found.groups()
                rows.append(((over or law, wrong, path, name), does))
            elif path and text:
                odd.append(f"{page}:{number}: no line of a wrong {product.name}: {text}")
    return laws, rows, odd


def differing(pages, what, there, right):
    """The faults of entries that are there and not right, or right and not there, or there twice."""
    wrong = [f"{pages}: no {what} {' '.join(row)}" for row in right if row not in there]
    wrong += [f"{pages}: a {what} {' '.join(row)}, which there is not" for row in dict.fromkeys(there) if row not in right]
    return wrong + [f"{pages}: two of {what} {' '.join(row)}" for row in dict.fromkeys(there) if there.count(row) > 1]


def faults(product, laws, found):
    """The faults of the pages of laws."""
    known, right = described(product), [(one.law, one.wrong, one.path, one.name) for one in found]
    stated, rows, wrong = read(product)
    pages = f"{product.pages}-*.md"
    wrong += differing(pages, f"wrong {product.name}", [row for row, _ in rows], right)
    wrong += differing(pages, "law", stated, [(law,) for law in laws])
    return wrong + [f"{pages}: {row[1]} does not do this: {does}" for row, does in rows if does != deed(product, known, row[1])]
