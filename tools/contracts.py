"""Holds every contract to its plain meaning.

Usage: python3 tools/contracts.py [LOG]
- Every crate stands in one layer of crates.txt and depends on none of a later layer; only the programs are in the layer `program`.
- Every public function of a library has an `ensures` that speaks of its result and of the bytes, after the call, of every slice that it
  may change. No public function of a product has a `requires`.
- A name that a crate takes from a library comes from the one module of `HOME`, and no crate declares or renames one of these names: so
  `≡`, `<`, `length` and the like mean in every contract what the library says.
- No crate declares an axiom.
- The layer that carries frames opens no definition of a store, and brings in of it only its declared types, its promises, the definitions
  that its contracts and promises name, and the module that passes the promises' proofs on. No crate below it passes on anything of a store.
  A store with specs has its promises in specs/Promises.antt; one without specs defines nothing, so there is nothing of it to bring in.
LOG is what `rt ci` printed. With it, only the crates of `ASSUMED` may rest on axioms, and only on those named there. Of a crate that rt ci
took from an earlier run on the same machine it says nothing more.
"""
import glob
import os
import re
import sys

sys.dont_write_bytecode = True
import listing

LAYERS = ("base", "store", "state", "frames", "laws", "uses", "program")

# the library's names that contracts and definitions are written in, and the module that declares each
HOME = {
    "Prim.Native.Nat": "ℕ zero suc ◌+◌ ◌-◌ ◌*◌ ◌/◌ ◌%◌ ◌^◌ ◌<◌ ◌≤◌ min",
    "mathlib.Core.Path": "◌≡◌",
    "mathlib.Core.Bool": "Bool true false cond not ◌&&◌ ◌||◌",
    "mathlib.Core.List": "List [] ◌∷◌ ◌++◌ map",
    "mathlib.Core.Logic": "◌⊎◌",
    "lib.ListN": "length take drop get_or set replicate",
    "lib.Dec": "eqb leb ltb",
    "Rattle.core.specs.Bool": "◌==◌ nat_eq nat_le nat_lt",
    "Rattle.core.specs.List": "slice_index slice_index_or slice_set",
}
# the modules that pass them all on
PASSING = {"Rattle.core.specs.Prelude", "Rattle.std.specs.Prelude", "Rattle.std.proofs.Common"}
NAMES = {name: module for module, names in HOME.items() for name in names.split()}
WORDS = {name.strip("◌") for name in NAMES} | {"×", "Unit", "⊥", "result"}

# the C functions below the kit's std that the programs assume
CALLED = {"libc::lseek", "libc::read", "libc::write", "os::c::__xpg_strerror_r", "os::c::rattle_errno"}
ASSUMED = {"examples": CALLED, "onepass": CALLED}

USE = re.compile(r"^\s*(?:pub )?(?:ghost )?use ([^\s{;]+)\.\{([^}]*)\}", re.M)
ALIAS = re.compile(r"^\s*(?:pub )?(?:ghost )?use \S+ as ([^\s;]+)", re.M)
DECLARED = re.compile(r"^ *(?:abbrev |unfoldable |pub |record |data |infix\S* \d+ )+([^\s:(){}]+)(?= |:)|^([^\s:(){}]+)(?= :)", re.M)
AXIOM = re.compile(r"^\s*(?:(?:pub|abbrev|unfoldable|ghost) )*(?:axiom|postulate)\b", re.M)
UNFOLDING = re.compile(r"^( *).*\bunfolding\b(.*(?:\s*\n\1 +\S.*)*)", re.M)
PROVED = re.compile(r"^== (\w+)\n(.*?)^rt: \1 proved$", re.M | re.S)
KEPT = re.compile(r"^rt: (\w+) is kept: an earlier run on this machine proved the same files", re.M)
AXIOMS = re.compile(r"^axioms \w+: (?!none reached)(.*?) \(\d+ of the", re.M)


def misplaced():
    """Crates that crates.txt gives no layer, or the wrong one, and layers and products that are not there."""
    known, (named, products) = listing.crates(), listing.layers()
    order = [layer for layer, _ in named]
    wrong = [f"crates.txt: the layers are {' '.join(order)}, not {' '.join(LAYERS)}"] if order != list(LAYERS) else []
    place = {crate: at for at, (_, members) in enumerate(named) for crate in members}
    times = [crate for _, members in named for crate in members]
    folders = {os.path.basename(path) for path in glob.glob("crates/*")}
    for crate in sorted(known.keys() | set(times) | set(products) | folders):
        wrong += [f"crates.txt: {crate} stands in {times.count(crate)} layers"] if times.count(crate) != 1 else []
        wrong += [f"crates.txt: {crate} has no line of its own, or no folder"] if crate not in known or crate not in folders else []
        program = os.path.exists(f"crates/{crate}/src/main.rt")
        if program != (crate in place and order[place[crate]] == "program"):
            wrong.append(f"crates.txt: {crate} is {'a' if program else 'no'} program")
        above = [name for name in known.get(crate, []) if crate in place and place.get(name, 0) > place[crate]]
        wrong += [f"crates.txt: {crate} depends on {name} of a later layer" for name in above]
    return wrong if products else wrong + ["crates.txt: no products"]


def unpromised(path, product):
    """Public functions of this file that promise too little, or ask something of their caller where a product may not."""
    wrong = []
    for function in listing.functions(path):
        if not function.public:
            continue
        said = " ".join(" ".join(function.clauses["ensures"]).split())
        at = f"{path}: {function.name}"
        wrong += [f"{at} has a requires"] if product and function.clauses["requires"] else []
        wrong += [] if said else [f"{at} has no ensures"]
        if said and function.returns and not re.search(r"(?<![\w.'])result(?![\w'])", said):
            wrong.append(f"{at} promises nothing of its result")
        for name in function.lent() if said else []:
            if not re.search(rf"(?<!length )(?<!length \()(?<![\w.']){re.escape(name)}\.new\b", said):
                wrong.append(f"{at} does not say what the bytes of {name} are after it")
    return wrong


def own_meaning(path):
    """Names of the library that this file takes from elsewhere, renames or declares."""
    text, wrong = listing.read(path), []
    for module, names in USE.findall(text):
        for name in (n.strip() for n in names.split(",")):
            old, _, new = name.partition(" as ")
            if new and (old in NAMES or new.strip("◌ ") in WORDS) or old in NAMES and module not in PASSING | {NAMES[old]}:
                wrong.append(f"{path}: {name} is taken from {module}")
    taken = set(ALIAS.findall(text)) | {(one or other).strip("◌") for one, other in DECLARED.findall(text)}
    wrong += [f"{path}: {name} is a name of the library" for name in sorted(taken & WORDS)]
    wrong += [f"{path}: an axiom" for _ in AXIOM.finditer(text)]
    return wrong


def declared(paths):
    """The names that these files declare."""
    return {(one or other) for path in paths for one, other in DECLARED.findall(listing.read(path))}


def promised(store):
    """The definitions that a store's contracts and promises name; none where it has no specs."""
    if not listing.texts(store, ("specs",)):
        return set()
    said = re.sub(r"^\s*use [^\n]*|--[^\n]*", "", listing.read(f"crates/{store}/specs/Promises.antt"), flags=re.M)
    for path in listing.texts(store, ("src",)):
        for function in listing.functions(path):
            said += " ".join(sum(function.clauses.values(), [])) if function.public else ""
    return declared(listing.texts(store, ("specs",))) & set(re.split(r"[\s(){}⌜⌝,;.]+", said))


def beyond(path, store, allowed):
    """What a file of the layer that carries frames opens of a store, or brings in of it beyond what the store promises."""
    text, own = listing.read(path), f"Rattle.{store}"
    opened = {word for _, names in UNFOLDING.findall(text) for word in re.split(r"[\s.,:()\[\]{}]+", names)}
    wrong = [f"{path}: {name} of {store} is opened" for name in sorted(opened & declared(listing.texts(store, ("specs",))))]
    for module, names in USE.findall(text):
        if module.startswith(f"{own}.specs.declared.") or module in (f"{own}.specs.Promises", f"{own}.proofs.Promises"):
            continue
        if module == f"{own}.specs.Ring":
            wrong += [f"{path}: no contract of {store} names {name.strip()}" for name in names.split(",") if name.strip() not in allowed]
        elif module.startswith(f"{own}."):
            wrong.append(f"{path}: {module} is no promise of {store}")
    outside = re.escape(own) + rf"\.|\b{store}::(?:specs|proofs)::(?!Promises::|declared::)"
    wrong += [f"{path}: {own} is named outside a list of names" for _ in re.finditer(outside, USE.sub("", text))]
    return wrong


def passed_on(path, store):
    """What a file passes on of a store."""
    return [f"{path}: {found} is passed on" for found in re.findall(rf"^\s*pub (?:ghost )?use (Rattle\.{store}\.\S*)", listing.read(path), re.M)]


def frames_apart():
    """Where the layer that carries frames knows more of a store than the store promises."""
    named, wrong = dict(listing.layers()[0]), []
    frames = named.get("frames", [])
    for store in named.get("store", []):
        if listing.texts(store, ("specs",)) and not os.path.exists(f"crates/{store}/specs/Promises.antt"):
            wrong.append(f"crates/{store}: a store without specs/Promises.antt")
            continue
        allowed = promised(store)
        wrong += [fault for crate in frames for path in listing.texts(crate) for fault in beyond(path, store, allowed)]
        lower = {name for crate in frames for name in listing.below(crate)} - {store}
        wrong += [fault for crate in sorted(lower) for path in listing.texts(crate) for fault in passed_on(path, store)]
    return wrong


def assumed(path):
    """Crates that the log shows to rest on axioms that are not theirs to assume, and crates that it does not show."""
    text, wrong = listing.read(path), []
    for crate, said in PROVED.findall(text):
        names = {name.strip() for found in AXIOMS.findall(said) for name in found.split(",")}
        if names != ASSUMED.get(crate, set()) or ("axioms=" in said) != bool(names):
            wrong.append(f"{path}: {crate} rests on {', '.join(sorted(names)) or 'axioms that have no names'}")
    seen = {crate for crate, _ in PROVED.findall(text)} | set(KEPT.findall(text))
    return wrong + [f"{path}: {crate} is not proved in it" for crate in listing.crates() if crate not in seen]


def main():
    """Prints every fault; 1 if there is one."""
    wrong, products = misplaced(), listing.layers()[1]
    programs = dict(listing.layers()[0]).get("program", [])
    files = [path for crate in sorted(listing.crates()) for path in listing.texts(crate)]
    for path in files:
        crate = path.split(os.sep)[1]
        wrong += own_meaning(path)
        wrong += unpromised(path, crate in products) if path.endswith(".rt") and crate not in programs else []
    wrong += frames_apart()
    for path in sys.argv[1:]:
        wrong += assumed(path)
    print("\n".join(wrong + [f"{len(files)} files, {len(wrong)} faults"]))
    return 1 if wrong else 0


if __name__ == "__main__":
    sys.exit(main())
