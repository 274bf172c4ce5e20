"""Faults of contracts, layers, names and logs that tools/contracts.py must find."""
import glob
import os
import re

from planting import ROOT, Missed, Room

TOOL = ["python3", "tools/contracts.py"]
SHIM = "crates/raftershim/src/lib.rt"
BRIDGE = "crates/bridge/src/lib.rt"
CHAIN = "crates/sending/proofs/Chain.antt"
PROMISE = r"    ensures \w* ?\{.*? \}\n(?=\{\n|    (?:ensures|requires)\b)"


def contracts(room):
    """Functions that promise too little or ask too much."""
    text = room.text(SHIM)
    reset = re.search(rf"raftershim_reset\([^\n]*\n({PROMISE})", text, re.S).group(1)
    room.finds(TOOL, "raftershim_reset has no ensures", (SHIM, reset, ""))
    room.finds(TOOL, "raftershim_reset has no ensures", (SHIM, reset, re.sub(r"^ *", "    // ", reset.rstrip(), flags=re.M) + "\n"))
    for asks in ("    requires { length rx.now ≡ 8 }\n", "    requires eight { length rx.now ≡ 8 }\n"):
        room.finds(TOOL, "raftershim_reset has a requires", (SHIM, reset, asks + reset))
    named = reset.replace("ensures {", "ensures answered {") + "    ensures more { 0 ≡ 0 }\n"
    kept = room.text(SHIM)
    room.write(SHIM, kept.replace(reset, named, 1))
    room.passes(TOOL, "0 faults")
    room.write(SHIM, kept)
    room.finds(TOOL, "raftershim_reset promises nothing of its result", (SHIM, reset, reset.replace("result ", "0 ")))
    room.finds(TOOL, "raftershim_reset promises nothing of its result", (SHIM, reset, named.replace("result ", "the_result ")))
    for call, name in re.findall(r'pub extern "C" fn (raftershim_\w+)\([^)]*?\b(\w+): &mut', text):
        said = re.search(rf"fn {call}\b.*?\n({PROMISE})", text, re.S).group(1)
        after, before = f"{name}.new", f"{name}.old"
        fault = f"{call} does not say what the bytes of {name} are"
        room.finds(TOOL, fault, (SHIM, said, said.replace(after, before)))
        room.finds(TOOL, fault, (SHIM, said, said.replace(after, f"(length {after})")))
    room.finds(TOOL, "late has no ensures", (BRIDGE, "// Makes a state", "pub fn late(x: &'static [u8]) -> [u8; 2]\n{\n    [0u8; 2]\n}\n\n// Makes a state"))
    room.finds(TOOL, "late has no ensures", ("crates/frame/src/deep/late.rt", "pub unsafe fn late(x: u8) -> u8 {\n    x\n}\n"))


def every_function(room):
    """Without any ensures in the repository there are as many faults as public functions in libraries."""
    public, changes = 0, []
    for path in room.sources():
        text = room.text(path)
        public += len(re.findall(r"^pub (?:extern \"C\" )?fn ", text, re.M))
        changes.append((path, re.sub(f"^{PROMISE}", "", text, flags=re.M | re.S)))
    kept = [(path, room.text(path)) for path, _ in changes]
    for path, text in changes:
        room.write(path, text)
    printed = room.run(TOOL)[1]
    for path, text in kept:
        room.write(path, text)
    found = printed.count("has no ensures")
    if found != public or not public:
        raise Missed(f"of {public} public functions without a contract {found} are found")
    room.count += 1


def layers(room):
    """Crates without a layer, in two, in a wrong one; a new product."""
    new = [("crates/courier/src/lib.rt", "pub fn fetch(x: u8) -> u8\n    requires { x < 8 }\n    ensures { result ≡ x }\n{\n    x\n}\n")]
    line = ("crates.txt", "bridge: ", "courier: branches\nbridge: ")
    room.finds(TOOL, "courier stands in 0 layers", line, *new)
    room.finds(TOOL, "courier has no line of its own", *new)
    room.finds(TOOL, "laws has no line of its own, or no folder", ("crates.txt", "\nlaws:", "\n# laws:"))
    text = room.text("crates.txt").replace("\nbridge: ", "\ncourier: branches\nbridge: ").replace("# layer uses: ", "# layer uses: courier ")
    room.finds(TOOL, "courier/src/lib.rt: fetch has a requires", ("crates.txt", text.replace("# products: ", "# products: courier ")), *new)
    room.finds(TOOL, "role stands in 2 layers", ("crates.txt", "# layer store: ", "# layer store: role "))
    room.finds(TOOL, "the layers are", ("crates.txt", "# layer store: ", "# layer stores: "))
    room.finds(TOOL, "no products", ("crates.txt", "# products: ", "# product: "))
    room.finds(TOOL, "frame depends on store of a later layer", ("crates.txt", "\nframe: ", "\nframe: store "))
    room.finds(TOOL, "bridge is no program", ("crates.txt", "# layer program: ", "# layer program: bridge "))
    room.finds(TOOL, "role is a program", ("crates/role/src/main.rt", "fn main() {}\n"))


def names(room):
    """Names of the library that mean something else."""
    spec = "crates/role/specs/RoleFit.antt"
    first = room.text(spec).index("use ")
    for line, said in (
        ("use lib.Other.{length}\n", "length is taken from lib.Other"),
        ("  use lib.Other.{length}\n", "length is taken from lib.Other"),
        ("use Rattle.store.specs.Ring.{◌≡◌}\n", "◌≡◌ is taken from Rattle.store.specs.Ring"),
        ("use Rattle.std.specs.Prelude.{drop as take}\n", "drop as take is taken from Rattle.std.specs.Prelude"),
        ("use lib.Other.{first as take}\n", "first as take is taken from lib.Other"),
        ("use lib.Other.{◌~◌ as ◌≡◌}\n", "◌~◌ as ◌≡◌ is taken from lib.Other"),
        ("use Rattle.std.specs.Prelude.{take as first}\n", "take as first is taken from Rattle.std.specs.Prelude"),
        ("use lib.Other as length\n", "length is a name of the library"),
        ("abbrev pub ltb : ℕ → ℕ → Bool\n", "ltb is a name of the library"),
        ("pub ◌<◌ : ℕ → ℕ → Type 0\n", "< is a name of the library"),
        ("abbrev pub result : ℕ\n", "result is a name of the library"),
        ("axiom easy : ⊥\n", "an axiom"),
        ("pub postulate easy : ⊥\n", "an axiom"),
    ):
        text = room.text(spec)
        room.finds(TOOL, said, (spec, text[:first] + line + text[first:]))
    prelude = "ghost use Rattle.std.specs.Prelude.{"
    room.finds(TOOL, "◌≡◌ is taken from lib.Other", (BRIDGE, prelude, "ghost use lib.Other.{◌≡◌};\n" + prelude))


def stores(room):
    """What the layer that carries frames knows of the store."""
    brought = "use Rattle.store.proofs.Promises.{"
    room.finds(TOOL, "Rattle.store.proofs.Laws is no promise of store", (CHAIN, brought, "use Rattle.store.proofs.Laws.{"))
    room.finds(TOOL, "Rattle.store.specs.Ring.Basis is no promise", (CHAIN, brought, "use Rattle.store.specs.Ring.Basis.{held_at}\n" + brought))
    hidden = ("crates/store/specs/Ring.antt", "\n-- all places", "\npub hidden : ℕ\nhidden = 7\n\n-- all places")
    room.finds(TOOL, "no contract of store names hidden", hidden, (CHAIN, "use Rattle.store.specs.Ring.{", "use Rattle.store.specs.Ring.{hidden, "))
    room.finds(TOOL, "Rattle.store is named outside", (CHAIN, brought, "use Rattle.store.proofs.Laws as laws\n" + brought))
    room.finds(TOOL, "Rattle.store is named outside", (CHAIN, "\n\n", "\n\nx = Rattle.store.proofs.Laws.held_at\n\n"))
    room.finds(TOOL, "drop_ring of store is opened", (CHAIN, "unfolding send_held", "unfolding send_held drop_ring"))
    room.finds(TOOL, "drop_ring of store is opened", (CHAIN, "unfolding send_held", "unfolding send_held\n    drop_ring"))
    room.finds(TOOL, "drop_ring of store is opened", (CHAIN, "unfolding send_held", "unfolding store.specs.Ring.drop_ring"))
    passed = "use Rattle.store.proofs.Laws.{"
    room.finds(TOOL, "is passed on", ("crates/state/proofs/Fits.antt", passed, "pub " + passed))
    room.finds(TOOL, "crates/store: a store without specs/Promises.antt", ("crates/store/specs/Promises.antt", None))


def plain_stores(room):
    """A store without specs of its own: it needs no promises, and nothing of it is brought in or passed on; with one definition it needs them."""
    room.finds(TOOL, "crates/cells: a store without specs/Promises.antt", ("crates/cells/specs/Extra.antt", "abbrev pub extra : ℕ\nextra = 7\n"))
    talk, way, first = "crates/mailloop/src/talk.rt", "crates/way/src/lib.rt", "ghost use "
    proof = "ghost use Rattle.cells.proofs.put.Proof.{proof};\n"
    room.finds(TOOL, "Rattle.cells.proofs.put.Proof is no promise of cells", (talk, first, proof + first))
    room.finds(TOOL, "no contract of cells names extra", (talk, first, "ghost use Rattle.cells.specs.Ring.{extra};\n" + first))
    room.finds(TOOL, "Rattle.cells.proofs.put.Proof.{proof}; is passed on", (way, first, "pub " + proof + first))


def logs(room):
    """What a crate rests on, by the log of rt ci."""
    known = re.findall(r"^(\w+)(?: staticlib)?:", room.text("crates.txt"), re.M)
    libc = "axioms libc: libc::lseek, libc::read, libc::write (3 of the 50 declared)\n"
    libc += "axioms os: os::c::__xpg_strerror_r, os::c::rattle_errno (2 of the 9 declared)\naxioms std: none reached of the 2 declared\nlogic=proved axioms=5\n"
    rests = {name: libc if name in ("examples", "onepass") else "logic=proved\n" for name in known}
    rests["raftershim"] = "axioms libc: none reached of the 50 declared\nlogic=proved\n"
    text = "".join(f"== {name}\n{said}rt: {name} proved\n" for name, said in rests.items())
    text += f"== role: its tests\n{libc}rt: role: its tests are proved\n"
    room.write("log", text)
    command = TOOL + ["log"]
    room.passes(command, "0 faults")
    role = "logic=proved\nrt: role proved"
    room.finds(command, "role rests on role::easy", ("log", role, "axioms role: role::easy (1 of the 1 declared)\nlogic=proved axioms=1\nrt: role proved"))
    room.finds(command, "role rests on axioms that have no names", ("log", role, "logic=proved axioms=1\nrt: role proved"))
    end = "axioms std: none reached of the 2 declared\nlogic=proved axioms=5\nrt: examples proved"
    more = end.replace("none reached of the 2", "std::process::c::abort (1 of the 2").replace("declared\n", "declared)\n", 1)
    room.finds(command, "os::c::rattle_errno, std::process::c::abort", ("log", end, more))
    hidden, first = "libc::write, ... (4 of the 50 declared)", text[: text.index("== onepass")]
    room.finds(command, "examples rests on ..., libc::lseek", ("log", first, first.replace("libc::write (3 of the 50 declared)", hidden)))
    room.finds(command, "role is not proved in it", ("log", "rt: role proved", "rt: role NOT PROVED"))
    kept = "rt: role is kept: an earlier run on this machine proved the same files over the same libraries\n"
    room.write("log", text.replace("== role\nlogic=proved\nrt: role proved\n", kept))
    room.passes(command, "0 faults")


def run():
    """Plants every fault; how many."""
    parts = [os.path.relpath(path, ROOT) for path in glob.glob(os.path.join(ROOT, "crates/*/src"))]
    parts += [f"crates/{name}/specs" for name in ("store", "sending", "role")]
    with Room("crates.txt", "tools", *parts, *(f"crates/{name}/proofs" for name in ("store", "sending", "state"))) as room:
        room.passes(TOOL, "0 faults")
        for part in (contracts, every_function, layers, names, stores, plain_stores, logs):
            part(room)
        return room.count
