"""What the tools ask of the kit: its compiler's words for a crate, and the built libraries of the crates below it.

Usage: python3 tools/kit.py --before     before rt ci: notes which crates have a built library already
       python3 tools/kit.py --proved     after rt ci has passed: notes the libraries that it built, and the text that each is of
       python3 tools/kit.py CRATE        sees that the libraries below a crate are of the text as it is, and prints the compiler's words for it
       python3 tools/kit.py --of CRATE   prints a hash of the kit and one of all the text that a proof of the crate rests on
The compiler is KIT/bin/rattle. rt gives it the same words, and rt ci leaves the library of each crate that it proved in crates/NAME/out/rlib.
So what comes after rt ci takes these and proves none of them again. `rt lib` builds them anew where the note of --proved holds no longer.
"""
import os
import subprocess
import sys

sys.dont_write_bytecode = True
import listing
import seen

BEFORE = os.path.join("target", "libraries-before.txt")
PROVED = os.path.join("target", "libraries-proved.txt")
COMPILER = ("bin", "rattle")


def home():
    """The kit's folder: `rt doc` names a page of it."""
    return os.path.dirname(subprocess.run(["rt", "doc"], stdout=subprocess.PIPE, check=True).stdout.decode("utf-8").strip())


def library(crate):
    """The folder of a crate's built library, by its full path."""
    return os.path.abspath(os.path.join("crates", crate, "out", "rlib", f"{crate}.rlib"))


def words(crate, kit, jobs=1):
    """The compiler's words for a crate that stands in the folder where it is run."""
    known = listing.crates()
    below = sorted(listing.below(crate, known) - {crate})
    root = "src/main.rt" if os.path.exists(f"crates/{crate}/src/main.rt") else "src/lib.rt"
    said = ["--crate-name", crate, root]
    for name in ["std", *(name for name in known[crate] if name not in known)]:
        said += ["--extern", f"{name}={kit}/rlibs/{name}.rlib"]
    said += ["-L", f"dependency={kit}/rlibs"]
    for name in known[crate]:
        said += ["--extern", f"{name}={library(name)}"] if name in known else []
    for name in below:
        said += ["-L", f"dependency={os.path.dirname(library(name))}"]
    said += ["--antt-project", f"{kit}/rattle/logic/antt-project.json", "--logic-built", f"{kit}/logic_built"]
    said += ["--jobs", str(jobs), "--links", f"{crate}="]
    return said + (["--crate-type", "staticlib"] if crate in listing.static_libraries() else [])


def built(crate):
    """The hash of a crate's built library, which has the sums of its files in the file format; none where there is no library."""
    path = os.path.join(library(crate), "format")
    return seen.of_file(path) if os.path.exists(path) else ""


def noted():
    """The libraries that rt ci built: of each crate the hash of the text and that of the library."""
    if not os.path.exists(PROVED):
        return {}
    return {line.split()[0]: tuple(line.split()[1:]) for line in listing.read(PROVED).splitlines()}


def note_before():
    """Notes the crates that have a built library, of which nothing says that it is of the text as it is."""
    os.makedirs("target", exist_ok=True)
    with open(BEFORE, "w", encoding="utf-8") as file:
        file.write("".join(f"{crate}\n" for crate in listing.crates() if os.path.exists(library(crate))))


def note_proved():
    """Notes the libraries that were not there before: rt ci built them, of the text as it is."""
    before, texts = set(listing.read(BEFORE).split()), seen.Texts()
    with open(PROVED, "w", encoding="utf-8") as file:
        for crate in listing.crates():
            if crate not in before and built(crate):
                file.write(f"{crate} {texts.rests(crate)} {built(crate)}\n")


def stale(crate, texts):
    """The crates below this one whose library is not noted as that of the text as it is."""
    notes = noted()
    return [name for name in sorted(listing.below(crate) - {crate}) if notes.get(name) != (texts.rests(name), built(name))]


def prepare(crate, texts):
    """Has rt build the libraries below a crate where they are not of the text as it is; what it said, where one is not proved."""
    if not stale(crate, texts):
        return ""
    known = listing.crates()
    for name in (name for name in known[crate] if name in known):
        done = subprocess.run(["rt", "lib"], cwd=f"crates/{name}", stdout=subprocess.PIPE, stderr=subprocess.STDOUT, check=False)
        if done.returncode:
            return done.stdout.decode("utf-8", "replace") + f"\n{name}, which {crate} needs, is not proved"
    return ""


def main():
    """Does what the first word asks for; with the name of a crate prints the compiler's words, one a line."""
    if sys.argv[1:] == ["--before"]:
        note_before()
    elif sys.argv[1:] == ["--proved"]:
        note_proved()
    elif sys.argv[1] == "--of":
        texts = seen.Texts()
        print(texts.toolchain, texts.rests(sys.argv[2]))
    else:
        said = prepare(sys.argv[1], seen.Texts())
        if said:
            sys.exit(said)
        print("\n".join(words(sys.argv[1], home(), min(os.cpu_count() or 1, 4))))
    return 0


if __name__ == "__main__":
    sys.exit(main())
