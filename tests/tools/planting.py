"""A copy of the parts of the repository that a tool reads, in which faults are planted one at a time."""
import glob
import os
import shutil
import subprocess
import tempfile

ROOT = os.path.dirname(os.path.dirname(os.path.dirname(os.path.abspath(__file__))))


class Missed(Exception):
    """A tool did not find a planted fault, or found one where none is."""


class Room:
    """A folder with copies of these parts of the repository, and a count of what was planted in it."""

    def __init__(self, *parts):
        self.folder = tempfile.mkdtemp()
        self.count = 0
        for part in parts:
            self.copy(os.path.join(ROOT, part), part)

    def __enter__(self):
        return self

    def __exit__(self, *_):
        shutil.rmtree(self.folder)

    def at(self, path):
        """A path of the copy."""
        return os.path.join(self.folder, path)

    def copy(self, source, path):
        """Copies a file or folder into the room."""
        os.makedirs(os.path.dirname(self.at(path)), exist_ok=True)
        (shutil.copytree if os.path.isdir(source) else shutil.copy)(source, self.at(path))

    def lend_archives(self):
        """Lends the room the repository's archives. What is built with them stands in the room, so that it may be built beside other checks."""
        os.makedirs(self.at("target"))
        os.symlink(os.path.join(ROOT, "target", "staticlib"), self.at("target/staticlib"))

    def text(self, path):
        """A file's text, none where there is no such file."""
        if not os.path.exists(self.at(path)):
            return None
        with open(self.at(path), encoding="utf-8") as file:
            return file.read()

    def write(self, path, text):
        """Writes a file, or removes it, and the folders that it leaves empty, where there is no text."""
        if text is None:
            os.remove(self.at(path))
            while not os.listdir(os.path.dirname(self.at(path))):
                path = os.path.dirname(path)
                os.rmdir(self.at(path))
            return
        os.makedirs(os.path.dirname(self.at(path)), exist_ok=True)
        with open(self.at(path), "w", encoding="utf-8") as file:
            file.write(text)

    def sources(self):
        """The source files of the room's libraries."""
        found = glob.glob(self.at("crates/*/src/**/*.rt"), recursive=True)
        roots = [os.path.join(path.split("/src/")[0], "src", "main.rt") for path in found]
        return sorted(os.path.relpath(path, self.folder) for path, root in zip(found, roots) if not os.path.exists(root))

    def run(self, command, **words):
        """Runs a command in the room; its exit status and what it printed."""
        words = {**os.environ, "PYTHONDONTWRITEBYTECODE": "1", **words}
        done = subprocess.run(command, cwd=self.folder, env=words, stdout=subprocess.PIPE, stderr=subprocess.STDOUT, check=False)
        return done.returncode, done.stdout.decode("utf-8", "replace")

    def passes(self, command, said="", **words):
        """Sees the tool pass."""
        status, printed = self.run(command, **words)
        if status or said not in printed:
            raise Missed(f"{' '.join(command)} fails where nothing is wrong, or does not say '{said}' (exit {status}):\n{printed[-2000:]}")
        self.count += 1

    def finds(self, command, said, *changes, **words):
        """Plants a fault, sees the tool fail and say so, and takes the fault back.

        A change is a path and a text to write there (None: no file), or a path, an old text that stands there once or more, and its new text.
        """
        kept = [(change[0], self.text(change[0])) for change in changes]
        for path, *change in changes:
            if len(change) == 2 and change[0] not in (self.text(path) or ""):
                raise Missed(f"'{change[0]}' is not in {path}: the fault '{said}' cannot be planted")
            self.write(path, change[0] if len(change) == 1 else self.text(path).replace(change[0], change[1], 1))
        status, printed = self.run(command, **words)
        for path, text in kept:
            if text is not None or self.text(path) is not None:
                self.write(path, text)
        if status != 1 or said not in printed:
            raise Missed(f"{' '.join(command)} does not say '{said}' of a planted fault (exit {status}):\n{printed[-2000:]}")
        self.count += 1
