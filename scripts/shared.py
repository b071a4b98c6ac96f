"""What the scripts share: the repository's files, the built programs, and the counts that end a step of the gate."""
import lzma
import os
import subprocess
import sys

ROOT = os.path.dirname(os.path.dirname(os.path.abspath(__file__)))
RECORDS = f"{ROOT}/examples/records"
# Where `make unproved` leaves its programs, and whether those are meant.
UNPROVED, IS_UNPROVED = f"{ROOT}/out/unproved", bool(os.environ.get("NEDDWYROL_UNPROVED"))


def text_of(path):
    with open(path, encoding="utf-8") as it:
        return it.read()


def files_below(folder):
    """The files below a folder, or the file at this path."""
    if os.path.isfile(folder):
        return [folder]
    return sorted(f"{at}/{name}" for at, _, names in os.walk(folder) for name in names)


def unpacked(path):
    """The bytes of a file, unpacked where its name ends with `.xz`."""
    with (lzma.open if path.endswith(".xz") else open)(path, "rb") as it:
        return it.read()


def rows_of(text):
    """The rows of a table with a head, as dicts."""
    head, *rows = [it.split("\t") for it in text.split("\n") if it]
    return [dict(zip(head, it)) for it in rows]


def built(program):
    """The program that the gate or `make build` left, or with NEDDWYROL_UNPROVED `make unproved`. Where there is none, the step fails."""
    path, left_by = f"{ROOT}/crates/{program}/out/{program}", "the gate and `make build` make it"
    if IS_UNPROVED:
        path, left_by = f"{UNPROVED}/{program}", "`make unproved` makes it"
    if not os.access(path, os.X_OK):
        sys.exit(f"there is no {path}; {left_by}\n0 passed, 1 failed")
    return path


def ran(*words, **how):
    """A run of a command: its status, and its two outputs as text."""
    return subprocess.run(words, stdin=subprocess.DEVNULL, capture_output=True, text=True, errors="replace", check=False, **how)


def each(flag, values):
    """The words that give a command a flag with each of these values."""
    return [word for it in values for word in (flag, it)]


class Tried:
    """Counts what was tried, and tells what failed."""

    def __init__(self, step):
        self.step, self.passed, self.failed = step, 0, 0

    def add(self, name, wrong, count=1):
        """One more, or so many: `wrong` is a list of what is wrong with it."""
        failed = min(count, len(wrong))
        self.passed, self.failed = self.passed + count - failed, self.failed + failed
        if wrong:
            print(f"{self.step}: {name}: {len(wrong)} wrong: " + "; ".join(wrong[:4]), flush=True)

    def end(self):
        """Prints the counts, and ends with 0 where none failed."""
        print(f"{self.passed} passed, {self.failed} failed")
        sys.exit(self.failed > 0)
