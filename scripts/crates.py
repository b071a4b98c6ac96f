"""The crates that crates.txt lists, and the words by which the kit's `rattle` reads one."""
import hashlib
import os
from graphlib import TopologicalSorter

from shared import ROOT, each, files_below, ran, text_of

# All that the scripts keep outside of the checkout, for all checkouts of the project.
CACHE = f"{os.environ.get('XDG_CACHE_HOME') or os.path.expanduser('~/.cache')}/neddwyrol"
# The libraries that scripts/build.py makes. They hold .rt files, at which `rt ci` would stop, so they lie elsewhere.
LIBRARIES = f"{CACHE}/build/{hashlib.sha256(ROOT.encode()).hexdigest()[:16]}"
# A check or a build of a crate takes up to so many kB of memory.
ROOM = 2_500_000


def sum_of(*folders, start=ROOT):
    """One sum of all files below these folders, with their names from this folder on."""
    total = hashlib.sha256()
    for path in (it for folder in folders for it in files_below(folder)):
        with open(path, "rb") as it:
            total.update(f"{os.path.relpath(path, start)}\n".encode() + hashlib.sha256(it.read()).digest())
    return total.hexdigest()


def statements(library):
    """A sum of what crates above read of a library: its statements, neither its code nor the list of sums."""
    read = [it for part in ("interface", "below", "lang") for it in files_below(f"{library}/{part}") if not it.endswith("/lang/antt/made.json")]
    return sum_of(*read, start=library)


class Crate:
    """A crate, its folder, what it uses, and all crates of the repository below it, each after those that it uses."""

    def __init__(self, name, uses, known, is_static):
        self.name, self.folder, self.uses = name, f"{ROOT}/crates/{name}", uses
        self.below = list(dict.fromkeys(low for use in uses if use in known for low in [*known[use].below, use]))
        self.is_program, self.is_static = os.path.isfile(f"{self.folder}/src/main.rt"), is_static
        self.parts = [f"{self.folder}/{it}" for it in ("src", "specs", "proofs")]
        # About how much there is to prove.
        self.weight = sum(os.path.getsize(it) for part in self.parts for it in files_below(part))

    def words(self, kit, libraries):
        """The words for a check or a build, where the libraries below, by their names, lie in these folders."""
        low = {it: libraries[it] for it in self.below}
        return ["--crate-name", self.name, f"src/{'main' if self.is_program else 'lib'}.rt",
                *each("-L", (f"dependency={it}" for it in dict.fromkeys([f"{kit}/rlibs", *low.values()]))),
                *each("--extern", (f"{it}={low.get(it, f'{kit}/rlibs')}/{it}.rlib" for it in ["std", *self.uses])),
                "--antt-project", f"{kit}/rattle/logic/antt-project.json", "--logic-built", f"{kit}/logic_built"]


def crates():
    """All crates, by their names, each after those that it uses."""
    lines = [it.split("#")[0].partition(":") for it in text_of(f"{ROOT}/crates.txt").split("\n")]
    uses, found = {name.split()[0]: low.split() for name, mark, low in lines if mark}, {}
    static = {name.split()[0] for name, mark, _ in lines if mark and "staticlib" in name.split()}
    for name in TopologicalSorter(uses).static_order():
        if name in uses:
            found[name] = Crate(name, uses[name], found, name in static)
    return found


def left_by_ci(names):
    """Where the libraries of these crates lie as `rt ci` left them, by their names, or None where it did not."""
    found = {it: f"{ROOT}/crates/{it}/out/rlib" for it in names}
    return found if all(os.path.isdir(f"{at}/{it}.rlib") for it, at in found.items()) else None


def kit_folder():
    """The folder of the kit, whose first page `rt doc` names."""
    return os.path.dirname(os.path.realpath(ran("rt", "doc").stdout.strip()))


def lanes(room, spare=0):
    """How many jobs may run at once, where each takes so many kB of memory: one for each processor, and so many to spare."""
    free = next(int(it.split()[1]) for it in text_of("/proc/meminfo").split("\n") if it.startswith("MemAvailable:"))
    return max(1, min(len(os.sched_getaffinity(0)) + spare, free // room))
