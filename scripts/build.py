#!/usr/bin/env python3
"""build.py [NAME]..: proves grubrun and grubtrace, or the programs and static libraries that are named, with what they stand on,
and builds them into crates/NAME/out. What the prover checked is kept by module on this machine, for all checkouts, and taken from
there where nothing that it rests on changed; a crate whose text, and whose libraries' statements, are as before is not called at
all. out/build/CRATE.log has what was said. It calls the kit's `rattle`, since `rt` keeps nothing for a second checkout.
build.py --gate does so with all crates and their tests, builds each program by both compilers, runs programs and tests, holds each
text to what `rt ci` refuses, and ends with 'N passed, M failed'; out/build/times has the seconds.
`build.py --over-ci NAME..` takes what is below from what `rt ci` just left. `build.py --arm64 ..` proves and builds static
libraries for arm64, into out/aarch64. `build.py --clean` removes what the scripts keep on this machine, the refused edits among it."""
import fcntl
import hashlib
import os
import re
import shutil
import sys
import time
from concurrent.futures import FIRST_COMPLETED, ThreadPoolExecutor, wait

from crates import CACHE, LIBRARIES, ROOM, crates, kit_folder, lanes, left_by_ci, statements, sum_of
from kit import Kit
from shared import ROOT, Tried, text_of

BUILD = f"{ROOT}/out/build"
# What the prover checked, by module, and which texts the kit took whole.
MODULES, SEEN = f"{CACHE}/modules", f"{CACHE}/seen"
PROGRAMS = ["grubrun", "grubtrace"]
# What a static library is proved and built for, and by which compilers: what each makes lies in a folder of its name.
HERE = ([], {"llvm": "llvm", "rattle": "rattle"})
ARM64 = (["--target", "aarch64-unknown-linux-gnu"], {"aarch64": "llvm"})


def say(text, well=False):
    print(text, file=sys.stderr, flush=True)
    return well


class Part:
    """What is made of a crate by one check: the crate itself, a program by the second compiler, or the program of its tests."""

    def __init__(self, crate, ending="", target=HERE):
        self.crate, self.ending, self.target, self.is_tests = crate, ending, target, ending == "_tests"
        self.label = crate.name + {"": "", "_tests": ": tests", ".by-rattle": ": second build"}[ending]
        self.kept = f"{BUILD}/{crate.name}{ending}" + "".join(f".{it}" for it in target[0][1:] if crate.is_static)
        self.links = crate.is_program or crate.is_static or self.is_tests
        self.store = f"{MODULES}/{crate.name}{ending if self.is_tests else ''}"
        out = f"{crate.folder}/out"
        if crate.is_static and not ending:
            self.made = [f"{out}/{it}/lib{crate.name}.a" for it in target[1]]
        else:
            self.made = [f"{out}/{crate.name}{ending}" if self.links else f"{LIBRARIES}/{crate.name}.rlib"]

    def reads(self, kit_id):
        """A sum of all that the check reads: the text, the kit, and of the libraries below their statements. What links them reads all."""
        crate, column = self.crate, 1 if self.links else 2
        low = [text_of(f"{BUILD}/{it}.made").split()[column] for it in crate.below]
        return hashlib.sha256("\n".join([sum_of(*crate.parts), *crate.uses, *low, kit_id]).encode()).hexdigest()

    def commands(self, words, more):
        """The calls of `rattle` that prove a crate and compile it, over the kept modules."""
        target, compilers = self.target
        words = ["build", *words, *more]
        if self.crate.is_static and not self.is_tests:
            return [[*words, "--crate-type", "staticlib", *target, "--backend", it, "-o", to] for it, to in zip(compilers.values(), self.made)]
        if not self.links:
            return [[*words, "-o", *self.made]]
        by = "rattle" if self.ending == ".by-rattle" else "llvm"
        return [[*words, *["--test"] * self.is_tests, "--backend", by, "-o", f"{self.kept}.o"]]


class Builder:
    """Makes parts, over what this machine keeps, or from nothing over what `rt ci` left."""

    def __init__(self, libraries=None):
        self.kit, self.folder, self.libraries = Kit(), kit_folder(), libraries
        self.kit_id = text_of(f"{self.folder}/KIT-ID")

    def seen(self, crate):
        """Where is kept that the kit took a crate's text whole, and found no contract in it that no call can meet."""
        return f"{SEEN}/{hashlib.sha256(f'{crate.name} {crate.uses} {sum_of(*crate.parts)} {self.kit_id}'.encode()).hexdigest()}"

    def prove(self, part, jobs):
        """Proves a part, and makes what is made of it: whether it is well."""
        crate, path, began = part.crate, f"{part.kept}.log", time.time()
        for it in [*part.made, path]:
            os.makedirs(os.path.dirname(it), exist_ok=True)
        more = ["--jobs", str(jobs), *([] if self.libraries else ["--incremental", part.store])]
        more += ["--toolchain", f"{self.folder}/toolchain"] if part.links else []
        seen = self.seen(crate)
        is_new = not part.ending and not os.path.isfile(seen)
        words = crate.words(self.folder, self.libraries or dict.fromkeys(crate.below, LIBRARIES))
        with open(path, "w+", encoding="utf-8") as log:
            well = not (is_new and self.kit.refuses_text(crate.name, log))
            # (a text that was once taken is not searched again for contracts that no call can meet)
            for it in part.commands(words, [*more, *["--empty-contracts"] * is_new]):
                well = well and self.kit.prove(crate.name, it, log)
            if well and part.links and not (crate.is_static and not part.is_tests):
                well = self.kit.link(crate.name, f"{part.kept}.o", part.made[0], log)
        took = f"{time.time() - began:.0f} s"
        if not well:
            last = "\n".join(text_of(path).split("\n")[-13:])
            return say(f"build: {part.label} was not proved, after {took}; the last lines of {path}:\n{last}")
        if is_new:
            open(seen, "w", encoding="utf-8").close()
        checked = re.findall(r"^crate \w+: modules loaded=(\d+) checked=(\d+)", text_of(path), re.M)
        count = f", {checked[-1][1]} of {sum(map(int, checked[-1]))} modules checked" if checked else ""
        return say(f"proved {part.label} in {took}{count}", True)

    def make(self, part, jobs):
        """Proves a part, and makes what is made of it, unless that was done: whether it is well."""
        note, read = f"{part.kept}.made", part.reads(self.kit_id)
        is_made = all(map(os.path.exists, [note, self.seen(part.crate), *part.made]))
        if is_made and text_of(note).startswith(f"{read} {sum_of(*part.made)} "):
            return True
        # One checkout at a time writes what is kept of a crate.
        with open(f"{part.store}.lock", "w", encoding="utf-8") as lock:
            fcntl.flock(lock, fcntl.LOCK_EX)
            well = self.prove(part, jobs)
        if well and read != part.reads(self.kit_id):
            say(f"build: a file of {part.crate.name} was changed meanwhile: once more")
            return self.make(part, jobs)
        if well:
            with open(note, "w", encoding="utf-8") as it:
                it.write(f"{read} {sum_of(*part.made)} {'-' if part.links else statements(*part.made)}")
        return well

    def make_all(self, parts):
        """Makes all parts that do not stand on what fails, first those that most has to be proved after: the labels of what was made."""
        behind, made, running, times = {}, set(), {}, {}
        for part in reversed(parts):
            behind[part] = part.crate.weight + max((behind[it] for it in behind if part.crate.name in it.crate.uses), default=0)
        left, most = sorted(parts, key=behind.get, reverse=True), lanes(ROOM, 1)
        with ThreadPoolExecutor(most) as pool:
            while True:
                for part in [it for it in left if made.issuperset(it.crate.below)][:most - len(running)]:
                    left.remove(part)
                    jobs = 1 if running else len(os.sched_getaffinity(0))
                    running[pool.submit(self.make, part, jobs)], times[part.label] = part, time.time()
                if not running:
                    break
                for it in wait(running, return_when=FIRST_COMPLETED).done:
                    label = running.pop(it).label
                    times[label] = time.time() - times[label]
                    made |= {label} if it.result() else set()
        if left:
            say(f"build: not tried, since they stand on what was not proved: {', '.join(it.label for it in left)}")
        with open(f"{BUILD}/times", "w", encoding="utf-8") as it:
            it.writelines(f"{took:.0f} s {label}\n" for label, took in sorted(times.items(), key=lambda it: -it[1]))
        return made


def gate(known):
    """All crates and tests are proved, each program is built by both compilers, and programs and tests are run."""
    builder, tried = Builder(), Tried("proofs")
    own = {it.name: it for it in builder.kit.all}
    parts = [Part(it) for it in known.values()]
    parts += [Part(it, "_tests") for it in known.values() if own[it.name].has_tests()]
    parts += [Part(it, ".by-rattle") for it in known.values() if it.is_program]
    made = builder.make_all(parts)
    for part in parts:
        tried.add(part.label, [] if part.label in made else ["not proved"])
        if part.label in made and (part.is_tests or part.crate.is_program):
            runs = builder.kit.runs(part.crate.name, part.is_tests, "" if part.is_tests else part.ending)
            tried.add(f"{part.label}, run", [] if runs else ["it failed"])
    spent = os.times()
    print(f"proofs: {spent.children_user + spent.children_system:.0f} s of a processor; the ten dearest took " +
          "; ".join(text_of(f"{BUILD}/times").split("\n")[:10]))
    tried.end()


def build(names, known, target):
    """Whether these programs and static libraries, with all that they stand on, were proved and built."""
    wanted = {low for it in names for low in [*known[it].below, it]}
    chosen = [Part(it, target=target) for it in known.values() if it.name in wanted]
    return Builder().make_all(chosen).issuperset(wanted)


def build_over_ci(names, known, target):
    """The same, over the libraries that `rt ci` just left, with nothing kept."""
    libraries = left_by_ci({low for it in names for low in known[it].below}) or sys.exit("build: rt ci has left no libraries")
    builder = Builder(libraries)
    with ThreadPoolExecutor() as pool:
        return all(list(pool.map(lambda it: builder.prove(Part(known[it], target=target), 1), names)))


def main(words):
    if words == ["--clean"]:
        for it in (BUILD, CACHE):
            shutil.rmtree(it, ignore_errors=True)
        return 0
    if not shutil.which("rt"):
        sys.exit("build: there is no rt, the command of the kit")
    for it in (BUILD, LIBRARIES, MODULES, SEEN):
        os.makedirs(it, exist_ok=True)
    with open(f"{LIBRARIES}/of", "w", encoding="utf-8") as it:
        it.write(ROOT)
    for it in os.scandir(os.path.dirname(LIBRARIES)):
        # (libraries of a checkout that is gone)
        if os.path.isfile(f"{it.path}/of") and not os.path.isdir(text_of(f"{it.path}/of")):
            shutil.rmtree(it.path, ignore_errors=True)
    known, target = crates(), ARM64 if "--arm64" in words else HERE
    names = [it for it in words if not it.startswith("--")] or PROGRAMS
    with open(f"{BUILD}/lock", "w", encoding="utf-8") as lock:
        fcntl.flock(lock, fcntl.LOCK_EX)
        if "--gate" in words:
            gate(known)
        return 0 if (build_over_ci if "--over-ci" in words else build)(names, known, target) else 1


if __name__ == "__main__":
    sys.exit(main(sys.argv[1:]))
