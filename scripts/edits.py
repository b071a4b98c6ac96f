#!/usr/bin/env python3
"""edits.py [--minutes N] [NAME | NAME/EDIT]..: tries the must-fail edits of crates/NAME/edits. The prover must refuse each, or
the language, by the error that a line 'error: NAME' of the edit names. Only the functions that edits turn are checked, and those
of the crate that they call, over the libraries that `rt ci` or scripts/build.py left. All edits of a crate are tried in one
check, each in a copy of its function. What that does not refuse is tried alone, in its place, and then in a check of the whole
crate. What was refused is kept on this machine, by a sum of all that its check read. What is not tried in N minutes has failed.
With --gate those are tried whose crates changed since the commit that .ci/edits-tried names, and 60 others, drawn by the commit's own
hash. A run of all that are refused, with nothing left to commit, writes that file. With --over-ci the libraries are those that
`rt ci` just left. The last line is 'N passed, M failed'."""
import argparse
import hashlib
import os
import random
import re
import shutil
import subprocess
import sys
import tempfile
import time
from concurrent.futures import ThreadPoolExecutor
from functools import cache

from crates import CACHE, LIBRARIES, ROOM, crates, kit_folder, lanes, left_by_ci, statements, sum_of
from shared import ROOT, Tried, each, files_below, ran, text_of

# No check that goes well takes so many seconds.
LONGEST = 1800
KEPT = f"{CACHE}/edits"
# The commit on which all edits were last tried, and how many the gate draws of those whose crates are as they were there.
ALL_TRIED, DRAWN = f"{ROOT}/.ci/edits-tried", 60
FUNCTION = re.compile(r"^( *)(?:#\[.*\]\n *)*(?:pub(?:\(\w+\))? )?(?:const )?(?:unsafe )?(?:extern \"C\" )?fn (\w+)", re.M)
TYPE = re.compile(r"^(?:impl|trait)(?:<.*?>)? (?:(?:\w+::)*(\w+(?:<.*>)?) for )?&?(?:\w+::)*(\w+)", re.M)
# A text that cannot be read: then no contract was tried. And what the prover says of a function that it does not admit.
MISREAD = r"is not in scope|has no field|is no name|operand is missing|expected the end|cannot continue"
UNREAD = re.compile(rf"^(?:\./)?src/\S+?:\d+:\d+: error(?:\[|: (?!`)|: .*(?:{MISREAD})).*$", re.M)
VERDICT = re.compile(r"^fn (\S+): (?:not proved|no proof|could not tell)(.*)$", re.M)
# What of that it says of the functions that are called; and a proof that names what an edit took away.
CALLEES = re.compile(r"[:;] (?:it (?:calls .*, which (?:is|are) not proved|waits for the proof of .*)|"
                     r"the borrow checker's part in its proof is not made yet: a call of .*, which has no proof: .*)$")
LACKS = re.compile(r"has no field|is not in scope|has no `|was not admitted")


class Function:
    """The function of a file that stands around a place: its name as `--only` knows it, with its type or module, and its text."""

    def __init__(self, file, text, found, end):
        *_, kind = [None, *TYPE.finditer(text[:found.start()] if found[1] else "")]
        module = [it for it in file[len("src/"):-len(".rt")].split("/") if it not in ("lib", "main")]
        owner = [kind[2] + re.sub(r"\W", "", kind[1] or "")] if kind else []
        self.file, self.end, self.text, self.last = file, end, text[found.start():end], found[2]
        self.name, self.module, self.owner = "::".join([*(owner or module), found[2]]), module, owner
        # (neither a trait nor an impl of one has room for a copy)
        self.is_free = not kind or not kind[1] and kind[0].startswith("impl")


def function_at(file, text, at):
    """The function around a place of a file's text. None is outside of all."""
    found = ([None, *FUNCTION.finditer(text[:at])])[-1]
    end = text.find(f"\n{found[1]}}}\n", found.end()) if found else -1
    return Function(file, text, found, end + len(f"\n{found[1]}}}\n")) if end >= at - 1 else None


class Edit:
    """What an edit makes of a crate's files, the functions that it turns, the error that it names, and its own faults."""

    def __init__(self, crate, path):
        self.crate, self.label = crate, f"{crate.name}/{os.path.basename(path).removesuffix('.edit')}"
        self.files, self.turns, self.functions, self.error, self.bad, around = {}, [], set(), None, [], []
        for key, value in re.findall(r"^(file|old|new|error): (.*)$", text_of(path), re.M):
            if key == "file":
                file = value.strip()
                self.files.setdefault(file, text_of(f"{crate.folder}/{file}"))
            elif key == "old":
                old = value
            elif key == "error":
                self.error = value
            else:
                before, *after = self.files[file].split(old)
                if len(after) != 1 or old == value:
                    self.bad.append(f"BAD: {len(after)} places of {file} are turned: {old}")
                around.append(function_at(file, self.files[file], len(before + old)))
                self.files[file] = self.files[file].replace(old, value)
                self.turns.append((file, old, value))
        self.functions = {it and it.name for it in around}
        self.bad = self.bad if self.functions else ["BAD: it changes nothing"]
        # The function as it was, where the edit turns that alone, and a copy of it can stand beside it.
        self.copied = around[0] if len(self.functions) == 1 and around[0] and around[0].is_free and not self.error else None

    def is_refused(self, said, functions):
        """Whether one of these functions is refused for itself, not for one that it calls or for what another edit took away."""
        for name, why in VERDICT.findall(said):
            if any(name.endswith(f"::{it}") for it in functions):
                path = name.partition("::")[2].replace("::", "/")
                told = re.findall(rf"^\./proofs/{path}/\w+\.antt:\d+:\d+: error: (.*)$", said, re.M)
                if any(not LACKS.search(it) for it in told) or not told and (CALLEES.sub("", why) or not why):
                    return True
        return False


def beside(edits):
    """The texts of a crate's files where copies of functions have these edits, and the names of the copies, by edits."""
    files, names = {}, {}
    for number, edit in enumerate(sorted(edits, key=lambda it: it.copied.end, reverse=True)):
        it, text = edit.copied, edit.copied.text
        for _, old, new in edit.turns:
            text = text.replace(old, new)
        last = f"{it.last}_{number}"
        text = re.sub(rf"\bfn {it.last}\b", f"fn {last}", text, count=1)
        whole = files.get(it.file) or text_of(f"{edit.crate.folder}/{it.file}")
        files[it.file] = f"{whole[:it.end]}\n{text}{whole[it.end:]}"
        names[edit] = it.name.removesuffix(it.last) + last
        for path in files_below(f"{edit.crate.folder}/proofs"):
            # (a method's proof lies with its type, in whichever module its text is)
            folder, _, file = os.path.relpath(path, edit.crate.folder).rpartition("/")
            if folder.endswith("/".join(["", *it.owner, it.last]) if it.owner else "/".join(["proofs", *it.module, it.last])):
                moved = f"{folder.removesuffix(it.last)}{last}/{file}"
                files[moved] = re.sub(rf"((?:proofs|contracts)\.(?:\w+\.)*){it.last}\.", rf"\1{last}.", text_of(path))
    return files, names


class Trial:
    """The checks of edits, over these libraries, until a time."""

    def __init__(self, libraries, room, end):
        self.kit, self.libraries, self.room, self.end = kit_folder(), libraries, room, end

    @cache
    def stated(self, name):
        """A sum of what a library below states."""
        return statements(f"{self.libraries[name]}/{name}.rlib")

    @cache
    def read(self, crate):
        """A sum of all that checks of a crate read."""
        low = [self.stated(it) for it in crate.below]
        own = sum_of(f"{ROOT}/scripts/crates.py", f"{ROOT}/scripts/edits.py", *crate.parts)
        return " ".join([text_of(f"{self.kit}/KIT-ID"), crate.name, *crate.uses, own, *low])

    def check(self, crate, files, functions):
        """Checks these functions, or all if there are none, in a copy of a crate with these files: status, and text."""
        with tempfile.TemporaryDirectory(dir=self.room) as tree:
            for folder in filter(os.path.isdir, crate.parts):
                shutil.copytree(folder, f"{tree}/{os.path.basename(folder)}")
            for path, text in files.items():
                os.makedirs(os.path.dirname(f"{tree}/{path}"), exist_ok=True)
                with open(f"{tree}/{path}", "w", encoding="utf-8") as it:
                    it.write(text)
            # (what a check of the crate proved, the next one of it takes from there)
            kept = ["--incremental", f"{self.room}/{crate.name}"]
            words = [*crate.words(self.kit, self.libraries), "--jobs", "1", *kept, *each("--only", sorted(functions))]
            try:
                most = max(1, min(LONGEST, self.end - time.time()))
                done = ran(f"{self.kit}/bin/rattle", "check", *words, cwd=tree, timeout=most)
            except subprocess.TimeoutExpired:
                return 3, "no end"
            return done.returncode, done.stdout + done.stderr

    def faults(self, edit):
        """What is wrong with an edit, or nothing where it is refused."""
        status, said = self.check(edit.crate, edit.files, edit.functions) if None not in edit.functions else (0, "")
        if status in (0, 2):
            # (what stands on it may not be proved, or `--only` does not know it)
            status, said = self.check(edit.crate, edit.files, ())
        misread, errors = UNREAD.search(said), re.findall(r"\berror\[([\w-]+)\]", said)
        if status == 0:
            return ["NOT REFUSED: the crate is still proved"]
        if edit.error:
            return [] if errors == [edit.error] else [f"BAD: refused by {errors}, wanted {edit.error}"]
        if status != 1 or misread or not ("logic=not-proved" in said or VERDICT.search(said)):
            return [f"BAD: {misread[0][:200] if misread else f'the check ended with status {status}: {said[-300:]}'}"]
        return []

    def refused_in_copies(self, edits):
        """Which of these edits of a crate are refused in one check, each in a copy of its function."""
        files, names = beside([it for it in edits if it.copied])
        status, said = self.check(edits[0].crate, files, set(names.values())) if names else (0, "")
        return [it for it, name in names.items() if status == 1 and not UNREAD.search(said) and it.is_refused(said, [name])]

    def kept(self, edit):
        """Where it is kept that an edit was refused."""
        made = f"{self.read(edit.crate)} {sorted(edit.files.items())} {edit.error}"
        return f"{KEPT}/{hashlib.sha256(made.encode()).hexdigest()}"

    def run(self, edits):
        """What is wrong with each of these edits of a crate, tried now or kept."""
        wrong = {it: it.bad for it in edits}
        left = [it for it in edits if not it.bad and not os.path.isfile(self.kept(it))]
        done = self.refused_in_copies(left) if left else []
        while left and time.time() < self.end:
            if not done:
                done, wrong[left[0]] = left[:1], self.faults(left[0])
            for edit in (it for it in done if not wrong[it]):
                with open(self.kept(edit), "w", encoding="utf-8") as it:
                    it.write(edit.label)
            left, done = [it for it in left if it not in done], []
        return {**wrong, **{it: ["NOT TRIED: the time was over"] for it in left}}


def git(*words):
    done = ran("git", *words, cwd=ROOT)
    return done.stdout.split() if done.returncode == 0 else None


def of_the_gate(edits):
    """The edits of crates that changed since all were tried, and a draw of the others. All, where git does not know that commit."""
    last = text_of(ALL_TRIED).strip() if os.path.isfile(ALL_TRIED) else ""
    changed = git("diff", "--name-only", last, "--", "crates") if last else None
    if changed is None:
        return edits
    crates_changed = {it.split("/")[1] for it in changed}
    others = [it for it in edits if it.crate.name not in crates_changed]
    drawn = random.Random(git("rev-parse", "HEAD")[0]).sample(others, min(DRAWN, len(others)))
    return [it for it in edits if it in drawn or it not in others]


def main():
    parser = argparse.ArgumentParser(description=__doc__, formatter_class=argparse.RawDescriptionHelpFormatter)
    parser.add_argument("names", nargs="*", metavar="NAME | NAME/EDIT")
    parser.add_argument("--minutes", type=float, default=float("inf"))
    parser.add_argument("--gate", action="store_true")
    parser.add_argument("--over-ci", action="store_true")
    given = parser.parse_args()
    known = crates()
    edits = [Edit(crate, it) for crate in known.values() for it in files_below(f"{crate.folder}/edits")]
    lacking = set(given.names) - known.keys() - {it.label for it in edits}
    edits = [it for it in edits if not given.names or {it.crate.name, it.label} & set(given.names)]
    edits = of_the_gate(edits) if given.gate else edits
    below = {low for it in edits for low in it.crate.below}
    libraries = given.over_ci and left_by_ci(below) or dict.fromkeys(below, LIBRARIES)
    if lacking or not all(os.path.isdir(f"{at}/{it}.rlib") for it, at in libraries.items()):
        said = f"there is no {' and no '.join(lacking)}" if lacking else "rt ci or scripts/build.py must make the libraries"
        sys.exit(f"edits: {said}\n0 passed, 1 failed")
    os.makedirs(f"{ROOT}/out", exist_ok=True)
    os.makedirs(KEPT, exist_ok=True)
    tried = Tried("edits")
    # (first those that read most, since a check reads all that its crate stands on)
    most = {it: sum(known[low].weight for low in [*it.below, it.name]) for it in known.values()}
    own = [[it for it in edits if it.crate is crate] for crate in sorted({it.crate for it in edits}, key=most.get, reverse=True)]
    with tempfile.TemporaryDirectory(prefix="edits-", dir=f"{ROOT}/out") as room, ThreadPoolExecutor(lanes(ROOM)) as pool:
        for told in pool.map(Trial(libraries, room, time.time() + 60 * given.minutes).run, own):
            for edit, wrong in told.items():
                tried.add(edit.label, wrong)
    if not (given.names or given.gate or tried.failed) and git("status", "--porcelain") == []:
        with open(ALL_TRIED, "w", encoding="utf-8") as it:
            it.write(f"{git('rev-parse', 'HEAD')[0]}\n")
    tried.end()


if __name__ == "__main__":
    main()
