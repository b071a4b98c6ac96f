#!/usr/bin/env python3
"""same.py OLD NEW [--only WORD] [--jobs N]: runs grubrun and grubtrace of two folders over every record and table of cases of the
repository and of ../shared, or those whose path has this word, and tells each difference: of the status, of both outputs, and of each
file that a run makes. Then it tells the time and memory of both. It wants no proof. The last line is 'N passed, M failed'."""
import argparse
import hashlib
import os
import re
import subprocess
import sys
import tempfile
from concurrent.futures import ThreadPoolExecutor

from cases import Table, tables_of
from crates import lanes
from shared import ROOT, Tried, each, files_below, unpacked

SHARED = os.path.realpath(f"{ROOT}/../shared")
PLACES = [f"{ROOT}/examples", f"{ROOT}/tests", f"{SHARED}/examples", f"{SHARED}/design"]
# What stands in a trace, and what begins an event file.
TRACE, EVENTS = re.compile(rb"^# tracer|\[\d{3,}\].* [\d.]+: \w+", re.M), re.compile(rb"grub \d+$", re.M)
VIEWS = [[], *(["--view", it] for it in ("timeline", "steps", "summary", "picture"))]
FILES = ["--table", "table", "--json", "json", "--picture", "svg", "--report", "report"]
# A run takes up to so many kB of memory, and seconds. Ratios of shorter runs, and of runs with less kB, say nothing.
ROOM, SECONDS, SHORT, SMALL = 1_000_000, 600, 0.2, 32_768
# Cases that are not compared: those with a pipe, a limit or a device, which cases.py tries, and those that print the version.
LEFT_OUT = {"in", "pieces", "into", "room", "most", "-V", "--version"}
# Runs a program from a small process, since a large one would count in its memory.
MEASURED = """import os, sys
_, status, used = os.wait4(os.fork() or os.execv(sys.argv[1], sys.argv[1:]), 0)
with open("figures", "w") as it:
    it.write(f"{os.waitstatus_to_exitcode(status)},{used.ru_utime + used.ru_stime},{used.ru_maxrss}")
"""


class Run:
    """A run of a program in a folder that has these files: what it made, its outputs and status, and its time and memory."""

    def __init__(self, words, files):
        with tempfile.TemporaryDirectory() as folder:
            os.mkdir(f"{folder}/folder")
            for name, path in files.items():
                os.symlink(path, f"{folder}/{name}")
            with open(f"{folder}/stdout", "wb") as out, open(f"{folder}/stderr", "wb") as err:
                measured = ["timeout", str(SECONDS), sys.executable, "-I", "-S", "-c", MEASURED, *words]
                subprocess.run(measured, cwd=folder, stdin=subprocess.DEVNULL, stdout=out, stderr=err, check=False)
            self.made = {os.path.relpath(it, folder): unpacked(it) for it in files_below(folder) if not os.path.islink(it)}
        self.made["status"], seconds, memory = self.made.pop("figures", f"no end after {SECONDS} s,0,0".encode()).split(b",")
        self.seconds, self.memory = float(seconds), int(memory)


def first_difference(old, new):
    """Where two texts part."""
    if old is None or new is None:
        return f"the {'new' if old is None else 'old'} program alone makes it"
    pairs = zip([*old.split(b"\n"), None], [*new.split(b"\n"), None])
    at, (was, now) = next((at, it) for at, it in enumerate(pairs, 1) if it[0] != it[1])
    return f"line {at} was {str(was)[:300]}, and is {str(now)[:300]}"


class Compared:
    """What both pairs of programs do with a record, or with a table of cases: the runs, and what is wrong with each."""

    def __init__(self, name, folders):
        self.name, self.folders, self.runs, self.faults = name, folders, [], []

    def run(self, program, words, files, what=""):
        """Runs a program of both folders: what the old one made."""
        old, new = (Run([f"{it}/{program}", *words], files) for it in self.folders)
        self.runs.append((f"{self.name}: {what or ' '.join([program, *words])}", old.seconds, new.seconds, old.memory, new.memory))
        self.faults.append([f"{it}: {first_difference(old.made.get(it), new.made.get(it))}" for it in sorted({*old.made, *new.made})
                            if old.made.get(it) != new.made.get(it)])
        return old.made

    def play(self, files):
        """Each view of event files. What several files answer without one depends on which thread is first."""
        for view in VIEWS if len(files) == 1 else VIEWS[1:]:
            self.run("grubrun", [*view, *files], files)

    def try_trace(self, path):
        """All commands over a trace, and the event files that it becomes. A task without a note gets a reservation, or most would end."""
        record = {"trace": path}
        told = self.run("grubtrace", ["tasks", "trace"], record)["stdout"].decode(errors="replace")
        tasks = re.findall(r"^task .*? pid=(\d+)(.*)", told, re.M)
        given = each("--task", (f"{pid}=5000:50000" for pid, more in tasks if " reserves=" not in more))
        for words in ([], FILES, ["--why"], ["--timers", "--why", *FILES]):
            self.run("grubtrace", ["check", *given, *words, "trace"], record)
        for words in ([], [*each("--task", (f"{pid}=50000" for pid, _ in tasks)), "--picture", "svg"]):
            self.run("grubtrace", ["size", *words, "trace"], record)
        made = self.run("grubtrace", ["events", *given, "--out", "run", "trace"], record)
        with tempfile.TemporaryDirectory() as folder:
            files = {it: f"{folder}/{it}" for it in sorted(made) if it.endswith(".grub")}
            for it, path in files.items():
                put(path, made[it])
            if files:
                self.play(files)

    def try_cases(self, folder, cases):
        """The runs of a table of cases, in which its files lie in a folder."""
        files = {it: f"{folder}/{it}" for it in os.listdir(folder) if it != "folder"}
        for case in cases:
            names = [it for it in case.words[1:] if os.path.isfile(os.path.join(os.fsencode(folder), os.fsencode(it)))]
            is_by_threads = case.words[0] == "grubrun" and "--view" not in case.words and len(names) > 1
            if not is_by_threads and LEFT_OUT.isdisjoint([*case.words, *case.given]):
                self.run(case.words[0], case.words[1:], files, case.name)


def put(path, text):
    with open(path, "wb") as it:
        it.write(text)


def records(folder, only):
    """Each record, unpacked into a folder: its path, its length, and how it is tried."""
    seen = set()
    for path in (it for place in PLACES for it in files_below(place) if only in it and os.path.isfile(it)):
        text, at = unpacked(path), f"{folder}/{len(seen)}"
        is_new = not path.endswith((".cases", ".md", ".py")) and hashlib.sha256(text).digest() not in seen
        if is_new and (EVENTS.match(text) or TRACE.search(text)):
            seen.add(hashlib.sha256(text).digest())
            put(at, text)
            is_trace = not EVENTS.match(text)
            yield path, len(text), lambda it, at=at, is_trace=is_trace: it.try_trace(at) if is_trace else it.play({"events": at})


def tables(folder, only):
    """The same of each table of cases, whose files are made in a folder."""
    for path in (it for it in tables_of([]) if only in it):
        made = f"{folder}/{os.path.basename(path)}"
        os.makedirs(f"{made}/folder")
        os.symlink(f"{ROOT}/examples", f"{made}/examples")
        os.chdir(made)
        cases = Table(path).cases
        os.chdir(ROOT)
        yield path, 10_000_000, lambda it, made=made, cases=cases: it.try_cases(made, cases)


def tell(what, runs, unit, least):
    """Tells what all runs took with both programs, and where the new ones take most more."""
    old, new = sum(it[1] for it in runs), sum(it[2] for it in runs)
    print(f"same: {what}: {old:.1f} {unit} before, {new:.1f} {unit} now")
    for name, was, now in sorted((it for it in runs if it[1] >= least), key=lambda it: -it[2] / it[1])[:3]:
        print(f"same:   {now / was:.2f} times: {was:.2f} {unit} before, {now:.2f} {unit} now: {name}")


def tried(path, folders, work):
    it = Compared(os.path.relpath(path, os.path.dirname(ROOT)), folders)
    work(it)
    return it


def main():
    words = argparse.ArgumentParser()
    words.add_argument("old")
    words.add_argument("new")
    words.add_argument("--only", default="")
    words.add_argument("--jobs", type=int, default=lanes(ROOM))
    given, counts, runs = words.parse_args(), Tried("same"), []
    folders = [os.path.abspath(it) for it in (given.old, given.new)]
    with tempfile.TemporaryDirectory() as folder, ThreadPoolExecutor(given.jobs) as pool:
        found = [*records(folder, given.only), *tables(folder, given.only)]
        # (first those that take longest)
        for compared in pool.map(lambda it: tried(it[0], folders, it[2]), sorted(found, key=lambda it: -it[1])):
            for (what, *_), wrong in zip(compared.runs, compared.faults):
                counts.add(what, wrong)
            runs += compared.runs
    print(f"same: {len(found)} records and tables of cases")
    tell("time", [(it[0], it[1], it[2]) for it in runs], "s", SHORT)
    tell("memory", [(it[0], it[3] / 1024, it[4] / 1024) for it in runs], "MiB", SMALL / 1024)
    counts.end()


if __name__ == "__main__":
    main()
