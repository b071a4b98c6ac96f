#!/usr/bin/env python3
"""cases.py [PROGRAM=PATH].. [TABLE | FOLDER]..: runs the built programs on the cases of these tables, or of all in tests/ and
examples/. A program is the one that the gate or `make build` left, where no path is named. The last line: 'N passed, M failed'.
In a table '{WORD N times}' is a word so many times, '{all of FOLDER}' its files, '{root}' the repository. Its lines:

    file NAME [of PATH] [made KIND WORD..]
                         makes a file of the lines '| ..' below, of one of the repository (PATH.xz is unpacked), or by inputs.py
    case NAME            begins a case; its first line below is
    run PROGRAM WORD..   and its status is 0, and both outputs are empty, where it does not say otherwise:
    status N
    out, err [| LINES] [some] [as PATH] [last | LINES] [has TEXT] [lines N] [below BYTES]
                         exactly these lines, any text, a file's, at the end, somewhere, so many, or shorter than so much
    verdict WORD         a line of standard output begins with this word, whatever else it says
    shows | LINES        each of these lines is one of standard output, whatever the spaces, and counts as a case
    in FILE              standard input
    pieces N FILE        standard input: a pipe with so many lines of a file at a time, the next ones when those were read
    into PATH            where standard output goes: a device, 'closed', or 'gone', a pipe that nobody reads
    room KB, most BYTES  the memory that the program may have, and the longest file that it may write
    makes FILE [some] [as PATH] [rows PATH] [counts PATH] [sum SHA256] [has TEXT] [says KEYS VALUE] [| LINES], leaves FILE
                         a file is there afterwards, or none is; rows: of the kinds of that table's rows, in its columns;
                         counts: with so many equal and different rows of each kind; says: JSON that has this value at the
                         keys and places that points part
    slower CASE          it takes five times the processor time of that case, and 10 ms at least
    values PROGRAM WORD..    words with {} for the values of the next lines:
    taken VALUE..        runs with each of them, which the program takes: its status is 0, 4 or 5
    refused VALUE..      runs with each of them, of which it says that the words are wrong
    judged VALUE..       runs with each of them, which end with a verdict, or with one line that names a fault
    page PATH            a case for each block of a page that begins with '$ PROGRAM': it prints this; '..' is any lines"""
import fcntl
import hashlib
import json
import os
import re
import resource
import shlex
import signal
import struct
import subprocess
import sys
import tempfile
import termios
import time
from collections import Counter
from contextlib import contextmanager, nullcontext
from glob import glob
from threading import Event, Thread

from shared import ROOT, Tried, built, files_below, rows_of, text_of, unpacked

sys.path.append(f"{ROOT}/tests")
from inputs import make  # pylint: disable=wrong-import-position

SECONDS = 180
# Status, standard output and standard error of a run that ends with a verdict, or with one line that names a fault.
JUDGED = re.compile(rb"([05]\n(.*\n)*agrees.*|5\n(.*\n)*nothing could be compared.*|4\n(.*\n)*differs.*)\n(.*\n)*\0|1\n\0grubtrace: .*: \d\d [A-Z]\w+.*\n")
# The statuses of runs with values, and what is wanted of them.
VALUES = {
    "taken": ((0, 4, 5), [("out", "any", "")]),
    "refused": ((2,), [("err", "some", "")]),
    "judged": ((0, 1, 4, 5), [("out", "any", ""), ("err", "any", ""), ("run", "judged", "")]),
}


def has_rows(text, path):
    """Whether the rows of a table are those of another one, in the columns and of the kinds that this has."""
    wanted = rows_of(unpacked(f"{ROOT}/{path}").decode())
    kinds = {it["kind"] for it in wanted}
    return wanted == [{name: row[name] for name in wanted[0]} for row in rows_of(text.decode()) if row["kind"] in kinds]


def has_counts(text, path):
    """Whether a table's rows have these numbers of each answer, kind by kind."""
    found = Counter((it["kind"], it["answer"]) for it in rows_of(text.decode()))
    wanted = rows_of(text_of(f"{ROOT}/{path}"))
    return all(found[row["kind"], it] == int(row[it]) for row in wanted for it in ("equal", "differs"))


def says(text, wanted):
    """Whether a text is JSON that has a value at a place: keys and numbers, parted by points."""
    keys, _, value = wanted.partition(" ")
    found = json.loads(text)
    for key in keys.split("."):
        found = found[int(key)] if isinstance(found, list) else found[key]
    return found == json.loads(value)


def is_shown(text, shown):
    """Whether a page shows a text so: a line '..' stands for any lines."""
    parts = [re.escape(it) for it in re.split(r"^ *\.\.\n", shown, flags=re.M)]
    return re.fullmatch(r"(?:.*\n)*".join(parts), text.decode())


# What may be wanted of a text, by the words of a table.
HOLDS = {
    "": lambda text, block: text == block,
    "last": lambda text, block: text.endswith(block),
    "any": lambda text, _: True,
    "some": lambda text, _: text,
    "as": lambda text, path: text == unpacked(f"{ROOT}/{path}"),
    "rows": has_rows,
    "counts": has_counts,
    "sum": lambda text, wanted: hashlib.sha256(text).hexdigest() == wanted,
    "has": lambda text, part: part.encode() in text,
    "says": says,
    "lines": lambda text, count: text.count(b"\n") == int(count),
    "below": lambda text, size: len(text) < int(size),
    "verdict": lambda text, word: re.search(rf"^{word}\b".encode(), text, re.M),
    "shows": lambda text, line: line.split() in [it.split() for it in text.split(b"\n")],
    "page": is_shown,
    "judged": lambda text, _: JUDGED.fullmatch(text),
    "leaves": lambda text, _: False,
}


def expanded(text):
    """A line with the words that stand for many."""
    text = re.sub(r"\{(\S+) (\d+) times\}", lambda it: " ".join([it[1]] * int(it[2])), text)
    return re.sub(r"\{all of (\S+)\}", lambda it: " ".join(sorted(glob(f"{it[1]}/*"))), text)


def words_of(text):
    return [it.encode().decode("unicode_escape").encode("latin-1") if "\\x" in it else it.replace("{root}", ROOT)
            for it in shlex.split(expanded(text))]


def opened(into):
    """Where standard output goes."""
    if into in (None, "closed"):
        return nullcontext(subprocess.PIPE)
    if into != "gone":
        return open(into, "wb")
    reading, writing = os.pipe()
    os.close(reading)
    return os.fdopen(writing, "wb")


@contextmanager
def pieces(count, path):
    """The reading end of a pipe that has so many lines of a file at a time: the next ones when those before were read."""
    with open(path, "rb") as it:
        lines = it.readlines()
    end, start = os.pipe()
    done = Event()

    def write():
        for at in range(0, len(lines), int(count)):
            os.write(start, b"".join(lines[at:at + int(count)]))
            while not done.is_set() and fcntl.ioctl(start, termios.FIONREAD, b"\0" * 4) != b"\0" * 4:
                time.sleep(0.0001)
        os.close(start)

    writer = Thread(target=write)
    writer.start()
    try:
        yield end
    finally:
        done.set()
        writer.join()
        os.close(end)


class Case:
    """A run of a program: what it is given by the keys of a table, and what is wanted of it, each as (of what, how, what)."""

    def __init__(self, name, words=(), statuses=(0,), wants=()):
        self.name, self.words, self.statuses, self.wants, self.given = name, words, statuses, list(wants), {}

    def limit(self):
        signal.signal(signal.SIGXFSZ, signal.SIG_IGN)
        for key, limit, unit in (("room", resource.RLIMIT_AS, 1024), ("most", resource.RLIMIT_FSIZE, 1)):
            if key in self.given:
                resource.setrlimit(limit, (int(self.given[key]) * unit,) * 2)
        if self.given.get("into") == "closed":
            os.close(1)

    def run(self, program):
        """The status, both outputs, and the seconds of a processor that a run took."""
        before = resource.getrusage(resource.RUSAGE_CHILDREN).ru_utime
        told = self.given.get("pieces")
        with pieces(*told.split()) if told else open(self.given.get("in", os.devnull), "rb") as given, opened(self.given.get("into")) as out:
            done = subprocess.run([program, *self.words[1:]], stdin=given, stdout=out, stderr=subprocess.PIPE,
                                  preexec_fn=self.limit, timeout=SECONDS, check=False)
        seconds = resource.getrusage(resource.RUSAGE_CHILDREN).ru_utime - before
        return done.returncode, done.stdout or b"", done.stderr, seconds

    def faults(self, program, spent):
        """What is wrong with a run, in words."""
        try:
            status, out, err, seconds = self.run(program)
        except subprocess.TimeoutExpired:
            return [f"no end after {SECONDS} s"]
        spent[self.name], texts = seconds, {"out": out, "err": err, "run": b"%d\n%b\0%b" % (status, out, err)}
        said = err[:300].decode(errors="replace")
        wrong = [] if status in self.statuses else [f"status {status}, wanted {self.statuses}: {said}"]
        if "slower" in self.given and seconds < max(0.01, 5 * spent[self.given["slower"]]):
            wrong.append(f"{seconds} s, which is not slower than {self.given['slower']}")
        silent = {"out", "err"} - {it[0] for it in self.wants}
        for of, how, what in [*self.wants, *((it, "", b"") for it in silent)]:
            text = texts[of] if of in texts else unpacked(of) if os.path.isfile(of) else None
            if not (how == "leaves" if text is None else HOLDS[how](text, what)):
                wrong.append(f"{of} {how} {str(what)[:300]} does not hold: {(text or err)[-600:].decode(errors='replace')}")
        return wrong


class Table:
    """The cases of a table, and the files that it makes in the folder where they run."""

    def __init__(self, path):
        self.name, self.cases, self.pattern = os.path.basename(path).removesuffix(".cases"), [], None
        for entry in re.split(r"\n(?!\|)", text_of(path)):
            line, *lines = entry.split("\n")
            key, _, rest = line.strip().partition(" ")
            if key and not key.startswith("#"):
                self.read(key, rest, "".join(f"{it[2:]}\n" for it in lines).encode())

    def read(self, key, rest, block):
        if key == "file":
            self.make(block, *shlex.split(rest))
        elif key == "page":
            self.read_page(rest)
        elif key == "case":
            self.cases.append(Case(f"{self.name}: {rest}"))
        elif key == "values":
            self.pattern = rest
        elif key in VALUES:
            for it in (self.pattern.replace("{}", value) for value in expanded(rest).split(" ")):
                self.cases.append(Case(f"{self.name}: {it}", words_of(it), *VALUES[key]))
        else:
            self.read_want(self.cases[-1], key, rest, block)

    def read_want(self, case, key, rest, block):
        of, rest = (key, rest) if key != "makes" else (rest + " ").split(" ", 1)
        if key == "run":
            case.words = words_of(rest)
        elif key == "status":
            case.statuses = (int(rest),)
        elif key in ("in", "pieces", "into", "room", "most"):
            case.given[key] = rest
        elif key == "slower":
            case.given[key] = f"{self.name}: {rest}"
        elif key == "shows":
            case.wants += [("out", "shows", it) for it in block.splitlines()]
        elif key in ("verdict", "leaves"):
            case.wants.append(("out" if key == "verdict" else rest, key, rest))
        elif key in ("out", "err", "makes"):
            how, _, what = rest.strip().partition(" ")
            case.wants.append((of, how, what or block))
        else:
            sys.exit(f"cases: {self.name}: there is no {key}")

    def make(self, block, name, how="", *words):
        """Makes a file."""
        if how == "made":
            make(name, words[0], words[1:])
            return
        with open(name, "wb") as it:
            it.write(unpacked(f"{ROOT}/{words[0]}") if how else block)

    def read_page(self, path):
        """The blocks of a page: indented lines, the first a command."""
        for command, shown in re.findall(r"^    \$ (.*)\n((?:    .*\n|\n(?=    ))*)", text_of(f"{ROOT}/{path}"), re.M):
            shown = re.sub(r"^    ", "", shown, flags=re.M)
            self.cases.append(Case(f"{path}: {command}", words_of(command), wants=[("out", "page", shown)]))


def tables_of(words):
    """The tables that are named, or that stand in the folders that are, or all."""
    paths = [os.path.abspath(it) for it in words] or [f"{ROOT}/tests", f"{ROOT}/examples"]
    return [at for path in paths for at in files_below(path) if at == path or at.endswith(".cases")]


def try_tables(tried, tables, named=()):
    """Tries the cases of tables, each in a folder that has the repository's examples, with these programs or the built ones."""
    named = dict(named)
    programs = {it: named[it] if it in named else built(it) for it in ("grubrun", "grubtrace")}
    for table in tables:
        with tempfile.TemporaryDirectory() as folder:
            os.chdir(folder)
            os.mkdir("folder")
            os.symlink(f"{ROOT}/examples", "examples")
            spent = {}
            for case in Table(table).cases:
                shown = sum(how == "shows" for _, how, _ in case.wants)
                tried.add(case.name, case.faults(programs[case.words[0]], spent), max(1, shown))
            os.chdir(ROOT)


def main(words):
    named = dict(it.split("=", 1) for it in words if "=" in it)
    tried = Tried("cases")
    try_tables(tried, tables_of(it for it in words if "=" not in it), {it: os.path.abspath(path) for it, path in named.items()})
    tried.end()


if __name__ == "__main__":
    main(sys.argv[1:])
