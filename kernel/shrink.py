#!/usr/bin/env python3
"""shrink.py [--arch ARCH] [--cpus N] [--virtual] [--like TEXT] [--minutes N] [--out DIR] KERNEL FILE [LOAD]: makes a load shorter that
something stands against. FILE is a record that has its load at its head, or a table of loads as loads.tsv. Tasks, words and busy loops
are left out and numbers rounded, as long as check-kernel.sh says the same against it: the first value that differs and its functions, a
task that was stuck, or a place where the kernel warned.
  --like TEXT    a regular expression of what has to be said, in place of that
  --minutes N    it stops after so many minutes (30)
  --out DIR      where the records are left (nowhere)
The loads of a round are recorded in one boot. It prints the shortest line of loads.tsv after each round; the last one is the answer.
It ends with 0; with 1 where nothing stands against the load, 2 for wrong words, 3 where it could not be recorded. CHECK_KERNEL is the
program that records and checks (scripts/check-kernel.sh)."""
import os
import re
import subprocess
import sys
import tempfile
import time

HERE = os.path.dirname(os.path.realpath(__file__))
CHECK = os.environ.get("CHECK_KERNEL", f"{HERE}/../scripts/check-kernel.sh")
# So many loads a boot.
MOST = 24


def fail(what, status=2):
    sys.exit(print(f"shrink: {what}", file=sys.stderr) or status)


class Load:
    """A line of loads.tsv: its words by task. A word without a comma, as seed=7, is none of a task."""

    def __init__(self, cpus, loops, seconds, words):
        self.cpus, self.loops, self.seconds, self.words = cpus, loops, seconds, words

    def line(self, name):
        return "\t".join([name, self.cpus, str(self.loops), f"{self.seconds:g}", " ".join(",".join(it) for it in self.words)])

    def but(self, **other):
        return Load(**{**vars(self), **other})

    def tasks(self):
        """The places of the tasks."""
        return [(i, None) for i, words in enumerate(self.words) if "=" not in words[0]]

    def parts(self):
        """The places of all words of tasks that can be left out."""
        return [(i, j) for i, _ in self.tasks() for j, word in enumerate(self.words[i]) if j and not re.match("[qp]=", word)]

    def without(self, gone):
        words = [[it for j, it in enumerate(words) if (i, j) not in gone] for i, words in enumerate(self.words) if (i, None) not in gone]
        return self.but(words=[it for it in words if it != ["sys"]])

    def rounded(self, digits):
        """The same with so many decimals."""
        def one(found):
            return f"{round(float(found[0]), digits):.3f}".rstrip("0").rstrip(".")
        return self.but(words=[[re.sub(r"\d+\.\d+", one, it) if re.match("(q|p|d|st|en|xc|ch|xa|af|kill|wr|rd)=", it) else it for it in words]
                               for words in self.words])

    def size(self):
        return sum(map(len, self.words)), self.loops, len(str(self.words)), self.seconds


def load_of(path, wanted):
    """The name and the load of a file."""
    try:
        with open(path, encoding="utf-8", errors="replace") as it:
            lines = it.readlines()
    except OSError as error:
        fail(f"{path}: {error.strerror}")
    told = [it.removeprefix("# grub: load ") for it in lines if it.startswith("# grub: load ")] or [it for it in lines if "\t" in it and it[0] != "#"]
    rows = [it.split() for it in told]
    rows = [it for it in rows if not wanted or it[0] == wanted]
    if not rows or len(rows[0]) < 5:
        fail(f"{path} has no load {wanted}" if wanted else f"{path} has no load")
    name, cpus, loops, seconds, *words = rows[0]
    try:
        return name, Load(cpus, int(loops), float(seconds), [it.split(",") for it in words])
    except ValueError:
        fail(f"{path}: {' '.join(rows[0][:4])} is no load")


class Kernel:
    """Records loads, and knows what stands against them."""

    def __init__(self, options, kernel, out):
        self.options, self.kernel, self.out, self.like, self.boots, self.status = options, kernel, out, None, 0, 0

    def said(self, loads):
        """What is said against each load."""
        self.boots += 1
        names = [f"c{self.boots}_{i}" for i in range(len(loads))]
        with open(f"{self.out}/loads.tsv", "w", encoding="utf-8") as it:
            it.writelines(load.line(name) + "\n" for name, load in zip(names, loads))
        done = subprocess.run([CHECK, *self.options, "--out", self.out, "--loads", f"{self.out}/loads.tsv", self.kernel],
                              stdin=subprocess.DEVNULL, stdout=subprocess.DEVNULL, stderr=subprocess.PIPE, text=True, errors="replace", check=False)
        self.status = done.returncode
        if done.returncode in (2, 3):
            fail(f"check-kernel.sh: {done.stderr.strip()[-300:]}", done.returncode)
        return [against(f"{self.out}/{name}") for name in names]

    def still(self, loads):
        """Of each load whether the same stands against it."""
        return [bool(re.search(self.like, it)) for at in range(0, len(loads), MOST) for it in self.said(loads[at:at + MOST])]


def against(stem):
    """What the verdict and what stands beside it say: from the line of the deviation or the broken laws on."""
    text = ""
    for file, begin in ((f"{stem}.verdict", r"^(differs|laws:)"), (f"{stem}.said", "")):
        try:
            with open(file, encoding="utf-8", errors="replace") as it:
                told = it.read()
        except FileNotFoundError:
            continue
        found = re.search(begin, told, re.M)
        text += told[found.start():] if found else ""
    return text


def kind_of(said):
    """A pattern of what is said: a task that was stuck, the first value that differs and its functions, or where the kernel warned."""
    if "STUCK" in said:
        return "STUCK"
    found = re.search(r"^differs.*\n\s+(\S+) of ", said, re.M)
    if found:
        functions = re.search(r"functions [^\n]*to look at: ([^\n]*)", said)
        return rf"(?m)^differs.*\n\s+{re.escape(found[1])} of " + (rf"[\s\S]*{re.escape(functions[1])}" if functions else "")
    found = re.search(r"^WARNED [^\n]*? at (\S+)", said, re.M) or re.search(r"^(SUMS)", said, re.M)
    if found:
        return re.escape(found[1])
    found = re.search(r"^  (\S+): \d+ broken, (?![\s\S]*?known: )", said, re.M)
    return rf"(?m)^  {found[1]}: \d+ broken, " if found else None


def drop(kernel, load, places, until):
    """The load without as many of these places as can be left out together."""
    alone = [it for it, still in zip(places, kernel.still([load.without([it]) for it in places])) if still] if places else []
    while alone and time.monotonic() < until:
        half = len(alone) // 2
        tries = [alone] + [alone[:half], alone[half:]] * (half > 0) + [alone[:i] + alone[i + 1:] for i in range(len(alone))] * (half > 1)
        tries = [it for it in tries if len(set(load.tasks()) - set(it)) > 0]
        good = [it for it, still in zip(tries, kernel.still([load.without(it) for it in tries])) if still] if tries else []
        return load.without(max(good, key=len, default=alone[:1]))
    return load


def shrink(kernel, load, until, show):
    """The shortest load that is found until then."""
    before = None
    while before != load.size() and time.monotonic() < until:
        before = load.size()
        if len(load.tasks()) > 1:
            load = drop(kernel, load, load.tasks(), until)
            show(load)
        load = drop(kernel, load, load.parts(), until)
        show(load)
        tries = [load.but(loops=0), load.rounded(0), load.rounded(1), *(load.but(seconds=max(0.5, round(load.seconds * it, 1))) for it in (0.5, 0.75))]
        tries = [it for it in tries if it.line("") != load.line("") and it.size() <= load.size()]
        good = [it for it, still in zip(tries, kernel.still(tries)) if still] if tries and time.monotonic() < until else []
        load = min([load, *good], key=Load.size)
        show(load)
    return load


def main(words):
    options, like, minutes, out = [], None, 30.0, None
    words = list(words)
    while words and words[0].startswith("--"):
        word = words.pop(0)
        if word == "--virtual":
            options.append(word)
        elif word in ("--arch", "--cpus", "--like", "--minutes", "--out") and words:
            value = words.pop(0)
            if word in ("--arch", "--cpus"):
                options += [word, value]
            elif word == "--like":
                like = value
            elif word == "--out":
                out = value
            elif re.fullmatch(r"\d+(\.\d+)?", value, re.A):
                minutes = float(value)
            else:
                fail(f"--minutes is no number: {value}")
        else:
            sys.exit(print(__doc__, file=sys.stderr) or 2)
    if len(words) not in (2, 3):
        sys.exit(print(__doc__, file=sys.stderr) or 2)
    try:
        re.compile(like or "")
    except re.error as error:
        fail(f"--like is no regular expression: {error}")
    name, load = load_of(words[1], words[2] if len(words) == 3 else None)
    with tempfile.TemporaryDirectory() as temporary:
        out = out or temporary
        os.makedirs(out, exist_ok=True)
        kernel = Kernel(options, words[0], out)
        said = kernel.said([load])[0]
        if kernel.status == 125:
            fail("the load could not be recorded", 3)
        kernel.like = like or kind_of(said)
        if not kernel.like or not re.search(kernel.like, said):
            fail("nothing stands against this load" if not like else f"nothing like {like} stands against this load", 1)
        print(f"shrink: what has to be said: {kernel.like}", file=sys.stderr)
        answer = shrink(kernel, load, time.monotonic() + 60 * minutes, lambda it: print(it.line(name), flush=True))
        print(answer.line(name))
        print(f"shrink: {kernel.boots} boots", file=sys.stderr)


if __name__ == "__main__":
    main(sys.argv[1:])
