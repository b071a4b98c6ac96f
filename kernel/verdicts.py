#!/usr/bin/env python3
"""verdicts.py [--ktap] --out DIR --head LINE LOAD..: checks DIR/LOAD.txt with the program GRUBTRACE, leaves DIR/LOAD.verdict, and prints a
line a load, or a KTAP test. Against a load stand the check's verdict and what DIR/LOAD.said has: a task that was stuck, a warning of the
kernel (WARNED), and this_bw that is another after all tasks have ended (SUMS). Below it stands the command that makes the record again.
Bandwidth left behind in total_bw (LEFT) and faults of stock kernels that are known are told, and stand against none.
It ends with 125 where a load has no record, 4 where one differs or something else stands against it, 5 where a law is broken, 1 where a
record has a fault, else with 0."""
import json
import os
import re
import shlex
import subprocess
import sys
import tempfile

WEIGHT = [0, 1, 5, 4, 125]
# The checker's word for a fault of a task that never runs again, which stock kernels have.
HANGS = "Throttled for ever"
READ = 'the limit is read (KERNEL, "Reading sched_rt_runtime_us")'


def text_of(path):
    try:
        with open(path, encoding="utf-8", errors="replace") as it:
            return it.read()
    except FileNotFoundError:
        return ""


def is_read(report):
    """Whether all that differs is what a stock kernel does where sched_rt_runtime_us is read: it rebuilds the root domains' sums."""
    rules = report.get("rules") or {}
    kinds = {it["kind"] for it in rules.get("kinds") or () if it["differ"]}
    lines = (rules.get("evidence") or {}).get("lines", ())
    return bool(kinds) and kinds <= {"extra_bw", "total_bw"} and any(" reb: " in it or " lim: " in it and "write=0" in it for it in lines)


def sums(text):
    return dict(re.findall(r"cpu (\d+) this=(\d+)", text))


class Outcome:
    """What is to be said of a load."""

    def __init__(self, folder, load, program):
        self.load, self.record, self.why, self.status = load, f"{folder}/{load}.txt", [], 125
        self.said = [it.rstrip() for it in text_of(f"{folder}/{load}.said").splitlines()]
        head = text_of(self.record)[:100_000].splitlines()[:20]
        self.made = [it[7:].strip() for it in head if it.startswith(("# grub: made by ", "# grub: load "))]
        if not os.path.exists(self.record):
            return
        with tempfile.TemporaryDirectory() as work:
            words = ["check", self.record, "--report", f"{work}/report"]
            done = subprocess.run([*program, *words], stdin=subprocess.DEVNULL, capture_output=True, check=False)
            report = json.loads(text_of(f"{work}/report") or "{}")
        verdict = (done.stdout + done.stderr).decode("utf-8", "replace")
        with open(f"{folder}/{load}.verdict", "w", encoding="utf-8") as it:
            it.write(verdict)
        self.lines, self.status = verdict.splitlines(), done.returncode
        if self.status == 4 and is_read(report):
            self.lines.insert(next(i for i, it in enumerate(self.lines) if it.startswith("differs")) + 2, f"    known: {READ}")
            self.status = 0 if report["keeps_laws"] else 5
        self.known = re.findall(r"(?:; | {4})known: (.*)", "\n".join(self.lines))
        self.against()

    def against(self):
        """What stands against it."""
        said = {word: [it for it in self.said if it.startswith(word)] for word in ("STUCK", "WARNED", "SUMS")}
        if self.status == 4:
            self.why.append("differs")
        elif self.status == 5:
            self.why.append("a law is broken")
        elif self.status and not self.has_nothing():
            self.why.append("the record has a fault")
        beside = []
        if said["STUCK"] and not any(HANGS in it for it in self.known):
            beside.append("a task was stuck")
        if any(re.match(r"WARNED (?!sched: )", it) for it in said["WARNED"]):
            beside.append("the kernel warned")
        # (a load may give the servers other parameters, which stay)
        if any(self.has_changed(it) for it in said["SUMS"]) and not any("fair_server" in it for it in self.made):
            beside.append("this_bw is wrong at the end")
        if beside and (self.status in (0, 5) or self.has_nothing()):
            self.status = 4
        self.why += beside

    @staticmethod
    def has_changed(line):
        after, _, boot = line.partition("at boot:")
        after, boot = sums(after), sums(boot)
        return any(boot[cpu] != this for cpu, this in after.items() if cpu in boot)

    def verdict(self):
        found = [it for it in self.lines if re.match(r"agrees|differs|grubtrace: ", it)]
        return (found or self.lines[-1:] or ["nothing was said"])[0]

    def compared(self):
        return next((it for it in self.lines if "compared" in it), "")

    def deviation(self):
        """The first lines of the deviation, and the laws that are broken."""
        laws = next((i for i, it in enumerate(self.lines) if it.startswith("laws:")), len(self.lines))
        differs = next((i for i, it in enumerate(self.lines) if it.startswith("differs")), laws)
        return self.lines[differs + 1:min(differs + 5, laws)] + [it for it in self.lines[laws:] if " broken, " in it or it.startswith("    ")]

    def has_nothing(self):
        return any("NothingCompared" in it for it in self.lines)

    def row(self):
        if self.status == 125:
            return [f"{self.load:<8} not recorded{''.join('; ' + it for it in self.said[:1])}"]
        below = self.deviation() + self.said + (self.made[:1] if self.why else [])
        return [f"{self.load:<8} {self.verdict()}; {self.compared()}"] + [f"       {it}" for it in below]

    def test(self, number):
        """The lines of a KTAP test: what is said of it comes before its line."""
        if self.status == 125:
            return [f"ok {number} {self.load} # SKIP it could not be recorded{''.join('; ' + it for it in self.said[:1])}"], "skip"
        notes = self.said[:]
        if self.why or self.known or self.has_nothing():
            first = next((i for i, it in enumerate(self.lines) if it.startswith("differs")), None)
            notes += [self.lines[first]] if first is not None else []
            notes += self.deviation() + [it for it in self.lines if it.startswith("grubtrace: ")] + [self.compared()]
            notes += [*self.made, f"record: {self.record}"]
        notes = [f"# {it}" for it in notes if it]
        if self.has_nothing() and not self.why:
            return notes + [f"ok {number} {self.load} # SKIP nothing was compared"], "skip"
        if self.why:
            return notes + [f"not ok {number} {self.load} # {', '.join(self.why)}"], "fail"
        if self.known:
            return notes + [f"ok {number} {self.load} # XFAIL known: {self.known[0]}"], "xfail"
        return notes + [f"ok {number} {self.load}"], "pass"


def main(words):
    is_ktap, given = False, {"--out": None, "--head": None}
    while words and words[0].startswith("--"):
        if words[0] == "--ktap":
            is_ktap, words = True, words[1:]
        elif words[0] in given and len(words) > 1:
            given[words[0]], words = words[1], words[2:]
        else:
            break
    if not words or words[0].startswith("--") or None in given.values():
        sys.exit(print(__doc__, file=sys.stderr) or 2)
    program = shlex.split(os.environ.get("GRUBTRACE", "grubtrace"))
    counts, status = dict.fromkeys(("pass", "fail", "xfail", "xpass", "skip", "error"), 0), 0
    if is_ktap:
        print(f"KTAP version 1\n1..{len(words)}\n# {given['--head']}")
    else:
        print(given["--head"])
    for number, load in enumerate(words, 1):
        it = Outcome(given["--out"], load, program)
        lines = it.row()
        if is_ktap:
            lines, kind = it.test(number)
            counts[kind] += 1
        print("\n".join(lines), flush=True)
        status = max(status, it.status if it.status in WEIGHT else 1, key=WEIGHT.index)
    if is_ktap:
        print("# Totals: " + " ".join(f"{kind}:{count}" for kind, count in counts.items()))
    return status


if __name__ == "__main__":
    sys.exit(main(sys.argv[1:]))
