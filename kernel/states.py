#!/usr/bin/env python3
"""states.py [--list] [SET=]RECORD..: how many situations records have, with no special kernel. A situation is an event of the probes with the
state that its line shows: on a queue, blocked, moving; throttled; yielded; in the 0-lag wait; boosted; out of the class; the flags of
the enqueue; with or without SCHED_FLAG_RECLAIM; constrained; budget left; deadline ahead or past; and which timers are armed (one that
was cancelled counts as armed). Faults stand where two of these come together.
Records may be packed (.xz), and SET=RECORD,RECORD.. names a set of them. It prints the count of each set, of all together, and which
situations a set has and the first one has not, the most frequent first. --list prints all of them."""
import lzma
import re
import sys
from collections import Counter

LINE = re.compile(r" (enq|upd|deq|mig|sfr|adm|ina|dlt|hst): \(\S+\) (.*)$")
TIMERS = ("inactive_task_timer", "dl_task_timer")
IN_CLASS = 6
SLEEPS = 1
# What of the flags of an enqueue or a dequeue says something.
FLAGS = 0x6B
MOST_SHOWN = 25


class Record:
    """What is known at a line."""

    def __init__(self):
        self.armed, self.blocked, self.boosted, self.owner, self.last = set(), set(), set(), {}, None
        self.found = Counter()

    def line(self, event, words):
        fields = dict(it.split("=", 1) for it in words.split() if "=" in it)
        if event == "hst":
            # The timer is armed within the call of the last task that a line has.
            name = fields.get("fn", "")
            if self.last is not None and name in TIMERS:
                self.owner[fields.get("timer")] = (self.last, name)
                self.armed.add((self.last, name))
        elif event in ("ina", "dlt"):
            self.fires(event, fields)
        elif "pid" in fields:
            self.task(event, {key: int(it, 0) for key, it in fields.items() if re.fullmatch(r"-?\d+|0x[0-9a-f]+", it)})

    def fires(self, event, fields):
        pid, name = self.owner.get(fields.get("timer"), (None, None))
        self.armed.discard((pid, name))
        told = [event, "known" if pid else "other", "blocked" if pid in self.blocked else "ready", "boosted" if pid in self.boosted else ""]
        self.found[", ".join(filter(None, told))] += 1
        self.last = pid

    def task(self, event, n):
        pid = n["pid"]
        if "se" in n and "ps" in n:
            (self.boosted.add if n["se"] != n["ps"] else self.boosted.discard)(pid)
        told = [
            event,
            ("blocked", "queued", "moving")[min(n["oq"], 2)] if "oq" in n else "",
            *(word for key, word in (("thr", "throttled"), ("yld", "yielded"), ("non", "0-lag wait")) if n.get(key)),
            "boosted" if pid in self.boosted else "",
            "server" if n.get("srv") else "",
            "out of the class" if n.get("np", -1) >= 0 else "",
            f"flags {n['fl'] & FLAGS:#x}" if "fl" in n else "",
            " to ".join("in" if n[key] == IN_CLASS else "out" for key in ("was", "po")) if "was" in n and "po" in n else "",
            ("budget" if n["q"] > 0 else "no budget") if "q" in n else "",
            ("ahead" if n["d"] >= n["clk"] else "past") if "d" in n and "clk" in n else "",
            ("reclaims" if n["sf"] & 2 else "in full") if "sf" in n and event == "enq" else "",
            "constrained" if event == "enq" and n.get("dl") != n.get("pe") else "",
            *(name for name in TIMERS if (pid, name) in self.armed),
        ]
        if event == "deq":
            (self.blocked.add if n.get("fl", 0) & SLEEPS else self.blocked.discard)(pid)
        elif event == "enq":
            self.blocked.discard(pid)
        self.found[", ".join(filter(None, told))] += 1
        self.last = pid


def situations(path):
    """The situations of a record."""
    record = Record()
    with (lzma.open if path.endswith(".xz") else open)(path, "rt", encoding="utf-8", errors="replace") as it:
        for line in it:
            found = LINE.search(line)
            if found:
                record.line(found[1], found[2])
    return record.found.keys()


def fail(what):
    sys.exit(print(f"states: {what}", file=sys.stderr) or 2)


def main(words):
    is_list = words[:1] == ["--list"]
    words = words[is_list:]
    if not words or words[0].startswith("--"):
        sys.exit(print(__doc__, file=sys.stderr) or 2)
    sets = {}
    for word in words:
        name, _, files = word.partition("=") if "=" in word else ("records", "", word)
        for path in files.split(","):
            try:
                sets.setdefault(name, Counter()).update(situations(path))
            except (OSError, lzma.LZMAError) as error:
                fail(f"{path}: {error}")
    first, *others = sets
    everything = set().union(*sets.values())
    print(f"{first}: {len(sets[first])} situations")
    for name in others:
        print(f"{name}: {len(sets[name])} situations, {len(sets[name].keys() - sets[first].keys())} of them not in {first}")
    if others:
        print(f"all: {len(everything)} situations")
    for name in others:
        new = Counter({it: count for it, count in sets[name].items() if it not in sets[first]})
        print(f"\nIn {name} and not in {first}, with the number of records:")
        for it, count in sorted(new.items(), key=lambda it: (-it[1], it[0]))[:MOST_SHOWN]:
            print(f"  {count}  {it}")
    if is_list:
        print()
        for it in sorted(everything):
            print(f"  {it}")


if __name__ == "__main__":
    main(sys.argv[1:])
