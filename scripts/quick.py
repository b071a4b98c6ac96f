#!/usr/bin/env python3
"""quick.py [CRATE]..: what the gate tries, or tests and programs of these crates alone, with nothing proved: tests and examples by the
kit's `rt try`, the programs as unproved.py makes them. A number that overflows and an index out of bounds stop a run, and no contract
is tried. The last line is 'N passed, M failed'."""
import os
import re
import sys
import time
from concurrent.futures import ThreadPoolExecutor

from build import PROGRAMS
from crates import crates, lanes
from shared import ROOT, UNPROVED, each, files_below, ran, text_of
from unproved import unproved

# One try takes up to so many kB of memory. Tests with checks are slow, so they have longer than the kit's minute.
ROOM, SECONDS = 2_000_000, "600"
# What the gate tries by the proved programs, and what it tries of scripts and pages.
STEPS = ["scripts/cases.py tests", "scripts/cases.py examples/records", "tests/sizing.py", "tests/refused-growths.py", "scripts/options.py"]
SCRIPTS = ["tests/harness.py", "scripts/releases.py", "scripts/trusted.py"]


def test(crate):
    """The tests of a crate: how many passed and failed, as one, and what was said."""
    done = ran("rt", "try", "--test", "--seconds", SECONDS, cwd=crate.folder)
    return (0, 1, done.stderr[-2000:]) if done.returncode else (1, 0, "")


def play(crate):
    """The same of a program, whose output is the stored one."""
    words = text_of(f"{crate.folder}/args").splitlines() if os.path.isfile(f"{crate.folder}/args") else []
    files = {os.path.relpath(it, f"{crate.folder}/data"): it for it in files_below(f"{crate.folder}/data")}
    if crate.name not in PROGRAMS:
        done = ran("rt", "try", *each("--data", (f"{name}={path}" for name, path in files.items())), "--", *words, cwd=crate.folder)
    elif unproved([crate.name]):
        done = ran(f"{UNPROVED}/{crate.name}", *words, cwd=f"{crate.folder}/data")
    else:
        return 0, 1, "it was not made"
    return (1, 0, "") if done.stdout == text_of(f"{crate.folder}/stdout") else (0, 1, done.stderr[-2000:])


def step(words):
    """The same of a script over the unproved programs."""
    return script(words) if unproved(PROGRAMS) else (0, 1, "the programs were not made")


def script(words):
    """The same of a script, which ends with its counts."""
    done = ran(sys.executable, *words.split(), cwd=ROOT, env={**os.environ, "NEDDWYROL_UNPROVED": "1"})
    counted = re.search(r"^(\d+) passed, (\d+) failed\n\Z", done.stdout, re.M)
    passed, failed = map(int, counted.groups()) if counted else (0, 1)
    return passed, max(failed, done.returncode != 0), (done.stdout + done.stderr)[-4000:]


def judge(job):
    (work, name, of), began = job, time.time()
    passed, failed, said = work(of)
    told = f"{failed} FAILED: {said}" if failed else f"{passed} passed"
    print(f"quick: {name}: {time.time() - began:.0f} s, {told}", flush=True)
    return passed, failed


def main(words):
    known = crates()
    chosen = [known[it] for it in words] if words else list(known.values())
    # (first those that take longest, since a try compiles all that its crate stands on; steps wait for both programs)
    chosen.sort(key=lambda it: (it.name not in PROGRAMS, -sum(known[low].weight for low in [*it.below, it.name])))
    jobs = [(play, f"program {it.name}", it) for it in chosen if os.path.isfile(f"{it.folder}/stdout")]
    jobs += [(test, f"tests of {it.name}", it) for it in chosen if any("#[test]" in text_of(at) for at in files_below(it.parts[0]))]
    if not words:
        jobs += [*((step, it, it) for it in STEPS), *((script, it, it) for it in SCRIPTS)]
    with ThreadPoolExecutor(lanes(ROOM)) as pool:
        passed, failed = map(sum, zip(*pool.map(judge, jobs)))
    print(f"{passed} passed, {failed} failed")
    return failed > 0


if __name__ == "__main__":
    sys.exit(main(sys.argv[1:]))
