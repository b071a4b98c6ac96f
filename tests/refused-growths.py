#!/usr/bin/env python3
"""refused-growths.py [--build] [CRATE]..: runs each test named `refused` once for each growth of memory it makes, with that
one refused. The test has to pass. So runs grubrun, which has to tell the refusal and print nothing. Tests and program are
those that the gate left; --build makes the tests. Where the unproved programs are meant, tests are left out. It wants a C compiler as cc.
The last line is 'N passed, M failed'."""
import os
import re
import subprocess
import sys
import tempfile
from concurrent.futures import ThreadPoolExecutor
from itertools import count

sys.path.append(f"{os.path.dirname(os.path.abspath(__file__))}/../scripts")
# pylint: disable=wrong-import-position
from crates import crates
from shared import IS_UNPROVED, ROOT, Tried, built, files_below, ran, text_of

SCRIPT = "grub 1\nqueue 1048576 0\ntask A 4 8\nat 0 join A\nat 0 block A\nat 3 wake A\n"
MADE = re.compile(r"#\[test\]\n *fn \w*refused")
# Where in the program's work a refusal of this line stops it: words and files, lines, run or view, text.
PLACES = {"47 NoMemory": 1, "37 NoMemory": 2, "38 NoMemory": 3, "39 Spawn": 3, "48 NoMemory": 3, "43 NoMemory": 4}


def refused(work, words):
    """How these words end with nothing refused, and then with each growth that they make."""
    for growth in count():
        with tempfile.TemporaryDirectory(dir=work) as folder, tempfile.TemporaryFile() as told:
            with open(f"{folder}/first", "w", encoding="ascii") as it:
                it.write(SCRIPT)
            more = {"REFUSED_GROWTH": str(growth), "REFUSED_TOLD": str(told.fileno()), "LD_PRELOAD": f"{work}/refuse.so"}
            done = ran(*words, cwd=folder, env={**os.environ, **more}, pass_fds=(told.fileno(),), timeout=60)
            if growth and not os.fstat(told.fileno()).st_size:
                return
            yield growth, done


def test_faults(work, words):
    """What is wrong with a test."""
    last = None
    for last, done in refused(work, words):
        if done.returncode:
            return [f"fails where growth {last} is refused: {(done.stdout + done.stderr)[-300:]}"]
    return [] if last else ["has no growth that could be refused"]


def program_faults(work, words):
    """What is wrong with the program: refusals come in the order of its work, each of them once at least."""
    (_, whole), *runs = refused(work, words)
    seen = []
    for growth, done in runs:
        place = PLACES.get(done.stderr.removeprefix("grubrun: ").removesuffix("\n"), 0)
        if (done.returncode, done.stdout) == (3, "") and place >= max(seen, default=1):
            seen.append(place)
        elif (done.returncode, done.stderr, done.stdout) != (0, "", whole.stdout):
            return [f"gives status {done.returncode} and '{done.stderr}' where growth {growth} is refused"]
    lacking = {1, 2, 3, 4 if len(words) == 2 else 3} - set(seen)
    return [f"is never refused at {lacking} of its work"] if lacking else []


def tests_of(name, is_wanted):
    """The tests of a crate that are made for it, after they were built where that is wanted."""
    program = f"{ROOT}/crates/{name}/out/{name}_tests"
    if is_wanted:
        ran("rt", "test", "--", "refused", cwd=f"{ROOT}/crates/{name}").check_returncode()
    return [[program, it] for it in re.findall(r"^(.*refused.*): test$", ran(program, "--list").stdout, re.M)]


def main(words):
    known = [] if IS_UNPROVED else crates().values()
    names = [it for it in words if it != "--build"]
    names = names or [it.name for it in known if any(MADE.search(text_of(at)) for at in files_below(it.parts[0]))]
    views, tried = [[], *(["--view", it] for it in ("timeline", "steps", "summary", "picture"))], Tried("refused-growths")
    jobs = [(program_faults, [built("grubrun"), *view, "first"]) for view in views]
    try:
        jobs += [(test_faults, it) for name in names for it in tests_of(name, "--build" in words)]
    except (OSError, subprocess.CalledProcessError) as error:
        sys.exit(f"refused-growths: {error}; the gate makes the tests, or --build\n0 passed, 1 failed")
    with tempfile.TemporaryDirectory() as work, ThreadPoolExecutor(len(os.sched_getaffinity(0))) as pool:
        ran("cc", "-O1", "-shared", "-fPIC", "-o", f"{work}/refuse.so", f"{ROOT}/tests/refuse.c").check_returncode()
        for (_, of), wrong in zip(jobs, pool.map(lambda it: it[0](work, it[1]), jobs)):
            tried.add(" ".join([os.path.basename(of[0]), *of[1:]]), wrong)
    tried.end()


if __name__ == "__main__":
    main(sys.argv[1:])
