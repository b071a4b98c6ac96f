#!/usr/bin/env python3
"""compare.py [REPEATS]: times the built grubrun beside the plain Rust of this folder, which promises nothing: four files of 16 MiB with tasks of
their own, the best of REPEATS (5), in turn. It prints both times and their ratio, since a time alone says little on a shared machine."""
import os
import subprocess
import sys
import tempfile
import time

HERE = os.path.dirname(os.path.abspath(__file__))
BUILT = f"{HERE}/target/release"


def seconds(words):
    begin = time.monotonic()
    subprocess.run(words, stdout=subprocess.DEVNULL, check=True)
    return time.monotonic() - begin


def main(repeats):
    subprocess.run(["cargo", "build", "--release", "--offline", "--quiet", "--target-dir", f"{HERE}/target"], cwd=HERE, check=True)
    with tempfile.TemporaryDirectory() as folder:
        subprocess.run([f"{BUILT}/load", "own", folder, "4", "16384"], check=True)
        files = [f"{folder}/{it}.grub" for it in range(4)]
        ways = {"grubrun": [f"{HERE}/../crates/grubrun/out/grubrun"], "plain, one thread": [f"{BUILT}/plain", "run"],
                "plain, words exchanged by threads": [f"{BUILT}/plain", "lockfree"]}
        best = {name: float("inf") for name in ways}
        for _ in range(repeats):
            for name, words in ways.items():
                best[name] = min(best[name], seconds([*words, *files]))
    for name, taken in best.items():
        print(f"{name:34} {taken:7.3f} s   grubrun takes {best['grubrun'] / taken:.2f} of it")


if __name__ == "__main__":
    main(int(sys.argv[1]) if len(sys.argv) > 1 else 5)
