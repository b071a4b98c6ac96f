#!/usr/bin/env python3
"""selftest.py: tries the scripts that judge on faults that are planted into a repository of two small crates. build.py has to refuse
a wrong body, a weak clause that a crate above rests on, a changed definition and a lacking file, all over what an earlier run
kept, which may be damaged; edits.py to tell an edit that is still proved, and trusted.py a definition in the wrong folder and a
contract of an exported call. Each also has to pass where nothing is planted. The last line is 'N passed, M failed'."""
import os
import shutil
import tempfile

from shared import ROOT, Tried, files_below, ran

ROOTS = """//! Numbers, doubled.
#![tactic(auto)]

mod number;

pub use number::{NAME};
"""
LIBRARY = """//! A number, doubled.

ghost use Rattle.std.specs.Prelude.{◌≡◌};
ghost use Rattle.grub_doubling.specs.Twice.{twice_of};

/// Twice this number.
pub fn twice(number: u32) -> u64
    ensures { result ≡ twice_of number }
{
    u64::from(number) + u64::from(number)
}
"""
DEFINITION = """-- Twice a number.
use Rattle.std.specs.Prelude.{ℕ, ◌+◌}

abbrev pub twice_of : ℕ → ℕ
twice_of x = x + x
"""
EXPORTS = """//! A number, doubled for C.

ghost use Rattle.std.specs.Prelude.{◌≡◌};
ghost use Rattle.exported.specs.Four.{four_of};

use grub_doubling::twice;

/// Four times this number.
#[unsafe(no_mangle)]
pub extern "C" fn four_times(number: u16) -> u64
    ensures { result ≡ four_of number }
{
    twice(u32::from(number) + u32::from(number))
}
"""
FOUR = """-- Four times a number.
use Rattle.std.specs.Prelude.{ℕ, ◌+◌}
use Rattle.grub_doubling.specs.Twice.{twice_of}

abbrev pub four_of : ℕ → ℕ
four_of x = twice_of (x + x)
"""
FILES = {
    "crates.txt": "grub_doubling:\nexported staticlib: grub_doubling\n",
    "crates/grub_doubling/src/lib.rt": ROOTS.replace("{NAME}", "twice"),
    "crates/grub_doubling/src/number.rt": LIBRARY,
    "crates/grub_doubling/specs/Lib.antt": "pub mod Twice\n",
    "crates/grub_doubling/specs/Twice.antt": DEFINITION,
    "crates/grub_doubling/edits/one_more.edit":
        "file: src/number.rt\nold:     u64::from(number) + u64::from(number)\nnew:     u64::from(number) + 1\n",
    "crates/exported/src/lib.rt": ROOTS.replace("{NAME}", "four_times"),
    "crates/exported/src/number.rt": EXPORTS,
    "crates/exported/specs/Lib.antt": "pub mod Four\n",
    "crates/exported/specs/Four.antt": FOUR,
    "docs/READING.md": "`grub_doubling/specs/Twice`, `exported/specs/Four`\n",
}
BODY = ("build.py", "crates/grub_doubling/src/number.rt", "+ u64::from(number)", "+ 1")
# What is planted: the script that has to tell it, the file, what stands there, and what takes its place (nothing: the file goes).
PLANTED = [
    BODY,
    ("build.py", "crates/exported/src/number.rt", "number) + u32", "number) + 1 + u32"),
    ("build.py", "crates/grub_doubling/src/number.rt", "    ensures { result ≡ twice_of number }\n", ""),
    ("build.py", "crates/grub_doubling/specs/Twice.antt", "= x + x", "= x + x + x"),
    ("build.py", "crates/exported/specs/Four.antt", "(x + x)", "(x + x + x)"),
    ("build.py", "crates/exported/specs/Four.antt", FOUR, None),
    ("edits.py", "crates/grub_doubling/edits/one_more.edit", "u64::from(number) + 1\n", "(u64::from(number) + u64::from(number))\n"),
    ("trusted.py", "docs/READING.md", ", `exported/specs/Four`", ""),
    ("trusted.py", "crates/grub_doubling/specs/Twice.antt", "abbrev pub twice_of",
     "abbrev pub unused_of : ℕ → ℕ\nunused_of x = x\n\nabbrev pub twice_of"),
]
TRIED = Tried("selftest")


def judged(folder, script):
    """Whether a script passes this repository, and what it said."""
    words = ["exported"] if script == "build.py" else []
    done = ran("python3", f"{folder}/scripts/{script}", *words, cwd=folder, env={**os.environ, "XDG_CACHE_HOME": f"{folder}/cache"})
    return done.returncode == 0, done.stdout + done.stderr


def put(path, text):
    os.makedirs(os.path.dirname(path), exist_ok=True)
    with open(path, "w", encoding="utf-8") as it:
        it.write(text)


def plant(folder, script, path, old, new):
    """Tries a script where this is planted, and then takes it away."""
    if new is None:
        os.remove(f"{folder}/{path}")
    else:
        put(f"{folder}/{path}", FILES[path].replace(old, new, 1))
    passes, said = judged(folder, script)
    TRIED.add(f"{script} where {path} has {new!r}", [] if not passes else [said[-600:]])
    put(f"{folder}/{path}", FILES[path])


def damage(folder):
    """Cuts all that is kept of modules in half."""
    for path in files_below(f"{folder}/cache/neddwyrol/modules"):
        os.truncate(path, os.path.getsize(path) // 2)
    shutil.rmtree(f"{folder}/out", ignore_errors=True)


def main():
    with tempfile.TemporaryDirectory() as folder:
        shutil.copytree(f"{ROOT}/scripts", f"{folder}/scripts")
        for path, text in FILES.items():
            put(f"{folder}/{path}", text)
        for script in ("build.py", "edits.py", "trusted.py"):
            passes, said = judged(folder, script)
            TRIED.add(f"{script} with nothing planted", [] if passes else [said[-600:]])
        for it in PLANTED:
            plant(folder, *it)
        damage(folder)
        plant(folder, *BODY)
        passes, said = judged(folder, "build.py")
        TRIED.add("build.py over damaged modules", [] if passes else [said[-600:]])
    TRIED.end()


if __name__ == "__main__":
    main()
