#!/usr/bin/env python3
"""page.py PAGE LIBRARIES: does what a page tells its reader, in an empty folder. page.py --shows FILE PAGE..: whether each page has the
file word for word, as a block of code.

The library is installed below ~/.local of a home of its own, as the page's `make` does it. Then each block ```c, ```rust
and ```python is written as program.c, program.rs or program.py, each block ```sh is run, and what it prints has to be the block
```text that follows. No variable of the caller's tells where the library is. The last line is 'N passed, M failed'.
"""
import os
import re
import shutil
import subprocess
import sys
import tempfile

ROOT = os.path.dirname(os.path.dirname(os.path.abspath(__file__)))
NAMES = {"c": "program.c", "rust": "program.rs", "python": "program.py"}
OWN = re.compile(r"LD_|NEDDWYROL_|PKG_CONFIG|PYTHONPATH|CARGO_TARGET|LIBRARY_PATH|CPATH|C_INCLUDE_PATH")


def surroundings(home):
    """The caller's, with another home, and nothing that leads to a library."""
    env = {name: value for name, value in os.environ.items() if not OWN.match(name)}
    tools = {"RUSTUP_HOME": ".rustup", "CARGO_HOME": ".cargo", "PYENV_ROOT": ".pyenv"}
    env |= {name: os.path.expanduser(f"~/{folder}") for name, folder in tools.items() if name not in env}
    return env | {"HOME": home, "CARGO_NET_OFFLINE": "true", "PYTHONDONTWRITEBYTECODE": "1"}


def shows(file, *pages):
    """Ends with 0 where each page has the file's lines as a block that is fenced, or indented by four."""
    with open(file, encoding="utf-8") as it:
        lines = it.read().splitlines()
    fenced, indented = ["```c", *lines, "```"], ["", *("    " * bool(it) + it for it in lines), ""]
    lacking = []
    for page in pages:
        with open(page, encoding="utf-8") as it:
            text = it.read()
        if not any("\n".join(["", *block, ""]) in text for block in (fenced, indented)):
            lacking.append(page)
    print("".join(f"page: {it} does not show {file}\n" for it in lacking), end="")
    return 1 if lacking else 0


def main(page, libraries):
    with tempfile.TemporaryDirectory() as home:
        folder, env, passed, failed, said = f"{home}/program", surroundings(home), 0, 0, None
        os.mkdir(folder)
        subprocess.run(["bash", f"{ROOT}/bindings/install.sh", libraries, f"{home}/.local"], check=True)
        with open(page, encoding="utf-8") as text:
            blocks = re.findall(r"^```(\w+)\n(.*?)^```$", text.read(), re.S | re.M)
        for kind, block in blocks:
            if kind in NAMES:
                with open(f"{folder}/{NAMES[kind]}", "w", encoding="utf-8") as it:
                    it.write(block)
            elif kind == "sh":
                lines = "".join(it for it in block.splitlines(True) if not it.startswith("make "))
                tool = next((it for it in ("cargo", "pkg-config") if it in lines and not shutil.which(it)), None)
                if tool:
                    print(f"page: there is no {tool}: its commands are not tried")
                    said = None
                    continue
                ran = subprocess.run(["bash", "-e", "-c", lines], cwd=folder, env=env, stdout=subprocess.PIPE, stderr=subprocess.STDOUT, text=True, check=False)
                said, passed, failed = ran.stdout, passed + (ran.returncode == 0), failed + (ran.returncode != 0)
                if ran.returncode:
                    print(f"page: {page}: status {ran.returncode} of\n{lines}{ran.stdout}")
            elif kind == "text" and said is not None:
                passed, failed = passed + (said == block), failed + (said != block)
                if said != block:
                    print(f"page: {page} shows\n{block}and the command prints\n{said}")
        print(f"{passed} passed, {failed} failed")
        return 1 if failed or not passed else 0


if __name__ == "__main__":
    sys.exit(shows(*sys.argv[2:]) if sys.argv[1] == "--shows" else main(*sys.argv[1:]))
