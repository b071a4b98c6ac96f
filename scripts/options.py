#!/usr/bin/env python3
"""options.py: holds man pages and completions of bash, zsh and fish to the options, commands, views and version that --help and
--version of the built programs tell: none is forgotten, none is there no more. Versions are held to the file VERSION. The last line is
'N passed, M failed'."""
import re

from shared import IS_UNPROVED, ROOT, Tried, built, ran, text_of

OFFERED = 'source "$1"; COMP_WORDS=("${@:2}"); COMP_CWORD=$(($# - 2)); "_$2"; echo "${COMPREPLY[@]}"'
TRIED = Tried("options")


def same(what, wanted, got):
    """Two texts, or collections of words, are the same, and not empty."""
    wanted, got = (it if isinstance(it, str) else sorted(set(it) - {""}) for it in (wanted, got))
    TRIED.add(what, [] if wanted and wanted == got else [f"it has {got}", f"wanted is {wanted}"])


def said(program, *words):
    return ran(built(program), *words).stdout


def between(text, begin, end):
    """What stands behind this, and before that; nothing where it is not there."""
    return text.partition(begin)[2].partition(end)[0]


def of_help(*words):
    return [it for pair in re.findall(r"^ +(?:(-[A-Za-z]), )?(--[a-z-]+)", said(*words, "--help"), re.M) for it in pair]


def of_page(text):
    """The options that macros of a man page's source name."""
    return [("--" if dashes else "-") + name for dashes, name in re.findall(r"Fl (\\-)?([A-Za-z-]+)", text)]


def of_bash(program, *words):
    """What bash offers for the last of these words."""
    return ran("bash", "-c", OFFERED, "bash", f"{ROOT}/completions/{program}.bash", program, *words).stdout.split()


def of_zsh(text, command=""):
    """The options in a zsh completion: of the whole, or of a command, with those that commands share."""
    own = between(text, f"        {command})\n", ";;") if command else text.partition("\nlocal ")[2] or text
    return re.findall(r"['*{,](--?[A-Za-z][a-z-]*)", own + (between(text, "shared=(", "\n    )") if "$shared" in own else ""))


def of_fish(text, command=""):
    """The options of a fish completion: those of a command, or those where there is none yet."""
    found = []
    for line in re.findall(r"^complete .*", text, re.M):
        seen = re.search(r"__fish_seen_subcommand_from ([a-z$ ]+)", line)
        if not seen or (command in seen[1].split() if command else '-n "not ' in line):
            found += [f"-{it}" for it in re.findall(r" -s ([A-Za-z])", line)]
            found += [f"--{it}" for it in re.findall(r" -l ([a-z-]+)", line)]
    return found


def hold(program):
    paths = (f"docs/{program}.1", f"completions/_{program}", f"completions/{program}.fish")
    page, zsh, fish = (text_of(f"{ROOT}/{it}") for it in paths)
    synopsis = re.split(r"^\.Nm", between(page, ".Sh SYNOPSIS", "\n.Sh"), flags=re.M)
    commands = re.findall(r"^  ([a-z]+) ", between(said(program, "--help"), "\nCommands:", "\n\n"), re.M)
    everything = []
    for command in ["", *[it for it in commands if it != "help"]]:
        words = [it for it in (command,) if it]
        own, name = of_help(program, *words), f"{program} {command}".strip()
        everything += own
        same(f"bash for {name}", own, of_bash(program, *words, "-"))
        same(f"zsh for {name}", own, of_zsh(zsh, command))
        same(f"fish for {name}", own, of_fish(fish, command))
        if command:
            forms = "".join(it for it in synopsis if f"\n.Cm {command}\n" in it)
            same(f"the synopsis of {name}", own, ["-h", "--help", *of_page(forms)])
    same(f"the list of docs/{program}.1", everything, of_page("".join(re.findall(r"^\.It Fl .*", page, re.M))))
    version = re.findall(r"^\.Os Neddwyrol (.*)", page, re.M)
    same(f"the version in docs/{program}.1", said(program, "--version").split()[1:2], version)
    if commands:
        same("bash for commands", [*commands, "-h", "--help", "-V", "--version"], of_bash(program, ""))
        same("zsh for commands", commands, re.findall(r"([a-z]+)\\:\"", zsh))
        same("fish for commands", commands, re.findall(r'"not .* -a ([a-z]+) ', fish))
        same(f"docs/{program}.1 for commands", commands, ["help", *re.findall(r"^\.It Cm ([a-z]+)$", page, re.M)])
    else:
        views = re.search(r"--view.*\((.*)\)", zsh)[1].split()
        same("bash for views", views, of_bash(program, "--view", ""))
        same("fish for views", views, re.search(r" -l view .* -a '([a-z ]+)'", fish)[1].split())
        shown = [it for it in views if said(program, "--view", it, f"{ROOT}/examples/first.grub")]
        same("the help's views", views, [it for it in shown if it in said(program, "--help")])


def versions():
    """The file VERSION says which version this is; every other place that has it agrees."""
    version = text_of(f"{ROOT}/VERSION").strip()
    number = str(sum(int(it) * base for it, base in zip(version.split("."), (1000000, 1000, 1))))
    places = [("README.md", r"^Version (\S+)"), ("CHANGELOG.md", r"^## (\S+), not released yet"), ("docs/neddwyrol.3", r"^\.Os Neddwyrol (.*)")]
    places += [(f"bindings/{it}/Cargo.toml", r'^version = "(.*)"') for it in ("rust", "rust_table", "plain")]
    for path, pattern in places:
        same(f"the version in {path}", [version], re.findall(pattern, text_of(f"{ROOT}/{path}"), re.M))
    places = [("bindings/include/neddwyrol.h", r"^#define ND_VERSION (\d+)"), ("crates/neddwyrol/src/checks.rt", r"VERSION: u32 = (\d+)")]
    places += [("bindings/rust/src/codes.rs", r"VERSION: u32 = (\d+)"), ("bindings/python/neddwyrol.py", r"^VERSION = (\d+)")]
    for path, pattern in places:
        same(f"the version in {path}", [number], re.findall(pattern, text_of(f"{ROOT}/{path}"), re.M))
    same("the version of the Python module", [version], re.findall(r'^__version__ = "(.*)"', text_of(f"{ROOT}/bindings/python/neddwyrol.py"), re.M))
    for program in ("grubrun", "grubtrace"):
        same(f"{program} --version", f"{program} {version}{' unproved' * IS_UNPROVED}\n", said(program, "--version"))


if __name__ == "__main__":
    hold("grubrun")
    hold("grubtrace")
    versions()
    TRIED.end()
