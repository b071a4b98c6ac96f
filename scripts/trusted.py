#!/usr/bin/env python3
"""trusted.py: counts the definitions that public contracts reach, which a reader must trust, crate by crate; with --of CRATE..
for these alone. It fails where, in a crate that UNSORTED does not name, one stands in specs/inside/, another one outside of it, or
a line of a public contract has more than 100 columns, and where docs/READING.md lacks a file of theirs. It ends with the counts."""
import os
import re
import sys

from crates import crates
from shared import ROOT, files_below, text_of

CRATES = crates()
# The crates whose definitions are not sorted yet: what stands on most of them is proved again with each change.
UNSORTED = ("check_record", "check_settings", "grubrun", "grubtrace", "kernel_rules", "law_findings", "neddwyrol_table", "probe_lines", "probe_run", "probe_tasks",
            "probe_values", "size_admission", "size_jobs", "size_report", "trace_check", "trace_fields", "trace_file")
WIDEST = 100
WORD = re.compile(r"[^\W\d][\w'?]*")
# In a specification: where a definition begins, its kind and name, the names of its parts, comments, and imports.
BEGIN = re.compile(r"^(?=(?:abbrev|unfoldable|opaque|instance|pub(?! mod)|record|data|module) )", re.M)
HEAD = re.compile(r"(?:(?:abbrev|unfoldable|opaque|instance|pub)\s+)*(?:(record|data|module)\s+)?([^\s:{(]+)")
INNER = {"data": r"^[ \t]+(?:pub\s+)?([\w']+)\s*:", "module": r"^  (?:abbrev |unfoldable )?pub (?:record |data )?([\w']+)"}
NOTE = re.compile(r"^ *--.*| -- .*", re.M)
IMPORT = re.compile(r"\buse\s+Rattle\.(\w+)\.specs\.([\w.]+?)(?:\.\{([^}]*)\}|\s+as\s+(\w+))?\s*;?\s*$", re.M)
# In a source: an item or a method, how it is seen and its head, or what stands before a contract's braces; and a private field.
PLACE = re.compile(r"^( *)(pub\S* )?(?:const )?(?:unsafe )?(?:extern \"C\" )?(impl|trait|struct|enum|fn)\b([^{;\n]*)|"
                   r"\b(requires|ensures)\b[^{;\n]*\{|\bghost (?:(?:Value|coded|output|seen|step)\s*=\s*|\w+: )\{", re.M)
PRIVATE = re.compile(r"^ +(?:pub\(\w+\) )?\w+: ", re.M)


class Definition:
    """One definition of a specification: its lines, the words in it, and the names by which it is cited."""

    def __init__(self, crate, module, text):
        kind, name = HEAD.match(text).groups()
        text = NOTE.sub("", text)
        self.crate, self.module, self.name = crate, module, name
        self.lines, self.words = len(re.findall(r"^.*\S", text, re.M)), set(WORD.findall(text))
        self.names = {name, *(re.findall(INNER[kind], text, re.M) if kind in INNER else ())} - {"_"}

    def is_inside(self):
        return self.module.split(".")[0] == "inside"


def imports_of(text, modules):
    """What each imported word stands for: (crate, module, name), or (crate, module, None) for a module's short name."""
    found = {}
    for crate, path, names, short in IMPORT.findall(text):
        parts = path.split(".")
        length = next((it for it in range(len(parts), 0, -1) if (crate, ".".join(parts[:it])) in modules), 0)
        place, name = (crate, ".".join(parts[:length])), parts[-1] if parts[length:] else None
        if length and names:
            pairs = [it.partition(" as ") for it in names.split(",")]
            found.update({(known or of).strip(): (*place, of.strip()) for of, _, known in pairs})
        elif length and (short or name):
            found[short or name] = (*place, name)
    return found


def read_specs():
    """All definitions by (crate, module, name), and the imports of each module."""
    texts, found = {}, {}
    for crate in CRATES.values():
        for path in (it for it in files_below(f"{crate.folder}/specs") if it.endswith(".antt")):
            texts[crate.name, os.path.relpath(path, f"{crate.folder}/specs")[:-5].replace("/", ".")] = text_of(path)
    for place, text in texts.items():
        for it in (Definition(*place, part) for part in BEGIN.split(text)[1:]):
            for name in it.names:
                found.setdefault((*place, name), it)
    return found, {place: imports_of(text, texts) for place, text in texts.items()}


def uncommented(path):
    return re.sub(r"//[^\n]*", "", text_of(path))


def braced(text, at):
    """The text from the line's begin to the partner of the brace that ends at this place."""
    depth, end = 1, at
    while depth:
        depth, end = depth + {"{": 1, "}": -1}.get(text[end], 0), end + 1
    return text[text.rfind("\n", 0, at) + 1:end]


def contracts_in(text, public, is_program):
    """The contracts in a source of functions and types with these names."""
    is_named = is_shared = is_seen = False
    for place in PLACE.finditer(text):
        indent, shown, kind, head, clause = place.groups()
        if kind == "fn":
            is_public = shown == "pub " or shown and is_program or indent and is_shared
            is_seen = is_public and (is_named if indent else WORD.search(head)[0] in public)
        elif kind:
            has_private = kind == "struct" and PRIVATE.search(text, place.end(), text.find("\n}", place.end()))
            is_named = not has_private and public.intersection(WORD.findall(head))
            is_shared = kind == "trait" or " for " in head
        elif is_seen if clause else is_named:
            yield braced(text, place.end())


def contracts(crate):
    """The sources of a crate without its tests, with the contracts of what a library hands out, or a program's main names."""
    root = uncommented(f"{crate.folder}/src/{'main' if crate.is_program else 'lib'}.rt")
    public = set(WORD.findall(root if crate.is_program else " ".join(re.findall(r"\bpub use [^;]*", root))))
    for path in files_below(f"{crate.folder}/src"):
        if path.endswith(".rt") and "tests" not in os.path.relpath(path, crate.folder):
            yield path, list(contracts_in(uncommented(path), public, crate.is_program))


def meant(words, own, imports, found):
    """The definitions that these words name, in a file with these imports (and of this module, where it is one)."""
    for word in words:
        if (*own, word) in found:
            yield found[(*own, word)]
        elif word in imports:
            *place, name = imports[word]
            yield from (found[(*place, it)] for it in (words if name is None else [name]) if (*place, it) in found)


def trusted(found, imports, names):
    """The definitions that the public contracts of these crates reach."""
    left, reached = [], set()
    for name in names:
        for path, texts in contracts(CRATES[name]):
            left += meant(set(WORD.findall(" ".join(texts))), (), imports_of(text_of(path), imports), found)
    while left:
        it = left.pop()
        if it not in reached:
            reached.add(it)
            left += meant(it.words, (it.crate, it.module), imports[it.crate, it.module], found)
    return reached


def unread(reached):
    """The files of trusted definitions, but for the texts of faults, that docs/READING.md does not name."""
    named, crate = set(), ""
    for path, short in re.findall(r"`(?:(\w+)/specs/)?([A-Z]\w*)`", text_of(f"{ROOT}/docs/READING.md")):
        crate = path or crate
        named.add((crate, short))
    return {(it.crate, it.module.split(".")[-1]) for it in reached} - named - {(it, "Messages") for it in CRATES}


def main(words):
    found, imports = read_specs()
    reached = trusted(found, imports, words[1:] if words[:1] == ["--of"] else CRATES)
    for crate in CRATES:
        mine = [it.lines for it in reached if it.crate == crate]
        if mine:
            print(f"trusted: {crate}: {len(mine)} definitions, {sum(mine)} lines")
    print(f"trusted: in all {len(reached)} definitions, {sum(it.lines for it in reached)} lines")
    if words:
        return 0
    definitions = set(found.values())
    wrong = [it for it in definitions if (it in reached) == it.is_inside() and it.crate not in UNSORTED]
    why = {True: "is reached by a public contract", False: "belongs in specs/inside"}
    told = [f"{it.crate}/{it.module}: {it.name} {why[it.is_inside()]}" for it in wrong]
    told += [f"docs/READING.md does not name {crate}/specs/{module}" for crate, module in unread(reached)]
    for path, texts in (it for crate in CRATES.values() if crate.name not in UNSORTED for it in contracts(crate)):
        lines = "\n".join(texts).split("\n")
        told += [f"{path} has a contract with more than {WIDEST} columns: {it}" for it in lines if len(it) > WIDEST]
    for it in sorted(told):
        print(f"trusted: {it}")
    print(f"{len(definitions) - len(wrong)} passed, {len(told)} failed")
    return 1 if told else 0


if __name__ == "__main__":
    sys.exit(main(sys.argv[1:]))
