#!/usr/bin/env python3
"""Holds the declarations of the library for C to its source: the headers, the Rust crates and the Python module.

declarations.py LIBRARY: the structs with their fields, the calls with the types of their arguments, and every number have
to be those of crates/library_book and neddwyrol, and of neddwyrol_table for the shared table. The Python module is looked at as it is
loaded, with the shared library LIBRARY. It prints what differs, and ends with 0 where nothing does.
"""
import ctypes
import os
import re
import sys

ROOT = os.path.dirname(os.path.dirname(os.path.abspath(__file__)))
OPS = ("JOIN", "WAKE", "BLOCK", "LEAVE", "TIMER", "EXIT", "CHARGE", "RETUNE", "MOVE")
NUMBER = r"pub const (?:FLAT_)?(\w+): \w+ = (\d+);"
EXPORT = r'extern "C" fn (\w+)\((.*?)\)(?: -> (\w+))?(?: \{)?\n'
# How many calls a header has, inline ones too.
HELD = {"neddwyrol.h": 35, "neddwyrol_table.h": 27}
OF_C = {"uint8_t": "u8", "uint32_t": "u32", "uint64_t": "u64", "int64_t": "i64", "size_t": "usize", "void": "u8"}


def text_of(folder, *names):
    return "\n".join(open(f"{ROOT}/{folder}/{it}", encoding="utf-8").read() for it in names)


def all_of(pattern, text):
    return re.findall(pattern, text, re.S | re.M)


def numbers_of(pattern, text):
    """A pattern finds a name and a number, in either order."""
    pairs = [(a, b) if b.isdigit() else (b, a) for a, b in all_of(pattern, text)]
    return {re.sub(r"(?<=[a-z0-9])(?=[A-Z])", "_", name).upper(): int(n) for name, n in pairs}


def structs_of(text):
    """Of Rust or Rattle, without what takes no bytes, and a struct round another one as that: {name: [(field, type)]}."""
    structs = all_of(r"#\[repr\(C\)\]\n(?:#[^\n]*\n)*pub struct (?:Nd)?(\w+?)(?:Record)? \{\n(.*?)\n\}", text)
    found = {name: [(it, kind.removeprefix("Nd")) for it, kind in all_of(r"^ +(?:pub )?(\w+): ((?!Global)[^{},]+),", body)] for name, body in structs}
    return {name: found.get(fields[0][1], fields) if len(fields) == 1 else fields for name, fields in found.items()}


def calls_of(pattern, text):
    """Of Rust or Rattle, where a slice is a pointer and a count: {name: (types of the arguments, type of the result)}."""
    calls = {}
    for name, given, result in all_of(pattern, text):
        types = ",".join(re.sub(r"\bNd|Record\b", "", it.split(": ")[1]) for it in re.split(r",\s*", given) if ": " in it and "Global" not in it)
        spread = re.sub(r"&(mut )?(\[?)(\w+)\]?", lambda it: f"*{it[1] or 'const '}{it[3]}" + ",usize" * bool(it[2]), types)
        calls[name] = (spread.split(",") if spread else [], (result or "()").removeprefix("Nd"))
    return calls


def source():
    flat = text_of("crates/library_book/src", "memory.rt", "asked.rt", "moving.rt", "numbers.rt", "codes.rt", "checker.rt", "rebasing.rt")
    exports = text_of("crates/neddwyrol/src", "arithmetic.rt", "book.rt", "checks.rt", "first.rt")
    spoken, placed = text_of("crates/library_book/src", "calls.rt"), text_of("crates/library_book/src", "records.rt")
    numbers = {"GONE_FOR_GOOD": numbers_of(r"Place::(Gone) => \((\d+)", placed)["GONE"]}
    numbers |= numbers_of(NUMBER, flat + exports) | numbers_of(r"BW_(UNIT): u32 = (\d+)", text_of("crates/grub_book/src", "queue.rt"))
    numbers |= numbers_of(r"(\d+) => Some\(Op::(\w+)", spoken) | numbers_of(r"(\d+) => Place::(?:On\(queue, State::)?(\w+)", placed)
    numbers |= numbers_of(r"Reply::(\w+)(?: \{[^{}]*\}|\(\w\))? => \w+(?: \{\s*kind: |\()(\d+)", spoken)
    return structs_of(flat), calls_of(EXPORT, exports), numbers


def table():
    own = text_of("crates/neddwyrol_table/src", "pass.rt", "exports.rt", "calls.rt", "closing.rt", "opening.rt")
    limits = numbers_of(r"pub const (QUEUES_MAX|TASKS_MAX): \w+ = (\d+);", text_of("crates/grub_book/src", "setup.rt"))
    return structs_of(own), calls_of(EXPORT, own), numbers_of(NUMBER, own) | {f"TABLE_{name}": n for name, n in limits.items()}


def header(name):
    text = re.sub(r"/\*.*?\*/", "", text_of("bindings/include", name), flags=re.S)

    def kind(it):
        const, word, star = re.fullmatch(r"\s*(const )?(\w+)\s*(\*?)\s*", it).groups()
        plain = OF_C.get(word) or word.removeprefix("nd_").title().replace("_", "")
        return f"*{const or 'mut '}{plain}" if star else "()" if word == "void" else plain

    structs = {kind(it): [(field, kind(of)) for of, field in all_of(r"(\w+ \*?)(\w+);", body)] for body, it in all_of(r"typedef struct \{(.*?)\} (\w+);", text)}
    calls = {it: ([kind(re.sub(r"\w+\s*$", "", a)) for a in given.split(",") if a != "void"], kind(of)) for of, it, given in all_of(r"^(?:ND_MUST_USE )?(\w+) (nd_\w+)\((.*?)\);", text)}
    return {it: fields for it, fields in structs.items() if it != "Book"}, calls, numbers_of(r"ND_(\w+) (?:= )?(\d+)", text)


def dropped(name):
    """The calls of a header, inline ones too, that answer what a caller may pass over without a warning, or are warned of in vain."""
    calls = all_of(r"^(ND_MUST_USE )?(?:static inline )?(?:const )?(\w+) (\*?nd_\w+)\([^;{]*?\)(?:;| \{)", text_of("bindings/include", name))
    return len(calls), [call.lstrip("*") for is_marked, kind, call in calls if bool(is_marked) == (kind == "void")]


def misplaced(name):
    """The calls of a header whose arguments are not in its one order: the book or pass, the task, the runqueue or ticket, the moment or
    run, and then what is written."""
    order = [("book", "tasks", "pass"), ("task",), ("queue", "ticket"), ("moment", "run")]
    faults = []
    for call, given in all_of(r"^ND_MUST_USE (?:static inline )?\w+ (nd_\w+)\((.*?)\)[;\s]", text_of("bindings/include", name)):
        names = [it.split()[-1].lstrip("*") for it in given.split(",") if not re.search(r"_t \*\w+$", it)]
        places = [at for it in names for at, alike in enumerate(order) if it in alike]
        faults += [call] * (places != sorted(places) and places[0] == 0)
    return faults


def crate(folder):
    calls = calls_of(r"pub fn (nd_\w+)\((.*?)\)(?: -> (\w+))?;", text_of(folder, "raw.rs"))
    return structs_of(text_of(folder, "lib.rs", "raw.rs")), calls, numbers_of(NUMBER, text_of(folder, "codes.rs"))


def module(structs, numbers):
    """Types are classes here: nothing is const, and a size is a u64."""
    sys.path.insert(0, f"{ROOT}/bindings/python")
    import neddwyrol as it

    kinds = {ctypes.c_uint32: "u32", ctypes.c_uint64: "u64", ctypes.c_int64: "i64"} | {getattr(it, name): name for name in structs}
    kinds |= {ctypes.POINTER(kind): f"*mut {name}" for kind, name in kinds.items()}
    fields = {name: [(field.rstrip("_"), kinds[kind]) for field, kind in getattr(it, name)._fields_] for name in structs}
    return fields, {name: ([kinds[a] for a in given], kinds[result]) for name, (result, given) in it.CALLS.items()}, {name: getattr(it, name, None) for name in numbers}


def named():
    """The codes that nd_strerror, the Rust crate and the Python module have a name for."""
    import neddwyrol as it

    spoken = set(all_of(r"ND_NAMED\((?!name)(\w+)\)", text_of("bindings/include", "neddwyrol.h")))
    rust = {a for a, b in all_of(r"^ +(\w+) => \"(\w+)\",", text_of("bindings/rust/src", "codes.rs")) if a == b}
    return [("nd_strerror", spoken), ("codes::name", rust), ("name_of", set(it._NAMES.values()))]


def named_of_table():
    """The same of the shared table's codes, which stand there by their numbers: {name: number}."""
    import neddwyrol as it

    spoken = numbers_of(r"case (\d+): return \"(\w+)\";", text_of("bindings/include", "neddwyrol.h"))
    rust = numbers_of(r"^ +(\d+) => \"(\w+)\",", text_of("bindings/rust/src", "codes.rs"))
    return [("nd_strerror", spoken), ("codes::name", rust), ("name_of", {name: number for number, name in it._NAMES_OF_TABLE.items()})]


def main(words):
    os.environ["NEDDWYROL_SO"] = os.path.abspath(words[0])
    sys.dont_write_bytecode = True
    structs, calls, numbers = library = source()
    told = [len(it) for it in library + table()]
    faults = [] if told == [10, 22, 69, 3, 13, 14] else [f"the source was not read: {told} structs, calls and numbers"]
    plain = {name: ([it.replace("*const", "*mut").replace("usize", "u64") for it in given], result.replace("usize", "u64")) for name, (given, result) in calls.items()}
    for where, want, got in (
        ("neddwyrol.h", library, header("neddwyrol.h")),
        ("neddwyrol_table.h", table(), header("neddwyrol_table.h")),
        ("bindings/rust", library, crate("bindings/rust/src")),
        ("bindings/rust_table", table(), crate("bindings/rust_table/src")),
        ("the Python module", (structs, plain, numbers), module(structs, numbers)),
    ):
        for wanted, found in zip(want, got):
            faults += [f"{where}: the source has {it} as {wanted.get(it)}, and here it is {found.get(it)}" for it in {**wanted, **found} if wanted.get(it) != found.get(it)]
    for it in ("neddwyrol.h", "neddwyrol_table.h"):
        count, named_so = dropped(it)
        faults += [f"{it}: the calls were not read: {count}"] * (count != HELD[it])
        faults += [f"{it}: {call} answers, and has no ND_MUST_USE, or has it and answers nothing" for call in named_so]
        faults += [f"{it}: the arguments of {call} are in another order" for call in misplaced(it)]
    # (what is asked or answered: not the limits, the states, and the kinds of ops and events)
    others = {"ABI", "VERSION", "UNIT", "QUEUES_MAX", "TASKS_MAX", "AWAY", "CONTENDING", "NON_CONTENDING", "INACTIVE", "GONE_FOR_GOOD", "CALL", "READING", "REBASE"}
    others |= {it for it, number in numbers.items() if 1 <= number <= 9 and it in OPS}
    faults += [f"{where}: it names {it}, or has no name for it" for where, got in named() for it in got ^ (set(numbers) - others)]
    codes = {it: number for it, number in table()[2].items() if not it.endswith("_MAX")}
    faults += [f"{where}: the table's codes are {codes}, and here they are {got}" for where, got in named_of_table() if got != codes]
    print("".join(f"declarations: {it}\n" for it in faults), end="")
    return 1 if faults else 0


if __name__ == "__main__":
    sys.exit(main(sys.argv[1:]))
