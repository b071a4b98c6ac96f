#!/usr/bin/env python3
"""releases.py: holds the pages and the recorder to the table of releases in crates/kernel_rules/src/table.rt: the table of
docs/KERNEL.md, the words for the releases that were tried, and the functions that the recorder probes. The last line is 'N passed, M failed'."""
import re

from shared import ROOT, Tried, text_of

ROW = re.compile(r"from: Kernel \{\s*major: (\d+),\s*minor: (\d+),\s*patch: (\d+),?\s*\},\s*update: UpdateFunction::(\w+),\s*"
                 r"has_max_bw: (\w+),\s*servers: Servers::(\w+),\s*is_tried_by_probes: (\w+),\s*is_tried_by_timers: (\w+)")
FUNCTION = {"UpdateCurrDl": "update_curr_dl", "UpdateCurrDlSe": "update_curr_dl_se"}
SERVERS = {"Absent": "none", "StopWithTimer": "stop with their last task", "StopAtPick": "stop when picked", "StopAtIdle": "stop at idle"}


def name_of(major, minor, patch, row, rows):
    """A row's name in the pages: the oldest is named by the next one."""
    if major == "0":
        return "before " + name_of(*rows[1][:3], 1, rows)
    return f"{major}.{minor}" + (f".{patch}" if patch != "0" else "")


def tried(rows, column):
    """The releases that were tried, in words."""
    words = []
    for major, minor, patch, *rest in rows:
        if rest[column] == "true":
            words.append(f"{major}.{minor}" + (f".{patch} and later {major}.{minor}" if patch != "0" else ""))
    return ", ".join(words)


def main():
    rows = ROW.findall(text_of(f"{ROOT}/crates/kernel_rules/src/table.rt"))
    code = text_of(f"{ROOT}/crates/kernel_rules/src/release.rt")
    page = text_of(f"{ROOT}/docs/KERNEL.md")
    probes = text_of(f"{ROOT}/kernel/probes.txt")
    known = Tried("releases")
    versions = [tuple(map(int, row[:3])) for row in rows]
    known.add("table.rt", [] if versions and versions == sorted(set(versions)) else ["its releases are out of order"])
    for at, (major, minor, patch, update, has_max_bw, servers, by_probes, by_timers) in enumerate(rows):
        cells = [name_of(major, minor, patch, at, rows), f"`{FUNCTION[update]}`", "yes" if has_max_bw == "true" else "no", SERVERS[servers]]
        cells += ["tried" if it == "true" else "" for it in (by_probes, by_timers)]
        line = re.sub(r" +", " ", " | ".join(cells)).strip()
        is_there = any(re.sub(r" +", " ", it).strip() == line for it in page.split("\n"))
        known.add("docs/KERNEL.md", [] if is_there else [f"it lacks the row: {line}"])
    for name, column in (("tried_by_probes", 3), ("tried_by_timers", 4)):
        words = tried(rows, column)
        is_there = f'"{words}"' in code.split(f"pub fn {name}()")[1].split("}\n}")[0]
        known.add(f"{name} of release.rt", [] if is_there else [f"it should be: {words}"])
    for function in {row[3] for row in rows}:
        is_there = re.search(rf"^upd {FUNCTION[function]}$", probes, re.M)
        known.add("kernel/probes.txt", [] if is_there else [f"it does not probe {FUNCTION[function]}"])
    known.end()


if __name__ == "__main__":
    main()
