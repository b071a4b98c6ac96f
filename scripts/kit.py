"""The kit's command `rt` as a module: what `rt ci` refuses of a crate's text and of the prover's last line, our scripts refuse too."""
import copy
import importlib.machinery
import importlib.util
import os
import re

from crates import kit_folder
from shared import ROOT


class LastLine:
    """The kit's form of a verdict, which may also rest on what earlier runs checked. The kit's own compiler tells behind it what it built."""

    def __init__(self, form):
        self.form = form

    def search(self, said):
        told, verdict, _ = said.rpartition("\nlogic=proved ")
        line = said[len(told) + 1:].partition("\n")[0]
        return self.form.search(f"{told}\n{line.removesuffix(' incremental=trusted')}\n") if verdict else None


def load():
    loader = importlib.machinery.SourceFileLoader("rt", f"{kit_folder()}/bin/rt")
    rt = importlib.util.module_from_spec(importlib.util.spec_from_loader("rt", loader))
    loader.exec_module(rt)
    asked = rt.rtlib.help_of
    rt.rtlib.Crate, rt.rtlib.stop, rt.rtlib.VERDICT = rt.Crate, rt.stop, LastLine(rt.rtlib.VERDICT)
    # (whether empty contracts are looked for, build.py says)
    rt.rtlib.help_of = lambda verb: asked(verb).replace("--empty-contracts", "")
    rt.Crate.allowed, rt.Crate.cuts_libraries = rt.handles_of(ROOT), True
    # (its first call sets a signal's handler, which only the main thread may)
    rt.rtlib.guarded()
    return rt


class Kit:
    """The crates of the repository as the kit knows them."""

    def __init__(self):
        self.rt = load()
        self.all = self.rt.rtlib.crates_below(ROOT)
        self.by_name = {it.name: it for it in self.all}

    def prove(self, name, words, log):
        """Runs the prover, whose last line has to be as `rt ci` wants it: whether all is well."""
        crate = copy.copy(self.by_name[name])
        crate.out = log
        return crate.prove(words) == 0

    def link(self, name, made, program, log):
        """Links a program, which may call of the system what HANDLES allows: whether all is well."""
        crate = copy.copy(self.by_name[name])
        crate.out = log
        return crate.link(made, os.path.relpath(program, crate.folder)) == 0

    def refuses_text(self, name, log):
        """Whether the crate's text is refused before any proof; the kit prints why."""
        rt, crate = self.rt, self.by_name[name]
        try:
            rt.rtlib.stop_on_links(crate.folder)
            rt.rtlib.stop_on_unread(crate.folder, self.all)
            rt.rtlib.stop_on_text(crate, "verdict")
            rt.stop_on_words(crate)
        except SystemExit:
            return True
        code = rt.rtlib.code_of(crate.folder)
        beyond = [it for it, words in rt.REACHES.items() if it not in crate.allowed and re.search(words, code)]
        if beyond or re.search(rt.RENAMES, code) or re.search(rt.IGNORED, code):
            print(f"{name} reaches what HANDLES does not allow, renames std, or ignores a test", file=log)
            return True
        return bool(rt.rtlib.fmt(crate.folder, "--check", log))

    def runs(self, name, is_tests, ending=""):
        """Whether a program writes what its file stdout has, or tests pass, as `rt ci` runs them."""
        return self.rt.run(self.by_name[name], is_tests, ending)
