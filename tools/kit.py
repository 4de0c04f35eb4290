"""The Rattle kit's own code, for the tools that build on it. It is no library with a promise, so another kit is refused."""
import importlib.machinery
import importlib.util
import os
import shutil
import subprocess
import sys
import threading

KITS = ("rattle-kit-13b", "rattle-kit-13f")


def load(tool):
    """The module that the command rt is. A tool stops with a sentence where there is none, or another one than it knows."""
    found = shutil.which("rt")
    if not found:
        sys.exit(f"{tool}: rt, the Rattle kit's command, isn't found: put the kit's bin/ into PATH")
    version = subprocess.run([found, "version"], stdout=subprocess.PIPE, text=True, check=False).stdout.split()
    if not version or version[0] not in KITS:
        sys.exit(f"{tool}: rt is of {' '.join(version[:1]) or 'no kit'}, and this tool knows {' and '.join(KITS)}: "
                 "look through tools/kit.py and what calls it before you add another")
    loader = importlib.machinery.SourceFileLoader("rt", os.path.realpath(found))
    rt = importlib.util.module_from_spec(importlib.util.spec_from_loader("rt", loader))
    sys.modules["rt"] = rt
    loader.exec_module(rt)
    for name in ("stamp", "below"):
        setattr(rt.rtlib.Crate, name, once_each(getattr(rt.rtlib.Crate, name)))
    return rt


def once_each(method):
    """A method of crates that calls itself for what a crate stands on, and so that it comes to each crate once. In the kit 13b it
    comes to a crate as often as ways through crates.txt lead there: a million times in all, which takes half an hour. What it
    returns is the same, and each call from outside reads all files anew."""
    known = threading.local()

    def called(crate):
        if hasattr(known, "found"):
            if crate.name not in known.found:
                known.found[crate.name] = method(crate)
            return known.found[crate.name]
        known.found = {}
        try:
            return method(crate)
        finally:
            del known.found

    return called
