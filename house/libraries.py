#!/usr/bin/env python3
"""Gives a clone each library that a run of `rt ci` on this machine has proved on the same text, so that nobody proves
it twice.

    python3 house/libraries.py CLONE

`rt check` takes the libraries below a crate from the crates' out/ folders, and not from what `rt ci` keeps. This puts
there what is kept, by the gate's own keys: a library comes only where its text, its line of crates.txt and all below
are the same as in the run that proved it. Call it again when a run has proved more; it takes some seconds. It changes
nothing that a verdict rests on.
"""
import hashlib
import importlib.machinery
import importlib.util
import json
import os
import shutil
import sys

sys.dont_write_bytecode = True
RT = os.path.realpath("/usr/local/bin/rt")


def gate():
    """The gate's own module, and the one that it stands on."""
    loader = importlib.machinery.SourceFileLoader("rtmain", RT)
    it = importlib.util.module_from_spec(importlib.util.spec_from_loader("rtmain", loader))
    sys.modules["rtmain"] = it
    loader.exec_module(it)
    return it, sys.modules["rtlib"]


def files_of(place):
    """The files of a kept library with their sums, or none."""
    try:
        with open(f"{place}/made.json", encoding="utf-8") as file:
            return json.load(file)["files"]
    except (OSError, ValueError, KeyError):
        return None


def stands(crate, place, files):
    """Whether the library is there already."""
    at = next(n for n, (path, _) in enumerate(files) if path == f"rlib/{crate.name}.rlib/format")
    try:
        with open(f"{crate.folder}/out/rlib/stamp", encoding="utf-8") as file:
            return os.path.samefile(f"{place}/{at}",
                                    f"{crate.folder}/out/{files[at][0]}") and file.read() == crate.stamp()
    except OSError:
        return False


def give(kept, crate):
    """Gives a crate its library; false where none is kept."""
    key = kept.key(crate)
    place = kept.place(crate, False, key)
    files = files_of(place)
    if files is None:
        return False
    if not stands(crate, place, files):
        shutil.rmtree(f"{crate.folder}/out/rlib", ignore_errors=True)
        if not kept.give(crate, False, key):
            return False
        with open(f"{crate.folder}/out/rlib/stamp", "w", encoding="utf-8") as file:
            file.write(crate.stamp())
    # (what the gate would make of the library's files, for the keys of those above)
    kept.rlibs[crate.name] = hashlib.sha256(repr([(path, sum_) for path, sum_ in files]).encode()).hexdigest()
    return True


def main(clone):
    rt, rtlib = gate()
    os.chdir(clone)
    rt.Crate.allowed = rt.handles_of(clone)
    rtlib.Crate = rt.Crate
    # (a stamp is asked for by all that stand above it, of which each has its own copy of the crate)
    made, stamp = {}, rt.Crate.stamp
    rt.Crate.stamp = lambda crate: made.get(crate.folder) or made.setdefault(crate.folder, stamp(crate))
    crates = rtlib.crates_below(clone)
    kept, there, missing = rt.Kept(crates), set(), []
    for crate in sorted((it for it in crates if not it.is_program), key=lambda it: len(it.below())):
        if all(it.name in there for it in crate.below()) and give(kept, crate):
            there.add(crate.name)
        else:
            missing.append(crate.name)
    print(f"{len(there)} libraries are there; missing:", *missing or ["none"])


if __name__ == "__main__":
    if len(sys.argv) != 2 or sys.argv[1].startswith("-"):
        sys.exit(__doc__)
    main(os.path.realpath(sys.argv[1]))
