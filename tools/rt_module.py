"""The kit's command rt as a module: it knows a crate's libraries, the words of a check, and how many checks fit side by side; and
checksums of files."""

import hashlib
import importlib.machinery
import importlib.util
import os
import shutil
import sys

sys.dont_write_bytecode = True
TOP = os.path.dirname(os.path.dirname(os.path.abspath(__file__)))


def load():
    path = shutil.which("rt")
    if not path:
        sys.exit("the command rt of the Rattle kit is not on the path")
    loader = importlib.machinery.SourceFileLoader("rt", os.path.realpath(path))
    module = importlib.util.module_from_spec(importlib.util.spec_from_loader("rt", loader))
    loader.exec_module(module)
    # Starts the guard of the commands that follow, which only the main thread may.
    module.rtlib.guarded()
    module.rtlib.Crate.below = once_for_each(module.rtlib.Crate.below)
    return module


def once_for_each(method):
    """A method of the kit's crates that depends on the crate's libraries alone, called once for each crate. The kit calls it for each
    path from a crate to a library below, and of these 70 crates have two millions."""
    kept = {}

    def once(crate):
        # (the crate stays, so that no other one gets its number)
        if id(crate) not in kept:
            kept[id(crate)] = crate, method(crate)
        return kept[id(crate)][1]

    return once


rt = load()


def sum_of(files, folder):
    """A checksum of the files' names below the folder and of what they hold."""
    found = hashlib.sha256()
    for path in sorted(files):
        with open(path, "rb") as file:
            held = file.read()
        found.update(f"{os.path.relpath(path, folder)}\n{len(held)}\n".encode())
        found.update(held)
    return found.hexdigest()
