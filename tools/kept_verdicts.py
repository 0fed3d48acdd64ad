"""Verdicts on wrong bodies that are kept from run to run, in the file wrong-bodies/refused.txt of the repository.

A line is an edit that was refused, the checksum of all that its verdict rests on, and what the check said:

    CRATE/NAME CHECKSUM SAID

Kept is only that an edit was refused, never that it wasn't. A verdict is taken again where that checksum is the same: it is of
the edit's text; the crate's files, and its line in crates.txt; what a check above reads of the libraries below (their types
and contracts, definitions and lemmas; no body and no written proof of a function); the kit (KIT-ID and WHAT); and the files of
the runner (RUNNER).

The other edits of a crate are not part of it, though one check judges many. There an edit is refused by a goal of its own
function, which stands on the contracts of all others. An edit that changes more than the body and the written proof of its own
function, as a constant does, is judged by itself, so no other edit is judged over what it changes.
"""

import functools
import hashlib
import os
import threading

from rt_module import TOP, rt, sum_of
from sources import statements_in

STORE = f"{TOP}/wrong-bodies/refused.txt"
RUNNER = [f"{TOP}/tools/{name}" for name in ("wrong_bodies.py", "kept_verdicts.py", "sources.py", "rt_module.py")]


@functools.cache
def sum_of_library(folder):
    return hashlib.sha256(repr(sorted(statements_in(folder).items())).encode()).hexdigest()


def basis_of(crate):
    """The checksum of all that the verdicts on a crate's edits rest on, but for the edits."""
    kit = [f"{rt.rtlib.KIT}/{name}" for name in ("KIT-ID", "WHAT")]
    below = sorted((it.name, it.said, sum_of_library(it.folder)) for it in crate.below())
    own = crate.name, crate.said, sorted(crate.of_kit), sum_of(rt.rtlib.files_of(crate.folder), crate.folder)
    return hashlib.sha256(repr((own, below, sum_of(kit, rt.rtlib.KIT), sum_of(RUNNER, TOP))).encode()).hexdigest()


def is_basis(basis, crate):
    """Whether the crate's edits still rest on this, by the files as they are now."""
    sum_of_library.cache_clear()
    try:
        return basis_of(crate) == basis
    except OSError:
        return False


def key_of(basis, edit_text):
    return hashlib.sha256(repr((basis, edit_text)).encode()).hexdigest()


class Kept:
    """The file of kept verdicts; with `anew` nothing is taken from it."""

    def __init__(self, anew):
        self.anew, self.writing = anew, threading.Lock()
        with open(STORE, encoding="utf-8") as file:
            lines = [line.split(" ", 2) for line in file.read().splitlines()]
        self.verdicts = {line[0]: line[1:] for line in lines if len(line) == 3}

    def taken(self, name, key):
        """What was said of the edit when it was refused under this checksum; None where that isn't kept."""
        kept, said = self.verdicts.get(name, (None, None))
        return said if kept == key and not self.anew else None

    def note(self, verdicts):
        """Keeps verdicts, each an edit's name, its checksum and what was said of it, or None in its place where it wasn't refused:
        then nothing stays of an earlier refusal."""
        with self.writing:
            for name, key, said in verdicts:
                self.verdicts.pop(name, None)
                if said is not None:
                    self.verdicts[name] = key, " ".join(said.split())[:200]
            text = "".join(f"{name} {' '.join(self.verdicts[name])}\n" for name in sorted(self.verdicts))
            try:
                with open(f"{STORE}.new", "w", encoding="utf-8") as file:
                    file.write(text)
                os.replace(f"{STORE}.new", STORE)
            except OSError as error:
                # What isn't kept is judged again.
                print(f"no verdict is kept: {error}", flush=True)

    def forget_all_but(self, names):
        """Takes out what is kept of edits that are not among these."""
        gone = self.verdicts.keys() - names
        if gone:
            self.note([(name, None, None) for name in gone])
