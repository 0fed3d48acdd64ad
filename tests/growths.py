#!/usr/bin/env python3
"""Compares what docs/PROVED.md says of refused growths with the crates' sources.

    python3 tests/growths.py [--list]

Of each public call of a library that the program stands on and that takes an allocator or a mutable reference, one of these holds.
It takes a mutable reference, and its contract (or its trait's) has a clause `kept`, `handed` or `failure` that says what a refusal
leaves; or it has none and a row in the table "After a refusal" with the reason. Or all that it takes is handed over by value or by a
shared reference, and its crate has no cell: then the type system keeps it. A call of no kind is a failure, and so is a row without
such a call. Public is what a crate's lib.rt hands on by 'pub use' or 'pub mod'. With --list each call is shown with its clause or
reason. The last line is 'N passed, M failed'.
"""

import glob
import os
import re
import sys

from conditions import FUNCTION, OWNER, TOP, handed_on, head_of, text_of

HEADING = "| Crate | Calls | What a refusal leaves |\n"
NAMES = {"kept", "handed", "failure"}
CELLS = re.compile(r"\b(?:Cell|RefCell|UnsafeCell|OnceCell|Mutex|RwLock|Atomic\w+)\b")
REFUSED = re.compile(r"\bensures (\w+) \{[^}]*\b(?:OnErr|IfErr|MatchResult|Fails|IsHeld)\b")


def calls(folder):
    """The public calls of a crate: the name, the words of its signature, and those of its contract."""
    names, modules = handed_on(folder)
    inner = set(re.findall(r"^(?:pub(?:\(crate\))? )?trait (\w+)", "\n".join(text_of(it) for it in glob.glob(f"{folder}/src/*.rt")), re.M)) - names
    for path in sorted(glob.glob(f"{folder}/src/*.rt")):
        is_open = os.path.basename(path).removesuffix(".rt") in modules
        lines, owner = text_of(path).split("\n"), None
        for at, line in enumerate(lines):
            owner = None if line.startswith("}") else OWNER.match(line) or owner
            function = FUNCTION.match(line)
            if not function or function["indent"] and not owner:
                continue
            is_method = bool(function["indent"])
            holder = owner["type"] if is_method else function["name"]
            of_trait = is_method and (owner["kind"] == "trait" or owner["of"]) and owner["of"] not in inner
            if not (function["public"] or of_trait) or not (is_open or holder in names):
                continue
            head = "\n".join(head_of(lines, at, function["indent"]))
            signature, *contract = re.split(r"\n\s*(?=(?:ensures|requires|ghost)\b)", head)
            name = f"{holder}::{function['name']}" if is_method else holder
            trait = f"{owner['of']}::{function['name']}" if of_trait and owner["of"] else None
            yield name, trait, signature, "\n".join(contract)


def told():
    """The calls of the table, each with its crate."""
    table = text_of(f"{TOP}/docs/PROVED.md").split(HEADING, 1)[1].split("\n\n", 1)[0]
    rows = [line.strip("| ").split(" | ") for line in table.split("\n")[1:]]
    return {(crate, name) for crate, names, _ in rows for name in re.findall(r"`([\w:]+)`", names)}


def clauses_of(contract):
    """The names of the clauses that say what a refusal leaves."""
    parts = re.split(r"\n\s*(?=ensures\b)", "\n" + contract)
    return NAMES & {it[1] for part in parts for it in [REFUSED.match(" ".join(part.split()))] if it}


def judge(crate, of_table, shown):
    """What is wrong in a crate; each of its calls is put into the list that is shown, with its clause or reason."""
    folder = f"{TOP}/crates/{crate}"
    wrong = [f"{os.path.basename(path)} has a cell, which a shared reference does not keep" for path in glob.glob(f"{folder}/src/*.rt") if CELLS.search(text_of(path))]
    found = list(calls(folder))
    contracts = {name: contract for name, _, _, contract in found}
    mutable = [(name, trait) for name, trait, signature, _ in found if re.search(r"&(?:'\w+ )?mut\b", signature)]
    rows, used = {row for of, row in of_table if of == crate}, set()
    for name, trait in mutable:
        clauses = clauses_of(contracts[name]) or clauses_of(contracts.get(trait, ""))
        if not clauses and not rows & {name, trait}:
            wrong.append(f"{name} takes a mutable reference and has neither a clause nor a row")
        used |= set() if clauses else {name, trait}
        shown.append(f"{crate} {name}: {' '.join(sorted(clauses)) or 'the reason in its row'}")
    shared = [name for name, _, signature, _ in found if re.search(r"\bGlobal\b", signature) and name not in dict(mutable)]
    shown += [f"{crate} {name}: takes values and shared references alone" for name in shared]
    return wrong + [f"{row} has a row, and is no call without a clause that takes a mutable reference" for row in sorted(rows - used)]


def main():
    crates = [line.split(":")[0] for line in text_of(f"{TOP}/crates.txt").split("\n") if line]
    libraries = [it for it in crates if not it.startswith("wd_cases") and os.path.exists(f"{TOP}/crates/{it}/src/lib.rt")]
    of_table, shown, failed = told(), [], 0
    for crate in [*libraries, *sorted({crate for crate, _ in of_table} - set(libraries))]:
        wrong = judge(crate, of_table, shown)
        failed += bool(wrong)
        if wrong:
            print(f"{crate}: {'; '.join(wrong)}")
    if "--list" in sys.argv[1:]:
        print("\n".join(shown))
    print(f"{len(shown)} calls take an allocator or a mutable reference")
    print(f"{len(libraries) - failed} passed, {failed} failed")
    return 1 if failed else 0


if __name__ == "__main__":
    sys.exit(main())
