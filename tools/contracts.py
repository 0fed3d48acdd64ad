#!/usr/bin/env python3
"""Prints the contracts of public calls from the sources: of each call the definitions that its clauses name.

    python3 tools/contracts.py [CRATE..]

A line is a call, its crate before it, and behind it its clauses: the clause's name where it has one, and in brackets the definitions
that it cites, by the names under which the file brings them in. Public is what a crate's lib.rt hands on by 'pub use' or 'pub mod'.
"""

import glob
import os
import re
import sys

TOP = os.path.dirname(os.path.dirname(os.path.abspath(__file__)))
sys.path.append(f"{TOP}/tests")
from conditions import FUNCTION, OWNER, handed_on, head_of, text_of  # noqa: E402

CLAUSE = re.compile(r"\b(requires|ensures)(?: (\w+))? \{")
BROUGHT = re.compile(r"^ghost use Rattle\.wd_\w+\.specs\.([^;]+);", re.M)


def definitions_in(text):
    """The names under which a file brings in the repository's own definitions."""
    names = set()
    for brought in BROUGHT.findall(text):
        braces = re.search(r"\{([^}]*)\}", brought)
        words = braces[1].split(",") if braces else [brought]
        names |= {re.split(r" as |\.", word.strip())[-1] for word in words}
    return names


def body_of(head, at):
    """What stands between the braces of a clause."""
    depth, end = 1, at
    while end < len(head) and depth:
        depth += {"{": 1, "}": -1}.get(head[end], 0)
        end += 1
    return head[at : end - 1]


def clauses(head, definitions):
    """The clauses of a function's head, each with the definitions that it cites."""
    for found in CLAUSE.finditer(head):
        words = re.findall(r"[A-Za-z_]\w*", body_of(head, found.end()))
        # A view of a value (`plan_of`) says nothing of it.
        cited = dict.fromkeys(word for word in words if word in definitions and not word.endswith("_of"))
        name = " ".join(word for word in ("asks" if found[1] == "requires" else "", found[2] or "") if word)
        if cited or name:
            yield f"{name} ({', '.join(cited)})".strip() if cited else name


def calls(folder):
    """The public calls of a crate, each with its clauses."""
    names, modules = handed_on(folder)
    for path in sorted(glob.glob(f"{folder}/src/*.rt")):
        text, owner = text_of(path), None
        definitions = definitions_in(text)
        is_open = os.path.basename(path).removesuffix(".rt") in modules
        lines = text.split("\n")
        for at, line in enumerate(lines):
            owner = None if line.startswith("}") else OWNER.match(line) or owner
            function = FUNCTION.match(line)
            if not function or not function["public"] or function["indent"] and not owner:
                continue
            holder = owner["type"] if function["indent"] else function["name"]
            if is_open or holder in names:
                name = f"{holder}::{function['name']}" if function["indent"] else function["name"]
                yield name, list(clauses("\n".join(head_of(lines, at, function["indent"])), definitions))


def main():
    libraries = glob.glob(f"{TOP}/crates/*/src/lib.rt")
    crates = sys.argv[1:] or sorted(path.split("/")[-3] for path in libraries)
    for crate in crates:
        for name, said in calls(f"{TOP}/crates/{crate}"):
            print(f"{crate} {name}: {'; '.join(said) or 'returns'}")


if __name__ == "__main__":
    main()
