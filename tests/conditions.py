#!/usr/bin/env python3
"""Compares the table of conditions in docs/PROVED.md with the crates' sources.

    python3 tests/conditions.py

A public call of a library that the program stands on has a row there exactly if it has a clause 'requires'. Public is what a crate's
lib.rt hands on by 'pub use' or 'pub mod'. The last line is 'N passed, M failed'.
"""

import glob
import os
import re
import sys

TOP = os.path.dirname(os.path.dirname(os.path.abspath(__file__)))
OWNER = re.compile(r"(?:pub )?(?P<kind>impl|trait)\b(?:<[^>]*>)? (?:(?P<of>\w+)(?:<[^>]*>)? for )?(?P<type>\w+)")
FUNCTION = re.compile(r"(?P<indent> *)(?P<public>pub )?(?:const )?fn (?P<name>\w+)")


def text_of(path):
    with open(path, encoding="utf-8") as file:
        return file.read()


def handed_on(folder):
    """The names that a crate's lib.rt hands on, and its public modules."""
    text = text_of(f"{folder}/src/lib.rt")
    names = re.findall(r"\w+(?=[,};]|\s*$)", " ".join(re.findall(r"^pub use [^;]+;", text, re.M)))
    return set(names), set(re.findall(r"^pub mod (\w+);", text, re.M))


def head_of(lines, start, indent):
    """The lines of a function up to its body, or to the end of a trait's method without one."""
    end = re.compile(rf"{indent}(?:\S.*)?(?:\{{|\{{\}})$|.*;$")
    return lines[start : next(at for at in range(start, len(lines)) if end.match(lines[at])) + 1]


def calls_with_condition(folder):
    """The public calls of a crate that have a clause 'requires'."""
    names, modules = handed_on(folder)
    found = set()
    for path in glob.glob(f"{folder}/src/*.rt"):
        is_open = os.path.basename(path).removesuffix(".rt") in modules
        lines, owner = text_of(path).split("\n"), None
        for at, line in enumerate(lines):
            owner = None if line.startswith("}") else OWNER.match(line) or owner
            function = FUNCTION.match(line)
            if not function or not any(re.match(r"\s+requires\b", it) for it in head_of(lines, at, function["indent"])):
                continue
            is_method = bool(function["indent"])
            holder = owner["type"] if is_method else function["name"]
            is_public = function["public"] or is_method and owner["kind"] == "trait"
            if is_public and (is_open or holder in names):
                found.add(f"{holder}::{function['name']}" if is_method else holder)
    return found


def told():
    """The calls of each crate that the table has."""
    table = text_of(f"{TOP}/docs/PROVED.md").split("| Crate | Calls | What they ask |\n", 1)[1].split("\n\n", 1)[0]
    rows = [line.split(" | ") for line in table.split("\n")[1:]]
    return {row[0].removeprefix("| "): set(re.findall(r"`([\w:]+)`", row[1])) for row in rows}


def main():
    crates = [line.split(":")[0] for line in text_of(f"{TOP}/crates.txt").split("\n") if line]
    libraries = [it for it in crates if not it.startswith("wd_cases") and os.path.exists(f"{TOP}/crates/{it}/src/lib.rt")]
    of_table, passed, failed = told(), 0, 0
    for crate in [*libraries, *(it for it in of_table if it not in libraries)]:
        asked = calls_with_condition(f"{TOP}/crates/{crate}") if crate in libraries else set()
        wrong = sorted(asked ^ of_table.get(crate, set()))
        if wrong:
            print(f"{crate}: the table and the sources differ in {', '.join(wrong)}")
        passed, failed = passed + (not wrong), failed + bool(wrong)
    print(f"{passed} passed, {failed} failed")
    return 1 if failed or not passed else 0


if __name__ == "__main__":
    sys.exit(main())
