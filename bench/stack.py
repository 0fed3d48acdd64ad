#!/usr/bin/env python3
"""Finds the least stack with which the program answers the deepest texts of each place.

    python3 bench/stack.py [PROGRAM]

The texts are those of tests/deepest.py. Each is tried under stacks of a quarter of a megabyte and upwards; the first under which the
program does not end by a signal is printed. Nothing is checked.
"""

import argparse
import os
import resource
import subprocess
import sys
import tempfile

TOP = os.path.dirname(os.path.dirname(os.path.abspath(__file__)))
sys.path.insert(0, f"{TOP}/tests")

from deepest import DATA, SCHEMA, SHAPES, texts, write  # noqa: E402

QUARTERS = (1, 2, 3, 4, 6, 8, 12, 16, 20, 24, 28, 32, 48, 64, 128)


def status(words, folder, quarters):
    def narrow():
        resource.setrlimit(resource.RLIMIT_STACK, (quarters << 18, quarters << 18))

    return subprocess.run(words, cwd=folder, capture_output=True, preexec_fn=narrow, check=False)


def least(words, folder):
    """The least stack and the exit status under it."""
    for quarters in QUARTERS:
        ended = status(words, folder, quarters)
        if ended.returncode >= 0:
            refused = f" ({ended.stderr.decode().strip()})" if ended.returncode > 2 else ""
            return f"{quarters / 4:g} MB{refused}"
    return f"more than {QUARTERS[-1] / 4:g} MB"


def main():
    parser = argparse.ArgumentParser(description=__doc__.split("\n", maxsplit=1)[0])
    parser.add_argument("program", nargs="?", default=f"{TOP}/crates/wdcheck/out/wdcheck")
    program = os.path.abspath(parser.parse_args().program)
    if not os.access(program, os.X_OK):
        sys.exit(f"there is no program {program}: ./wdcheck builds it")
    with tempfile.TemporaryDirectory() as folder:
        write(folder, "schema.sql", SCHEMA)
        write(folder, "t.csv", DATA)
        for name, shape in SHAPES.items():
            for place, (query, _, _) in texts(shape).items():
                write(folder, "query.sql", query)
                found = [f"{command} {least([program, command, 'schema.sql', 'query.sql', *more], folder)}"
                         for command, more in (("check", ()), ("explain", ()), ("run", ("t=t.csv",)))]
                print(f"{name}, {place}, {len(query):,} bytes: {', '.join(found)}", flush=True)


if __name__ == "__main__":
    main()
