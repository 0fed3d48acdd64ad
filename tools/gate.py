#!/usr/bin/env python3
"""The kit's gate, 'rt ci', with what it asks of a crate's libraries found once for each crate.

    python3 tools/gate.py

The kit makes the list of the libraries below a crate anew along each path from a crate to a library, of which there are many millions
here: minutes before the first proof. A kit that keeps nothing of what it proved on its machine makes the sum of a library's files so,
too, and would not end. Here the same 'rt ci' runs with both made once for each crate; it proves and prints the same.
"""

import os
import sys

from rt_module import TOP, once_for_each, rt


def sum_once():
    """Has a kit that keeps nothing make the sum of a crate's files once."""
    if not hasattr(rt, "Kept"):
        rt.rtlib.Crate.stamp = once_for_each(rt.rtlib.Crate.stamp)


if __name__ == "__main__":
    os.chdir(TOP)
    sum_once()
    sys.exit(rt.main(["ci"]))
