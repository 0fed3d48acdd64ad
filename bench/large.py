#!/usr/bin/env python3
"""Measures what inputs of 256 MiB, the most that a file may have, take at worst until they are refused or read.

    python3 bench/large.py [--size MEBIBYTES] [--most GIGABYTES] [PROGRAM]
    python3 bench/large.py [--size MEBIBYTES] --write FOLDER

First come CSV texts, by `run` over a table of two columns: a header of commas, one that is no UTF-8 at its end, a record of commas
under a good header, a field of commas. Then certificates, by `verify`, and witnesses, by `refute`: JSON whose values are as small
as they can be, of no certificate or witness and of lawful ones. Prints the seconds, the most memory and the exit status of one run
each. PROGRAM is the built program (default: crates/wdcheck/out/wdcheck, which ./wdcheck builds); it may take as much memory as
--most says (16 GB), past which it answers that memory ran out. With --write the texts are written to a folder in place of that.
"""

import argparse
import os
import resource
import subprocess
import tempfile
import time
import typing

import verify

SCHEMA = b"CREATE TABLE t (id BIGINT PRIMARY KEY, name TEXT);\n"
QUERY = b"SELECT id, ROW_NUMBER() OVER () AS n FROM t\n"
# Of this one a certificate is verified: its plan has two nodes, and lawful texts are accepted.
CERTIFIED_QUERY = b"SELECT id FROM t\n"
ENTRY = b'{"nodes":[{"calls":[],"keep":[],"limit":null,"traces":['
ENTRY_END = b']}],"version":1}'
# What stands above the first entry in a certificate of that query, so that the whole entry is judged.
ABOVE = b',{"calls":[],"keep":[],"limit":null,"traces":[]}],"version":1}'
FACTS = b'{"nodes":[{"calls":[],"keep":['
FACTS_END = b'],"limit":null,"traces":[{"from":[0],"uses":[]}]}' + ABOVE
TRACES = b'],"limit":null,"traces":['

# A query whose seventh node, of eight, is a join of 1,024 columns. Each of its rows is one by the first column.
WIDE_SCHEMA = b"CREATE TABLE t (c0 BIGINT PRIMARY KEY" + b"".join(b", c%d BIGINT" % number for number in range(1, 256)) + b");\n"
WIDE_QUERY = b"SELECT a.c0 FROM t AS a" + b"".join(b" JOIN t AS %s ON a.c0 = %s.c0" % (name, name) for name in (b"b", b"c", b"d")) + b"\n"
WIDE_FACTS = b'{"nodes":[' + b'{"calls":[],"keep":[],"limit":null,"traces":[]},' * 6 + FACTS.removeprefix(b'{"nodes":[')
SCAN = b'{"calls":[],"keep":[{"to":["row"],"trace":0}],"limit":null,"traces":[{"from":[0],"uses":[0]}]},'
JOIN = b'{"calls":[],"keep":[%s],"limit":null,"traces":[{"from":[0],"uses":[0,2,1]},{"from":[%s],"uses":[0,2,1]}]},'
BELOW = b'{"nodes":[' + SCAN + (SCAN + JOIN % (b'{"to":["row"],"trace":0}', b"0")) * 2 + SCAN


def columns(count, start=0):
    """The numbers of so many columns."""
    return b",".join(b"%d" % column for column in range(start, start + count))


ALL = columns(1024)
KEPT_BY_ALL = b'{"to":[0],"trace":0}'
KEPT_TO_33 = b'{"to":[%s,1023],"trace":0}' % columns(32)
KEPT_TO_9 = b'{"to":[%s,1023],"trace":0}' % columns(8)
# The first column gives all of them, and these give themselves, a thousand times.
LONG = BELOW + JOIN % (b'{"to":[%s],"trace":0}' % ALL + b',{"to":[0],"trace":1}' * 1000, ALL) + ENTRY.removeprefix(b'{"nodes":[')


def short(count):
    """The same, and the first few columns give as many, in a hundred ways."""
    given = b"".join(b',{"to":[%s],"trace":1}' % columns(count, start) for start in range(100))
    return BELOW + JOIN % (b'{"to":[%s],"trace":0}' % ALL + given, columns(count)) + ENTRY.removeprefix(b'{"nodes":[')


SHORT = short(32)
# In the node above the output gives the first column, and this all of them.
USED_ONCE = b'{"from":[0],"uses":[1002,0]}'
USED_EACH = b'{"from":[0],"uses":[1002,0,%s]}' % columns(1000, 1)
USED_SHORT = b'{"from":[0],"uses":[102,0,%s]}' % columns(100, 1)
USED_AGAIN = b'{"from":[0],"uses":[102,0,%s]}' % b",".join([b"1"] * 100)
# What stands above kept facts of the join.
ABOVE_KEPT = TRACES + b'{"from":[0],"uses":[0,2,1]}]}' + ABOVE


class Named(typing.NamedTuple):
    """A certificate in which each trace is named by as many kept facts of its own."""

    front: bytes
    kept: bytes
    facts: int
    trace: bytes


# A text is a front, a part that fills it, and an end, or Named. It is written a block at a time: the memory of this script would count as
# that of the program which it starts.
TABLES = {
    "a header of commas": (b"", b",", b""),
    "one that is no UTF-8": (b"", b",", b"\xff"),
    "a record of commas": (b"id,name\n1,a\n", b",", b""),
    "a field of commas": (b'id,name\n1,"', b",", b'"\n'),
}
CERTIFICATES = {
    "a number of zeros": (b"1", b"0", b""),
    "a list of zeros": (b"[0", b",0", b"]"),
    "a list of lists of one": (b"[[0]", b",[0]", b"]"),
    "a list of objects": (b'[{"":0}', b',{"":0}', b"]"),
    "a trace of zeros": (ENTRY + b'{"from":[0', b",0", b'],"uses":[]}]}' + ABOVE),
    "traces": (ENTRY + b'{"from":[],"uses":[]}', b',{"from":[],"uses":[]}', ENTRY_END),
    "traces of one, each named": Named(FACTS, b'{"to":[0],"trace":%d}', 1, b'{"from":[0],"uses":[0]}'),
    "the same, each named twice": Named(FACTS, b'{"to":[0],"trace":%d}', 2, b'{"from":[0],"uses":[0]}'),
    "traces of one": (ENTRY + b'{"from":[0],"uses":[0]}', b',{"from":[0],"uses":[0]}', b"]}" + ABOVE),
    "a kept fact of zeros": (FACTS + b'{"to":[0', b",0", b'],"trace":0}' + FACTS_END),
    "kept facts of one": (FACTS + b'{"to":[0],"trace":0}', b',{"to":[0],"trace":0}', FACTS_END),
}
WIDE_CERTIFICATES = {
    "traces to 1,024 columns": (LONG + USED_ONCE, b"," + USED_ONCE, ENTRY_END),
    "traces by 1,000 such facts": (LONG + USED_EACH, b"," + USED_EACH, ENTRY_END),
    "traces by 100 facts of 32": (SHORT + USED_SHORT, b"," + USED_SHORT, ENTRY_END),
    "traces by 100 facts of 8": (short(8) + USED_SHORT, b"," + USED_SHORT, ENTRY_END),
    "traces by one of 32": (SHORT + USED_AGAIN, b"," + USED_AGAIN, ENTRY_END),
    "kept facts to 33 columns": (BELOW + FACTS.removeprefix(b'{"nodes":[') + KEPT_TO_33, b"," + KEPT_TO_33, ABOVE_KEPT),
    "kept facts to 9 columns": (BELOW + FACTS.removeprefix(b'{"nodes":[') + KEPT_TO_9, b"," + KEPT_TO_9, ABOVE_KEPT),
    "kept facts by 1,024 columns": (WIDE_FACTS + KEPT_BY_ALL, b"," + KEPT_BY_ALL, TRACES + b'{"from":[' + ALL + b'],"uses":[]}]}' + ABOVE),
    "traces of 1,024, each named": Named(WIDE_FACTS, b'{"to":[],"trace":%d}', 1, b'{"from":[1023],"uses":[]}'),
    "the same, each named twice": Named(WIDE_FACTS, b'{"to":[],"trace":%d}', 2, b'{"from":[1023],"uses":[]}'),
}
WITNESSES = {
    "an ordering of zeros": (b'{"first":[[0', b",0", b']],"second":[],"tables":{}}'),
    "orderings of one": (b'{"first":[[0]', b",[0]", b'],"second":[],"tables":{}}'),
    "rows of one": (b'{"first":[],"second":[],"tables":{"t":[[0]', b",[0]", b"]}}"),
}
# By their command: the schema, the query, what stands before the path of the text, and the texts.
COMMANDS = (
    ("run", SCHEMA, QUERY, "t=", TABLES),
    ("verify", SCHEMA, CERTIFIED_QUERY, "", CERTIFICATES),
    ("verify", WIDE_SCHEMA, WIDE_QUERY, "", WIDE_CERTIFICATES),
    ("refute", SCHEMA, QUERY, "", WITNESSES),
)
PARTS = 1 << 16


def pieces_of_named(text, size):
    """A certificate of at most so many bytes."""
    # (a number of eight digits and a comma for each kept fact, and a comma for its trace)
    length = text.facts * (len(text.kept % 0) + 8) + len(text.trace) + 1
    traces = (size - len(text.front) - len(TRACES) - len(ABOVE)) // length
    yield text.front
    for start in range(0, traces, PARTS):
        numbers = range(start, min(start + PARTS, traces))
        yield b",".join(text.kept % number for number in numbers for _ in range(text.facts))
        yield b"," if start + PARTS < traces else TRACES
    yield text.trace
    for _ in range((traces - 1) // PARTS):
        yield (b"," + text.trace) * PARTS
    yield (b"," + text.trace) * ((traces - 1) % PARTS) + b"]}" + ABOVE


def write(folder, name, pieces):
    """Writes a text, and returns its path."""
    path = os.path.join(folder, name)
    with open(path, "wb") as file:
        file.writelines(pieces)
    return path


def pieces_of(text, size):
    """A text of at most so many bytes: the front, as many parts as there is room for, and the end."""
    if isinstance(text, Named):
        yield from pieces_of_named(text, size)
        return
    front, part, end = text
    parts = (size - len(front) - len(end)) // len(part)
    yield front
    for _ in range(parts // PARTS):
        yield part * PARTS
    yield part * (parts % PARTS)
    yield end


def measure(words, most):
    """Seconds, peak memory in MB and the exit status of one run."""

    def narrow():
        resource.setrlimit(resource.RLIMIT_AS, (most << 30, most << 30))

    start = time.monotonic()
    child = subprocess.Popen(words, stdout=subprocess.DEVNULL, stderr=subprocess.DEVNULL, preexec_fn=narrow)
    _, ended, usage = os.wait4(child.pid, 0)
    return time.monotonic() - start, usage.ru_maxrss / 1024, os.waitstatus_to_exitcode(ended)


def main():
    parser = argparse.ArgumentParser(description=__doc__, formatter_class=argparse.RawDescriptionHelpFormatter)
    parser.add_argument("program", nargs="*")
    parser.add_argument("--size", type=int, default=256)
    parser.add_argument("--most", type=int, default=16)
    parser.add_argument("--write", metavar="FOLDER")
    asked = parser.parse_args()
    size = asked.size << 20
    if asked.write:
        for group, (command, _, _, _, texts) in enumerate(COMMANDS):
            for number, text in enumerate(texts.values()):
                write(asked.write, "%s.%d.%d" % (command, group, number), pieces_of(text, size))
        return
    program = verify.program_of(asked.program)
    with tempfile.TemporaryDirectory() as folder:
        for command, schema, query, before, texts in COMMANDS:
            first = [write(folder, "schema.sql", [schema]), write(folder, "query.sql", [query])]
            for title, text in texts.items():
                path = write(folder, "text", pieces_of(text, size))
                seconds, memory, status = measure([program, command, *first, before + path], asked.most)
                print("%-7s %-24s %6.1f s, %6.0f MB at most, status %d" % (command, title, seconds, memory, status), flush=True)


if __name__ == "__main__":
    main()
