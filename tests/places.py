#!/usr/bin/env python3
"""Tries tools/place.py: what it shows of texts, and its tokens against those that the program counts.

    python3 tests/places.py PROGRAM

A query that is read, with two semicolons after it, is refused by 201 at the second of them, which is one more than the number of
its tokens; so for each query of examples/ and of tests/frames, and for the texts of TRICKY, place.py must find as many.
The last line is 'N passed, M failed'.
"""

import glob
import os
import re
import subprocess
import sys
import tempfile

sys.dont_write_bytecode = True
TOP = os.path.dirname(os.path.dirname(os.path.abspath(__file__)))
sys.path.insert(0, f"{TOP}/tools")
import place  # noqa: E402

# A refusal's line, the bytes of the file, and what is shown after the file's name.
SHOWN = [
    ("query: refused 101 at 3", b"SELECT", ":1:4\nSELECT\n   ^"),
    ("query: refused 101 at 10", b"a\r\nb\n'\xc3\xa9' # c", ":3:5\n'\u00e9' # c\n    ^"),
    ("schema: refused 102 at 2", b"a\n'b\nc", ":2:1\n'b\n^"),
    ("query: refused 104 at 3", b"\xef\xbb\xbf12x", ":1:1\n12x\n^"),
    ("query: refused 201 at 0", b"\xef\xbb\xbf GROUP", ":1:2\n GROUP\n ^^^^^"),
    ("query: refused 201 at 4", b"SELECT id -- a, b\nFROM t /* c /* d */ e */\n\tUNION SELECT id\n", ":3:2\n\tUNION SELECT id\n\t^^^^^"),
    ("query: refused 201 at 2", b"SELECT id\n\n", ":1:10\nSELECT id\n         ^"),
    ("query: refused 201 at 0", b" \n \n", ":1:1\n \n^"),
    ("query: refused 201 at 3", b"a<=b<>c", ":1:5\na<=b<>c\n    ^^"),
    ("query: refused 201 at 1", b"'it''s' \"a\"\"b\" 1", ":1:9\n'it''s' \"a\"\"b\" 1\n        ^^^^^^"),
    ("schema: refused 309 at 2", b"a\r\nb\rc\nd", ":3:1\nc\n^"),
    ("data t: refused 702 at 1", b"\xef\xbb\xbfid,g\n1,a\n", ":2:1\n1,a\n^^^"),
    ("data t: refused 703 at 2", b'id,g\r\n1,"a\r\n,""b"\r\n\r\n,c\r\n', ":5:1\n,c\n^^"),
    ("data a b: refused 704 at 1", b'id,g\n1,a"b\n', ":2:1\n1,a\"b\n^^^^^"),
]
# Lines of which nothing can be shown: the status is 1.
NOTHING = [
    ("query: refused 402", b"SELECT id FROM t"),
    ("query: refused 201 at 9", b"SELECT id FROM t"),
    ("data t: refused 702 at 3", b"id\n1\n"),
    ("certificate: refused 507 at 2", b'{"nodes":[],"version":1}'),
    ("certificate: refused 507 at 2", b"no JSON"),
    ("run: refused 802", b"SELECT 1 FROM t"),
    ("cannot read query.sql", b""),
]
TRICKY = [
    b"SELECT 1 FROM t",
    b"SELECT '--' FROM t -- '\n",
    b"SELECT '/*' FROM t /* ' \" /* */ /**/*/",
    b"SELECT 'a''b', '' AS \"a\"\"b\" FROM t",
    b"SELECT - - 1, 1*-1, 1!=2, 1<>2, 1<=2, 1>=2, 1<2, (((1)))FROM t",
    b"\xef\xbb\xbfSELECT\t1\x0cAS a$b\r\nFROM\nt",
    b"SELECT t.*, t . id FROM t,t AS u",
    b"SELECT '\xc3\xa9' AS \"\xc3\xa9\" FROM t",
]
SCHEMA = b"CREATE TABLE t (id BIGINT PRIMARY KEY)"


def shown(line, text):
    """What is shown, without the file's name, and the status."""
    with tempfile.NamedTemporaryFile() as file:
        file.write(text)
        file.flush()
        ran = subprocess.run([sys.executable, f"{TOP}/tools/place.py", line, file.name], capture_output=True, text=True)
        again = subprocess.run([sys.executable, f"{TOP}/tools/place.py", file.name], input=f"UNKNOWN\n{line}\n", capture_output=True, text=True)
        if (ran.stdout, ran.returncode) != (again.stdout, again.returncode):
            return f"a line from standard input gives {again.stdout!r}", again.returncode
        return ran.stdout.removeprefix(file.name), ran.returncode


def count_by_program(program, schema, query):
    """How many tokens the program counts in a query that it reads."""
    with tempfile.TemporaryDirectory() as folder:
        for name, text in (("schema.sql", schema), ("query.sql", query + b"\n;;")):
            with open(f"{folder}/{name}", "wb") as file:
                file.write(text)
        ran = subprocess.run([program, "check", f"{folder}/schema.sql", f"{folder}/query.sql"], stdin=subprocess.DEVNULL, capture_output=True, text=True)
        found = re.fullmatch(r"query: refused 201 at (\d+)\n", ran.stderr)
        return int(found[1]) - 1 if found else None


def contents(path):
    with open(path, "rb") as file:
        return file.read()


def queries():
    """The queries that are counted: a name, and the texts of the schema and the query."""
    for query in sorted(glob.glob(f"{TOP}/examples/*/query.sql")):
        if not os.path.exists(f"{os.path.dirname(query)}/refusal.txt"):
            yield os.path.relpath(query, TOP), contents(f"{os.path.dirname(query)}/schema.sql"), contents(query)
    for query in sorted(glob.glob(f"{TOP}/tests/frames/*.sql")):
        if not query.endswith("schema.sql"):
            yield os.path.relpath(query, TOP), contents(f"{TOP}/tests/frames/schema.sql"), contents(query)
    for text in TRICKY:
        yield repr(text), SCHEMA, text


def trials(program):
    """What is tried, and what is wrong with it."""
    for line, text, wanted in SHOWN:
        found = shown(line, text)
        yield f"{line}, {text!r}", None if found == (f"{wanted}\n", 0) else repr(found)
    for line, text in NOTHING:
        found = shown(line, text)
        yield f"{line}, {text!r}", None if found == ("", 1) else repr(found)
    for name, schema, query in queries():
        counted, found = count_by_program(program, schema, query), len(place.tokens(query))
        yield name, None if counted == found else f"the program counts {counted} tokens, place.py {found}"


def main():
    program, passed, failed = os.path.abspath(sys.argv[1]), 0, 0
    for name, wrong in trials(program):
        passed, failed = passed + (not wrong), failed + bool(wrong)
        if wrong:
            print(f"FAIL {name}: {wrong}")
    print(f"{passed} passed, {failed} failed")
    return 1 if failed else 0


if __name__ == "__main__":
    sys.exit(main())
