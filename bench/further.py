#!/usr/bin/env python3
"""Times the further search over texts that make it dear.

    python3 bench/further.py [WDREPORT [WDCHECK]]

The programs are the built ones (default: those below crates/). Each text is a schema and a query whose verdict stays open. Prints the
processor seconds of `wdcheck check`, those of `wdreport`, which searches so too and then further, and the difference.
"""

import os
import resource
import subprocess
import sys
import tempfile

TOP = os.path.dirname(os.path.dirname(os.path.abspath(__file__)))
NEVER = "a.c0 * 7 + 3 = 24000000000001"


def table(name, columns, kind, keys):
    return f"CREATE TABLE {name} ({', '.join(f'c{i} {kind}' for i in range(columns))}, {', '.join(f'UNIQUE (c{i})' for i in range(keys))});\n"


def numbered(tables, condition):
    return f"SELECT a.c100, ROW_NUMBER() OVER (ORDER BY a.c200) AS n FROM {tables} WHERE {condition}"


WIDE = table("t", 250, "BIGINT NOT NULL", 60)
MANY = "".join(table(f"t{k}", 250, "TEXT", 1) for k in range(16))
SEVEN = " ".join(f"JOIN (SELECT c{k} FROM t{k}) {chr(97 + k)} ON a.c{k} = {chr(97 + k)}.c{k}" for k in range(1, 8))
TEXTS = {
    "60 keys": (WIDE, numbered("t a", NEVER)),
    "60 keys, 62 sizes": (WIDE, numbered("t a", " AND ".join(f"a.c{60 + i} <> {2 * i + 3}" for i in range(62)) + f" AND {NEVER}")),
    "4 tables": (WIDE, numbered("t a JOIN t b ON a.c1 = b.c2 JOIN t c ON b.c3 = c.c4 JOIN t d ON d.c5 = c.c6", NEVER)),
    "8 tables of texts, 62 literals": (MANY, numbered(f"t0 a {SEVEN}", " AND ".join(f"a.c{i} <> 'x{i}'" for i in range(62)) + " AND a.c0 > 'zzzz' AND a.c0 < 'a'")),
    "2 tables of texts, 62 sizes": (
        "".join(table(f"t{k}", 250, "TEXT NOT NULL", 1) for k in range(2)).replace("c249 TEXT", "c249 BIGINT"),
        numbered("t0 a JOIN t1 b ON a.c1 = b.c2", " AND ".join(f"a.c249 <> {2 * i + 3}" for i in range(62)) + " AND a.c3 > 'zzzz' AND a.c3 < 'a'"),
    ),
    "2,400 comparisons": (
        table("t", 250, "BIGINT", 0).replace(", )", ")"),
        numbered("t a", " AND ".join("(" + " AND ".join(f"a.c{i % 250} <> {-7 - 150 * k - i}" for i in range(150)) + ")" for k in range(16)) + f" AND {NEVER}"),
    ),
    "64 grouping sets": (
        WIDE,
        f"SELECT c100, ROW_NUMBER() OVER (ORDER BY c101) AS n FROM t a WHERE {NEVER} GROUP BY CUBE (c100, c101, c102, c103, c104, c105)",
    ),
    "31 levels": (
        WIDE,
        "SELECT c1, ROW_NUMBER() OVER (ORDER BY c2) AS n FROM " + "(SELECT * FROM " * 30 + f"t a WHERE {NEVER}" + "".join(f") AS d{i}" for i in range(30)),
    ),
    "110 calls": (WIDE, f"SELECT c0, {', '.join(f'ROW_NUMBER() OVER (ORDER BY c{i}) AS n{i}' for i in range(60, 170))} FROM t a WHERE {NEVER}"),
}


def seconds(words, folder):
    before = resource.getrusage(resource.RUSAGE_CHILDREN)
    ran = subprocess.run(words, cwd=folder, capture_output=True)
    after = resource.getrusage(resource.RUSAGE_CHILDREN)
    return after.ru_utime + after.ru_stime - before.ru_utime - before.ru_stime, ran.returncode


def main():
    programs = [os.path.abspath(it) for it in sys.argv[1:]]
    report = programs[0] if programs else f"{TOP}/crates/wdreport/out/wdreport"
    check = programs[1] if len(programs) > 1 else f"{TOP}/crates/wdcheck/out/wdcheck"
    for name, (schema, query) in TEXTS.items():
        with tempfile.TemporaryDirectory() as folder:
            for path, text in (("schema.sql", schema), ("q.sql", query)):
                with open(f"{folder}/{path}", "w", encoding="utf-8") as file:
                    file.write(text)
            own, status = seconds([check, "check", "schema.sql", "q.sql"], folder)
            whole, ended = seconds([report, "q.sql"], folder)
            print(f"{name}: {own:.2f} s (status {status}), {whole:.2f} s (status {ended}), further {whole - own:.2f} s")


main()
