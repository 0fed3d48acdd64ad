#!/usr/bin/env python3
"""Times how long the program takes to search for a witness that is not there, and to judge large witnesses.

    python3 bench/witness.py [PROGRAM]
    python3 bench/witness.py --write FOLDER

First come the searches, by `check`: eight tables joined to all their pairs of rows, 65,536 where each has four rows. A limit that
takes nothing stands on top, so that no two outcomes differ and the search goes on to its end. In the first the limit alone is
open, which is 18 evaluations; in the second there are calls enough for 2,000, a third of them over four rows in each table, and all
of one window; in the third each has a column of its own to sort by, and no call's value is shown in place of that limit; so in the
last two, with some 400 bytes: of seven tables below eight calls, each with an order of its own, and of seven tables of 51 columns that
are joined to a table which is numbered four ways. The three between them show the greatest value of each call, so no simpler plan has
one answer by the rules: one of the third's calls, one, of some 200 bytes, of two calls over eleven tables, 4,194,304 rows, and that one
under a condition of 200 operators. Then come the witnesses, by `refute`: three tables of 64 rows, joined to 262,144 rows, in which two
rows differ, and four, the fourth of 38 rows, joined to 9,961,472, near the most that a step may have. Of these the last
choices are 170 MB of text; in the others, of 3 and 4 KB, the rows of one table are numbered before they are joined, and the answer
has 5 and 17 columns. Prints the seconds and the most memory of one run each.
PROGRAM is the built program (default: crates/wdcheck/out/wdcheck, which ./wdcheck builds). With --write the texts are written to
a folder in place of that.
"""

import json
import os
import sys
import tempfile

import verify

JOINED, CALLS, ROWS, LAST_ROWS = "abcdefgh", 110, 64, 38
SCHEMA = "CREATE TABLE t (id BIGINT PRIMARY KEY, v BIGINT);\n"


def search_texts(calls):
    """A query with two answers but for its limit, and as many calls that are open."""
    tables = ", ".join("t AS %s" % name for name in JOINED)
    items = "".join(", NTILE(%d) OVER (ORDER BY a.v)" % (n + 1) for n in range(calls))
    return {"schema.sql": SCHEMA, "query.sql": "SELECT a.id%s FROM %s ORDER BY a.v LIMIT 0\n" % (items, tables)}


def columns_texts(calls):
    """A query with calls, each sorted by a column of its own, whose values are not shown."""
    columns = "".join(", v%d BIGINT" % n for n in range(calls))
    items = "".join(", ROW_NUMBER() OVER (ORDER BY a.v%d) AS n%d" % (n, n) for n in range(calls))
    inner = "SELECT a.id%s FROM %s" % (items, ", ".join("t AS %s" % name for name in JOINED))
    return {"schema.sql": "CREATE TABLE t (id BIGINT PRIMARY KEY%s);\n" % columns, "query.sql": "SELECT s.id FROM (%s) AS s\n" % inner}


def greatest_texts(calls):
    """The same, of which the greatest values are shown: whatever rows tie they are the same, but by the rules only those of one class."""
    texts = columns_texts(calls)
    inner = texts["query.sql"].removeprefix("SELECT s.id FROM ")
    greatest = ", ".join("MAX(s.n%d)" % n for n in range(calls))
    return {"schema.sql": texts["schema.sql"], "query.sql": "SELECT %s FROM %s" % (greatest, inner)}


def eleven_texts():
    """The same of two calls over eleven tables, four of which are joined in a derived table."""
    fours = "(SELECT a.v FROM %s) AS x" % ", ".join("t AS %s" % name for name in JOINED[:4])
    others = ", ".join("t AS %s" % name for name in JOINED[4:] + "ijk")
    calls = "ROW_NUMBER() OVER (ORDER BY x.v) AS n, ROW_NUMBER() OVER (ORDER BY e.v) AS o"
    return {"schema.sql": SCHEMA, "query.sql": "SELECT MAX(s.n), MAX(s.o) FROM (SELECT %s FROM %s, %s) AS s\n" % (calls, fours, others)}


def condition_texts(operators):
    """The same, of the rows that meet a condition of so many operators, in chains of 200; nearly all of them do."""
    texts = eleven_texts()
    ids = ["%s.id" % name for name in JOINED[4:] + "ijk"]
    chains = ["(%s)" % " - ".join(ids[(first + n) % len(ids)] for n in range(201)) for first in range(operators // 200)]
    condition = " WHERE %s < 9) AS s\n" % " + ".join(chains)
    return {"schema.sql": texts["schema.sql"], "query.sql": texts["query.sql"].replace(") AS s\n", condition)}


def unused_texts():
    """A query with calls, some sorted by a column of one table and one by two, whose values are not shown."""
    names = JOINED[:7]
    orders = ["%s.v" % name for name in names] + ["a.v, b.v"]
    items = "".join(", ROW_NUMBER() OVER (ORDER BY %s) AS n%d" % (order, n) for n, order in enumerate(orders))
    inner = "SELECT a.id%s FROM %s" % (items, ", ".join("t AS %s" % name for name in names))
    return {"schema.sql": SCHEMA, "query.sql": "SELECT s.id FROM (%s) AS s\n" % inner}


def wide_texts(columns):
    """A query of one column of a table that is numbered four ways, joined to seven more tables with so many columns."""
    numbers = "".join(", ROW_NUMBER() OVER (ORDER BY v%d) AS n%d" % (n, n) for n in range(4))
    others = ", ".join("t AS %s" % name for name in JOINED[1:])
    whole = ", ".join(["id BIGINT PRIMARY KEY"] + ["v%d BIGINT" % n for n in range(columns - 1)])
    return {"schema.sql": "CREATE TABLE t (%s);\n" % whole, "query.sql": "SELECT s.id FROM (SELECT id%s FROM t) AS s, %s\n" % (numbers, others)}


def witness_texts(sizes):
    """A query over all pairs of rows, and a witness whose choices swap two rows that tie."""
    names = ["t%d" % n for n in range(len(sizes))]
    schema = "".join("CREATE TABLE %s (id BIGINT PRIMARY KEY);\n" % name for name in names)
    query = "SELECT %s, ROW_NUMBER() OVER () FROM %s\n" % (", ".join(name + ".id" for name in names), ", ".join(names))
    rows = 1
    for size in sizes:
        rows *= size
    first = list(range(rows))
    second = [1, 0] + first[2:]
    tables = {name: [[n] for n in range(size)] for name, size in zip(names, sizes)}
    return {"schema.sql": schema, "query.sql": query, "witness.json": json.dumps({"first": [first], "second": [second], "tables": tables}, separators=(",", ":"))}


def numbered_texts(sizes, columns):
    """The same over tables with so many columns, where the rows of the first are numbered before they are joined: few bytes of choices."""
    names = ["t%d" % n for n in range(len(sizes))]
    own = ["id"] + ["v%d" % n for n in range(1, columns)]
    whole = ", ".join(["id BIGINT PRIMARY KEY"] + ["%s BIGINT" % it for it in own[1:]])
    schema = "".join("CREATE TABLE %s (%s);\n" % (name, whole) for name in names)
    items = ["a.n"] + ["%s.%s" % (table, it) for table in ["a"] + names[1:] for it in own]
    numbered = "(SELECT %s, ROW_NUMBER() OVER (ORDER BY 0 * id) AS n FROM t0) AS a" % ", ".join(own)
    query = "SELECT %s FROM %s\n" % (", ".join(items), ", ".join([numbered] + names[1:]))
    first = list(range(sizes[0]))
    second = [1, 0] + first[2:]
    tables = {name: [[n] + [n % 3] * (columns - 1) for n in range(size)] for name, size in zip(names, sizes)}
    return {"schema.sql": schema, "query.sql": query, "witness.json": json.dumps({"first": [first], "second": [second], "tables": tables}, separators=(",", ":"))}


def all_texts():
    """What is run: a title, the command, the statuses allowed, and the texts."""
    yield "18 evaluations", "check", (2,), search_texts(0)
    yield "2,000 evaluations", "check", (2,), search_texts(CALLS)
    yield "2,000 evaluations, a column for each call", "check", (2,), columns_texts(CALLS)
    yield "2,000 evaluations, the greatest value of each call", "check", (2,), greatest_texts(CALLS)
    yield "the greatest values of two calls over eleven tables", "check", (2,), eleven_texts()
    yield "the same, of the rows that meet a condition of 200 operators", "check", (2,), condition_texts(200)
    yield "calls not shown", "check", (2,), unused_texts()
    yield "calls not shown, joined to 51 columns", "check", (2,), wide_texts(51)
    yield "262,144 rows", "refute", (1,), witness_texts([ROWS] * 3)
    yield "9,961,472 rows", "refute", (1,), witness_texts([ROWS] * 3 + [LAST_ROWS])
    yield "9,961,472 rows of 5 columns", "refute", (1,), numbered_texts([ROWS] * 3 + [LAST_ROWS], 1)
    yield "9,961,472 rows of 17 columns", "refute", (1,), numbered_texts([ROWS] * 3 + [LAST_ROWS], 4)


def write(folder, texts):
    """Writes the texts, and returns their paths in the order of the words."""
    for name, text in texts.items():
        with open(os.path.join(folder, name), "w", encoding="utf-8") as file:
            file.write(text)
    return [os.path.join(folder, name) for name in texts]


def main():
    if sys.argv[1:2] == ["--write"]:
        for number, (_, _, _, texts) in enumerate(all_texts()):
            write(sys.argv[2], {"%d.%s" % (number, name): text for name, text in texts.items()})
        return
    program = verify.program_of(sys.argv[1:])
    with tempfile.TemporaryDirectory() as folder:
        for title, command, allowed, texts in all_texts():
            seconds, memory = verify.measure([program, command, *write(folder, texts)], allowed)
            print("%-20s %8.2f s, %5.0f MB at most" % (title, seconds, memory), flush=True)


if __name__ == "__main__":
    main()
