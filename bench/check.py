#!/usr/bin/env python3
"""Times how long the program takes to find its verdict on queries.

    python3 bench/check.py [PROGRAM]
    python3 bench/check.py --write FOLDER

First come the queries of tests/cases and one of about 1 KB, of which the slowest is named: the aim is 10 ms for each, from the
program's start to its end. Then come the largest lawful plans, for which the aim is a second: four tables of 256 columns,
joined to rows of 1,024 columns, under 31 selects over one another. In the first each table has 64 keys, so that each node keeps
64 facts; in the second no table has a key, so that each column of each node is tried and nothing is kept; in the third each
select numbers the rows by the tables' keys. Prints the least seconds and the most memory of three runs. PROGRAM is the built
program (default: crates/wdcheck/out/wdcheck, which ./wdcheck builds). With --write the texts of the large ones are written to a
folder in place of that.
"""

import json
import os
import sys
import tempfile

import verify

TOP = verify.TOP
SELECTS = 31
ONE_KILOBYTE = """\
-- The three dearest orders of each customer and month, with the customer's share and the gap to the order before.
SELECT s.customer, s.month, s.place, s.cents, s.so_far, s.share, s.gap, s.last_of_month
FROM (
    SELECT o.customer, o.month, o.cents, c.name,
           ROW_NUMBER() OVER by_price AS place,
           SUM(o.cents) OVER (PARTITION BY o.customer ORDER BY o.month) AS so_far,
           o.cents * 1000 / SUM(o.cents) OVER (PARTITION BY o.customer, o.month) AS share,
           o.cents - LAG(o.cents, 1, 0) OVER by_day AS gap,
           RANK() OVER (PARTITION BY o.month ORDER BY o.cents DESC NULLS LAST) AS rank_of_month,
           LAST_VALUE(o.id) OVER (PARTITION BY o.month ORDER BY o.id RANGE BETWEEN UNBOUNDED PRECEDING AND UNBOUNDED FOLLOWING) AS last_of_month
    FROM orders AS o JOIN customers AS c ON o.customer = c.id
    WHERE o.cents IS NOT NULL AND c.name <> 'guest'
    WINDOW by_price AS (PARTITION BY o.customer, o.month ORDER BY o.cents DESC NULLS LAST, o.id), by_day AS (PARTITION BY o.customer ORDER BY o.id)
) AS s
WHERE s.place <= 3
ORDER BY s.customer, s.month, s.place
"""
ORDERS = """\
CREATE TABLE customers (id BIGINT PRIMARY KEY, name TEXT NOT NULL UNIQUE);
CREATE TABLE orders (id BIGINT PRIMARY KEY, customer BIGINT NOT NULL, month INTEGER NOT NULL, cents BIGINT);
"""


def measure_texts(program, folder, schema, query):
    """The least seconds and the most memory over these texts."""
    words = [program, "check"]
    for name, text in (("schema.sql", schema), ("query.sql", query)):
        words.append(os.path.join(folder, name))
        with open(words[-1], "w", encoding="utf-8") as file:
            file.write(text)
    runs = [verify.measure(words, (0, 1, 2, 3)) for _ in range(verify.TURNS)]
    return min(run[0] for run in runs), max(run[1] for run in runs)


def measure_cases(program, folder):
    """Measures the cases and prints the slowest."""
    with open(os.path.join(TOP, "tests/cases/cases.json"), encoding="utf-8") as file:
        cases = [case for case in json.load(file) if case["command"] == "check" and isinstance(case.get("query"), str) and isinstance(case.get("schema"), str)]
    times = [(*measure_texts(program, folder, ORDERS, ONE_KILOBYTE), "%d bytes" % len(ONE_KILOBYTE))]
    for case in cases:
        times.append((*measure_texts(program, folder, case["schema"], case["query"]), case["name"]))
    seconds, _, name = max(times)
    print("%d queries: at most %.1f ms (%s); %d bytes: %.1f ms" % (len(times), 1000 * seconds, name, len(ONE_KILOBYTE), 1000 * times[0][0]))


def table_text(name, columns, keys):
    """A table whose first columns are keys, each by itself."""
    names = ("%s%d BIGINT NOT NULL%s" % (name, n, " UNIQUE" if n < keys else "") for n in range(columns))
    return "CREATE TABLE %s (%s)" % (name, ", ".join(names))


def schema_text(columns, keys):
    return ";\n".join(table_text(name, columns, keys) for name in verify.TABLES) + ";\n"


def query_text(call):
    """Selects over one another, each of all columns and of a call where there is one, the lowest over all pairs of rows."""
    text = "SELECT *%s FROM %s" % (call and call % 0, ", ".join(verify.TABLES))
    for n in range(1, SELECTS):
        text = "SELECT *%s FROM (%s) AS s%d" % (call and call % n, text, n)
    return text + "\n"


def large_texts():
    """The large ones: a title, and the texts of schema and query."""
    yield "64 kept facts a node", schema_text(verify.COLUMNS, verify.KEYS), query_text("")
    yield "no keys", schema_text(verify.COLUMNS, 0), query_text("")
    yield "a window a select", schema_text(verify.COLUMNS - 8, 1), query_text(", ROW_NUMBER() OVER (ORDER BY a0, b0, c0, d0) AS n%d")


def main():
    if sys.argv[1:2] == ["--write"]:
        for number, (_, schema, query) in enumerate(large_texts()):
            for name, text in (("schema.sql", schema), ("query.sql", query)):
                with open(os.path.join(sys.argv[2], "%d.%s" % (number, name)), "w", encoding="utf-8") as file:
                    file.write(text)
        return
    program = verify.program_of(sys.argv[1:])
    with tempfile.TemporaryDirectory() as folder:
        measure_cases(program, folder)
        for title, schema, query in large_texts():
            seconds, memory = measure_texts(program, folder, schema, query)
            print("%-24s %6.3f s, %4.0f MB at most" % (title, seconds, memory))


if __name__ == "__main__":
    main()
