#!/usr/bin/env python3
"""Runs queries with random frames over random tables and compares each answer with the members of each row's frame.

    python3 tests/random_frames.py PROGRAM [--seed N] [--queries N] [--postgres DATABASE]

The values are computed here in the plainest way, as the standard and PostgreSQL's manual tell them: every row of the partition is
asked whether it lies between the bounds of the frame and whether it is excluded, and the function looks at the rows that are left.
A query has one window, of any mode, bounds, exclusion, direction and place of NULLs, and all functions that read a frame. In ROWS
the window's last key is the row's number, so that no rows tie; else FIRST_VALUE, LAST_VALUE and NTH_VALUE show the sort key, which
rows that tie share. --postgres asks that database too (by psql), which shows that this page tells the rules as it does. The last
line is 'N passed, M failed'.
"""

import argparse
import csv
import io
import os
import random
import subprocess
import sys
import tempfile
from collections import namedtuple

SCHEMA = "CREATE TABLE t (id BIGINT PRIMARY KEY, g TEXT NOT NULL, k BIGINT, v BIGINT);\n"
Row = namedtuple("Row", "id g k v")
Bound = namedtuple("Bound", "word offset")
Frame = namedtuple("Frame", "mode start end exclusion")
Order = namedtuple("Order", "descending nulls_first")

# The bounds from the first row to the last: a frame may not end at an earlier one than it starts.
WORDS = ["UNBOUNDED PRECEDING", "PRECEDING", "CURRENT ROW", "FOLLOWING", "UNBOUNDED FOLLOWING"]
EXCLUSIONS = ["NO OTHERS", "CURRENT ROW", "GROUP", "TIES"]


def random_bound(draw, words):
    word = draw.choice(words)
    return Bound(word, draw.choice([0, 1, 1, 2, 3, 7]) if word in ("PRECEDING", "FOLLOWING") else None)


def random_frame(draw):
    start = random_bound(draw, WORDS[:-1])
    least = WORDS.index(start.word)
    return Frame(draw.choice(["ROWS", "RANGE", "GROUPS"]), start, random_bound(draw, WORDS[max(least, 1):]), draw.choice(EXCLUSIONS))


def random_rows(draw):
    key = draw.choice([2, 5, 12])
    value = lambda least, most: None if draw.random() < 0.2 else draw.randint(least, most)
    return [Row(number, draw.choice("ab"), value(-key, key), value(-9, 9)) for number in range(1, draw.choice([0, 1, 6, 12, 20]) + 1)]


def bound_text(bound):
    return bound.word if bound.offset is None else f"{bound.offset} {bound.word}"


def query_text(frame, order):
    key = f"k {'DESC' if order.descending else 'ASC'} NULLS {'FIRST' if order.nulls_first else 'LAST'}"
    keys = f"{key}, id" if frame.mode == "ROWS" else key
    shown = "v" if frame.mode == "ROWS" else "k"
    return (f"SELECT id, COUNT(*) OVER w AS a, COUNT(v) OVER w AS b, SUM(v) OVER w AS c, MIN(v) OVER w AS d, MAX(v) OVER w AS e,\n"
            f"       FIRST_VALUE({shown}) OVER w AS f, LAST_VALUE({shown}) OVER w AS h, NTH_VALUE({shown}, 2) OVER w AS i\n"
            f"FROM t\n"
            f"WINDOW w AS (PARTITION BY g ORDER BY {keys} {frame.mode} BETWEEN {bound_text(frame.start)} AND {bound_text(frame.end)} "
            f"EXCLUDE {frame.exclusion})\n")


def sorted_partition(rows, frame, order):
    """The rows of a partition in the window's order, each with its group's number; in ROWS no two rows are of one group."""
    def place(row):
        is_null = row.k is None
        key = 0 if is_null else -row.k if order.descending else row.k
        return (is_null != order.nulls_first, key, row.id if frame.mode == "ROWS" else 0)

    ordered = sorted(rows, key=place)
    groups = sorted({place(row) for row in ordered})
    return [(row, groups.index(place(row))) for row in ordered]


def steps(bound):
    """How far a bound lies behind the row itself: below 0 where it precedes it."""
    return {"PRECEDING": -(bound.offset or 0), "CURRENT ROW": 0, "FOLLOWING": bound.offset or 0}[bound.word]


def is_past(bound, other, row, partition, frame, order, is_start):
    """Whether the other place lies on the far side of the bound of the row's frame: before its start, or behind its end."""
    if bound.word.startswith("UNBOUNDED"):
        return False
    sign = 1 if is_start else -1
    if frame.mode == "ROWS":
        return sign * (other - (row + steps(bound))) < 0
    (one, one_group), (at, at_group) = partition[other], partition[row]
    if frame.mode == "GROUPS":
        return sign * (one_group - (at_group + steps(bound))) < 0
    # RANGE: rows that tie with the row lie within; NULL is at no distance from any other key, so that only the order tells.
    if bound.word == "CURRENT ROW" or one.k is None or at.k is None:
        return sign * (one_group - at_group) < 0
    distance = at.k - one.k if order.descending else one.k - at.k
    return sign * (distance - steps(bound)) < 0


def is_excluded(other, row, partition, exclusion):
    ties = partition[other][1] == partition[row][1]
    return {"NO OTHERS": False, "CURRENT ROW": other == row, "GROUP": ties, "TIES": ties and other != row}[exclusion]


def members(row, partition, frame, order):
    return [partition[other][0] for other in range(len(partition))
            if not is_past(frame.start, other, row, partition, frame, order, True)
            and not is_past(frame.end, other, row, partition, frame, order, False)
            and not is_excluded(other, row, partition, frame.exclusion)]


def values(row, partition, frame, order):
    inside = members(row, partition, frame, order)
    known = [it.v for it in inside if it.v is not None]
    shown = [it.v if frame.mode == "ROWS" else it.k for it in inside]
    return [partition[row][0].id, len(inside), len(known), sum(known) if known else None, min(known, default=None), max(known, default=None),
            shown[0] if shown else None, shown[-1] if shown else None, shown[1] if len(shown) > 1 else None]


def expected(rows, frame, order):
    answer = []
    for name in sorted({row.g for row in rows}):
        partition = sorted_partition([row for row in rows if row.g == name], frame, order)
        answer += [values(row, partition, frame, order) for row in range(len(partition))]
    return as_texts(answer)


def as_texts(answer):
    return sorted(["" if it is None else str(it) for it in row] for row in answer)


def csv_text(rows):
    text = io.StringIO()
    csv.writer(text, lineterminator="\n").writerows([Row._fields, *rows])
    return text.getvalue()


def by_program(program, folder, rows, query):
    for name, text in (("schema.sql", SCHEMA), ("query.sql", query), ("t.csv", csv_text(rows))):
        with open(f"{folder}/{name}", "w", encoding="utf-8") as file:
            file.write(text)
    words = [program, "run", f"{folder}/schema.sql", f"{folder}/query.sql", f"t={folder}/t.csv"]
    ran = subprocess.run(words, stdin=subprocess.DEVNULL, capture_output=True, text=True, timeout=60)
    if ran.returncode or ran.stderr:
        return f"status {ran.returncode}, {ran.stderr.strip()}"
    return sorted(list(csv.reader(io.StringIO(ran.stdout)))[1:])


def by_postgres(database, rows, query):
    filled = "".join(f"INSERT INTO t VALUES ({', '.join('NULL' if it is None else repr(it) for it in row)});\n" for row in rows)
    text = SCHEMA.replace("CREATE TABLE", "CREATE TEMPORARY TABLE") + filled + query
    ran = subprocess.run(["psql", "-qXAt", "-F", ",", "-v", "ON_ERROR_STOP=1", database], input=text, capture_output=True, text=True, timeout=60)
    return f"psql: {ran.stderr.strip()}" if ran.returncode else sorted(list(csv.reader(io.StringIO(ran.stdout))))


def main():
    parser = argparse.ArgumentParser(description=__doc__.splitlines()[0])
    parser.add_argument("program")
    parser.add_argument("--seed", type=int, default=1)
    parser.add_argument("--queries", type=int, default=400)
    parser.add_argument("--postgres", metavar="DATABASE")
    given = parser.parse_args()
    draw, passed = random.Random(given.seed), 0
    with tempfile.TemporaryDirectory() as folder:
        for _ in range(given.queries):
            frame, order, rows = random_frame(draw), Order(draw.random() < 0.5, draw.random() < 0.5), random_rows(draw)
            query, wanted = query_text(frame, order), expected(rows, frame, order)
            answers = [by_program(os.path.abspath(given.program), folder, rows, query)]
            answers += [by_postgres(given.postgres, rows, query)] if given.postgres else []
            passed += all(answer == wanted for answer in answers)
            if any(answer != wanted for answer in answers):
                print(f"{query}over\n{csv_text(rows)}gives {answers} and not {wanted}")
    print(f"{passed} passed, {given.queries - passed} failed")
    return 0 if passed == given.queries else 1


if __name__ == "__main__":
    sys.exit(main())
