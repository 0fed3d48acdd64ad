#!/usr/bin/env python3
"""Tries the deepest texts of each place under a stack of 2 MB.

    python3 tests/deepest.py PROGRAM

An expression nests CASE as deeply as the limits of a query allow: by its conditions, in each of which three chains of 200 operators
stand over the CASE within it, or as a right operand below every other kind of operator; or it is one CASE of as many branches as
fit. Over a row whose c is true each of them is 1, and NULL over another: so the verdict of a query with one in some place is known,
and its answer over two rows. `check`, `explain`, `run`, and `verify` or `refute` of what `check` prints must give them. Last, `check`
and `run` of a query of 12,800 operators must give their answer or end for want of memory, from the least limit on the address space
under which the program starts up to 32 MB. The last line is 'N passed, M failed'.
"""

import os
import resource
import subprocess
import sys
import tempfile

STACK = 2 << 20
OPERATORS = 200
BRANCHES = 4000
SCHEMA = "CREATE TABLE t (a BIGINT PRIMARY KEY, c BOOLEAN NOT NULL);\n"
DATA = "a,c\n1,t\n2,f\n"
COMMANDS = {"0": ("DETERMINISTIC", "verify", "ACCEPTED"), "1": ("DEPENDS", "refute", "REFUTED")}


def by_chains(first, condition, levels):
    """Each condition is three chains over the CASE within it."""
    text = first
    for _ in range(levels):
        text = f"case when {text}{'*1' * OPERATORS}{'+1' * OPERATORS} = 1{f' or {condition}' * OPERATORS} then 1 end"
    return text


def by_right_operands(first, condition, levels):
    """Each CASE is the last operand of its condition, below five operators."""
    text = first
    for _ in range(levels):
        text = f"case when {condition} or {condition} and 1 = 1 + 1 * {text} then 1 end"
    return text


def by_branches(first, condition, levels):
    """One CASE, of which no branch but those of the condition is taken."""
    return f"case{f' when {condition} then 1' * BRANCHES} when {first} = 0 then 1 end"


SHAPES = {"chains": by_chains, "right operands": by_right_operands, "branches": by_branches}


def texts(shape):
    """For each place its query, the exit status of its `check`, and its answer."""
    whole, within, counted = shape("a", "c", 31), shape("a", "c", 30), shape("count(*)", "c", 30)
    return {
        "WHERE": (f"SELECT a FROM t WHERE {whole} = 1", 0, "a\n1\n"),
        "WHERE below an open call": (f"SELECT a, ROW_NUMBER() OVER (ORDER BY c) AS q FROM t WHERE {whole} IS NULL", 1, "a,q\n2,1\n"),
        "ON": (f"SELECT t.a, b FROM t JOIN (SELECT a AS b FROM t) AS s ON {whole} = 1", 0, "a,b\n1,1\n1,2\n"),
        "SELECT": (f"SELECT a, {whole} AS q FROM t", 0, "a,q\n1,1\n2,\n"),
        "SELECT over a join": (f"SELECT b, {whole} AS q FROM t, (SELECT a AS b FROM t) AS s", 0, "b,q\n1,1\n2,1\n1,\n2,\n"),
        "SELECT over a join on a condition": (f"SELECT b, {whole} AS q FROM t JOIN (SELECT a AS b FROM t) AS s ON a = b", 0, "b,q\n1,1\n2,\n"),
        "SELECT over a join, beside an open call": (f"SELECT a, ROW_NUMBER() OVER (ORDER BY b) AS n, {whole} AS q FROM t, (SELECT a AS b FROM t) AS s", 1, "a,n,q\n1,1,1\n1,3,1\n2,2,\n2,4,\n"),
        "ORDER BY": (f"SELECT a FROM t ORDER BY {whole} FETCH FIRST 1 ROW ONLY", 1, "a\n1\n"),
        "argument of a window call": (f"SELECT SUM({within}) OVER (ORDER BY a) AS q FROM t", 0, "q\n1\n1\n"),
        "PARTITION BY": (f"SELECT a, COUNT(*) OVER (PARTITION BY {within}) AS q FROM t", 0, "a,q\n1,1\n2,1\n"),
        "ORDER BY of a window": (f"SELECT a, RANK() OVER (ORDER BY {within}) AS q FROM t", 0, "a,q\n1,1\n2,2\n"),
        "WINDOW": (f"SELECT a, RANK() OVER w AS q FROM t WINDOW w AS (ORDER BY {within})", 0, "a,q\n1,1\n2,2\n"),
        "derived table": (f"SELECT q FROM (SELECT {within} AS q FROM t) AS s WHERE q = 1", 0, "q\n1\n"),
        "argument of an aggregate": (f"SELECT SUM({within}) AS q FROM t", 0, "q\n1\n"),
        "HAVING": (f"SELECT c, COUNT(*) AS q FROM t GROUP BY c HAVING {counted} = 1", 0, "c,q\ntrue,1\n"),
    }


def ran(words, folder, limit=resource.RLIMIT_STACK, most=STACK):
    """What the program prints under a limit, and its status."""
    def narrow():
        resource.setrlimit(limit, (most, most))

    ended = subprocess.run(words, cwd=folder, stdin=subprocess.DEVNULL, capture_output=True, preexec_fn=narrow, check=False, timeout=300)
    return ended.stdout.decode(), ended.returncode


def complaints(program, folder, status, answer):
    """What is wrong with each of the commands over the folder's query, or None for one with which nothing is."""
    verdict, judge, judged = COMMANDS[str(status)]
    texts = ["schema.sql", "query.sql"]
    printed, ended = ran([program, "check", *texts], folder)
    word, _, rest = printed.partition("\n")
    yield None if (word, ended) == (verdict, status) else f"check ended with {ended} and printed {word!r}"
    with open(f"{folder}/second.json", "w", encoding="utf-8") as file:
        file.write(rest)
    said, ended = ran([program, judge, *texts, "second.json"], folder)
    yield None if said == f"{judged}\n" and ended == status else f"{judge} ended with {ended} and printed {said[:200]!r}"
    said, ended = ran([program, "explain", *texts], folder)
    yield None if said.endswith(f"{verdict}\n") and ended == status else f"explain ended with {ended} and printed {said[-200:]!r}"
    said, ended = ran([program, "run", *texts, "t=t.csv"], folder)
    yield None if (said, ended) == (answer, 0) else f"run ended with {ended} and printed {said[:200]!r}"


def write(folder, name, text):
    with open(f"{folder}/{name}", "w", encoding="utf-8") as file:
        file.write(text)


def of_memory(program, folder):
    """What is wrong where the address space is limited, for each limit."""
    inner = "a"
    for _ in range(31):
        inner = f"({inner}{'*1' * OPERATORS}{'+1' * OPERATORS})"
    write(folder, "query.sql", f"SELECT a FROM t WHERE {inner}{'*1' * OPERATORS}{'+1' * OPERATORS} = 1")
    texts = ["schema.sql", "query.sql"]
    for most in range(4 << 20, 32 << 20, 1 << 20):
        if ran([program, "--help"], folder, resource.RLIMIT_AS, most)[1] in (127, -11):
            continue
        for words, first in ((["check", *texts], "DETERMINISTIC"), (["run", *texts, "t=t.csv"], "a")):
            printed, ended = ran([program, *words], folder, resource.RLIMIT_AS, most)
            good = ended == 5 or (ended, printed.partition("\n")[0]) == (0, first)
            yield None if good else f"{most >> 20} MB of address space: {words[0]} ended with {ended}"


def main():
    program, passed, failed = os.path.abspath(sys.argv[1]), 0, 0
    with tempfile.TemporaryDirectory() as folder:
        write(folder, "schema.sql", SCHEMA)
        write(folder, "t.csv", DATA)
        found = []
        for name, shape in SHAPES.items():
            for place, (query, status, answer) in texts(shape).items():
                write(folder, "query.sql", query)
                found += [(f"{name}, {place}", wrong) for wrong in complaints(program, folder, status, answer)]
        found += [("12,800 operators", wrong) for wrong in of_memory(program, folder)]
    for name, wrong in found:
        passed, failed = passed + (not wrong), failed + bool(wrong)
        if wrong:
            print(f"FAIL {name}: {wrong}")
    print(f"{passed} passed, {failed} failed")
    return 1 if failed else 0


if __name__ == "__main__":
    sys.exit(main())
