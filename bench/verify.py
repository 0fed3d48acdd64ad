#!/usr/bin/env python3
"""Times how long the program takes to verify certificates.

    python3 bench/verify.py [PROGRAM]
    python3 bench/verify.py --write FOLDER

First come the certificates of tests/cases, of which the slowest is named: the aim is 10 ms for each. Then come large lawful
ones, for which the aim is a second: four tables of 256 columns, each with 64 keys, are joined to rows of 1,024 columns; 24
selects stand over one another above them, and a limit by sort keys on top; each of the 31 nodes below the limit keeps 64 facts.
In the larger one each trace uses all facts of its node, and what it keeps names all columns. Last comes a certificate that says
nothing, for a table with 64 nullable keys of 150 columns each under 30 selects with 200 conjuncts each, of which one in the
middle rules NULLs out: there the given facts take the time. Then come certificates that say one thing many times: a column of a trace, a target, a
use, a kept fact; one with many kept facts by a single trace of 1,024 columns, each used; and one that uses such a fact many times:
their time and memory go with their length. Prints the least seconds and the most memory of three runs.
PROGRAM is the built program (default: crates/wdcheck/out/wdcheck, which ./wdcheck builds). With --write the texts of the large
ones are written to a folder in place of that.
"""

import json
import os
import subprocess
import sys
import tempfile
import time

TOP = os.path.dirname(os.path.dirname(os.path.abspath(__file__)))
TABLES, COLUMNS, KEYS, SELECTS = "abcd", 256, 64, 24
KEY_COLUMNS, FILTERS, CONJUNCTS = 150, 30, 200
REPEATED, SHARED, USED = 120_000, 38_000, 500_000
TURNS = 3


def program_of(words):
    """The program that is to be timed; says so plainly where there is none."""
    program = words[0] if words else os.path.join(TOP, "crates/wdcheck/out/wdcheck")
    if not os.access(program, os.X_OK) or os.path.isdir(program):
        sys.exit("there is no program %s: ./wdcheck builds it, and so does ./test" % program)
    return program


def measure(words, allowed):
    """Seconds and peak memory in MB of one run, which must end with one of these statuses."""
    start = time.monotonic()
    child = subprocess.Popen(words, stdout=subprocess.DEVNULL, stderr=subprocess.DEVNULL)
    _, ended, usage = os.wait4(child.pid, 0)
    seconds = time.monotonic() - start
    status = os.waitstatus_to_exitcode(ended)
    if status not in allowed:
        sys.exit("the program ended with status %d" % status)
    return seconds, usage.ru_maxrss / 1024


def measure_texts(program, folder, schema, query, certificate, allowed):
    """The least seconds and the most memory over these texts."""
    words = [program, "verify"]
    for name, text in (("schema.sql", schema), ("query.sql", query), ("certificate.json", certificate)):
        words.append(os.path.join(folder, name))
        with open(words[-1], "w", encoding="utf-8") as file:
            file.write(text)
    runs = [measure(words, allowed) for _ in range(TURNS)]
    return min(run[0] for run in runs), max(run[1] for run in runs)


def table_text(name):
    """A table whose first columns are keys, each by itself."""
    columns = ("%s%d BIGINT NOT NULL%s" % (name, n, " UNIQUE" if n < KEYS else "") for n in range(COLUMNS))
    return "CREATE TABLE %s (%s)" % (name, ", ".join(columns))


def query_text():
    """Selects of all columns over one another, the lowest over all pairs of rows, sorted by a key of each table."""
    text = "SELECT * FROM " + ", ".join(TABLES)
    for n in range(SELECTS - 1):
        text = "SELECT * FROM (%s) AS s%d" % (text, n)
    return text + " ORDER BY " + ", ".join(name + "0" for name in TABLES) + " LIMIT 10"


def entry(traces, targets):
    """An entry that keeps what each trace gives."""
    keep = [{"to": targets, "trace": number} for number in range(len(traces))]
    return {"calls": [], "keep": keep, "limit": None, "traces": [{"from": columns, "uses": uses} for columns, uses in traces]}


def with_all(uses, count, whole):
    """The uses, and with `whole` each of the other facts behind them."""
    return uses + [number for number in range(count) if whole and number not in set(uses)]


def targets_of(columns, whole):
    return (list(range(columns)) if whole else []) + ["row"]


def scan_entry(whole):
    """At a Scan fact n is that key n gives the row."""
    return entry([([n], with_all([n], KEYS, whole)) for n in range(KEYS)], targets_of(COLUMNS, whole))


def key_columns(number, tables):
    """The columns with the key of this number in each of so many tables."""
    return [table * COLUMNS + number for table in range(tables)]


def join_entry(tables, whole):
    """At a Join the left side's facts come first, then the right side's: of each the keys with one number are taken."""
    traces = [(key_columns(n, tables), with_all([n, KEYS + n], 2 * KEYS, whole)) for n in range(KEYS)]
    return entry(traces, targets_of(tables * COLUMNS, whole))


def map_entry(whole):
    """At a Map the input's facts come first, then two for each output: that its input gives it, and that it gives its input."""
    width = len(TABLES) * COLUMNS
    traces = []
    for number in range(KEYS):
        columns = key_columns(number, len(TABLES))
        uses = [KEYS + 2 * column + 1 for column in columns] + [number]
        traces.append((columns, with_all(uses, KEYS + 2 * width, whole)))
    return entry(traces, targets_of(width, whole))


def certificate_text(whole):
    """The nodes in postorder: the tables, each but the first with its Join, then the Maps and the Limit."""
    nodes = [scan_entry(whole)]
    for tables in range(2, len(TABLES) + 1):
        nodes += [scan_entry(whole), join_entry(tables, whole)]
    nodes += [map_entry(whole)] * SELECTS
    limit = {"calls": [], "keep": [], "limit": 0, "traces": [{"from": key_columns(0, len(TABLES)), "uses": [0]}]}
    return json.dumps({"nodes": nodes + [limit], "version": 1}, separators=(",", ":"))


def nullable_keys_text():
    """A table with keys of many columns, which may be NULL."""
    columns = ["c%d BIGINT" % n for n in range(COLUMNS)]
    for key in range(KEYS):
        columns.append("UNIQUE (%s)" % ",".join("c%d" % ((key + n) % KEY_COLUMNS) for n in range(KEY_COLUMNS)))
    return "CREATE TABLE t (%s);\n" % ", ".join(columns)


def filters_text():
    """Selects over one another, each with a condition; the one in the middle leaves no NULL in the keys."""
    text = "SELECT * FROM t"
    for n in range(FILTERS):
        conjuncts = ["1=1"] * CONJUNCTS
        if n == FILTERS // 2:
            conjuncts = ["c%d=c%d" % (column, column + 1) for column in range(0, KEY_COLUMNS, 2)]
        text += " WHERE " + " AND ".join(conjuncts)
        if n < FILTERS - 1:
            text = "SELECT * FROM (%s) AS s" % text
    return text + "\n"


def bare_text(nodes):
    """A certificate that says nothing of so many nodes."""
    return json.dumps({"nodes": [{"calls": [], "keep": [], "limit": None, "traces": []}] * nodes, "version": 1})


def one_column_text(scan, above):
    """A certificate for a select over a table of one column: what the Scan says, and the trace above, which starts from the input."""
    nodes = [scan, {"calls": [], "keep": [], "limit": None, "traces": [{"from": [1], "uses": above}]}]
    return json.dumps({"nodes": nodes, "version": 1}, separators=(",", ":"))


def repeated_texts():
    """Certificates that say one thing many times: a title, a certificate."""
    trace = {"from": [0] * REPEATED, "uses": []}
    scan = {"calls": [], "keep": [{"to": [0], "trace": 0}], "limit": None, "traces": [trace]}
    yield "a column, a use", one_column_text(scan, [0] * REPEATED)
    scan = dict(scan, keep=[{"to": [], "trace": 0}] * (REPEATED // 10))
    yield "a column, a kept fact", one_column_text(scan, [])
    scan = dict(scan, keep=[{"to": [0] * REPEATED, "trace": 0}], traces=[{"from": [0], "uses": []}])
    yield "a target, a use", one_column_text(scan, [0] * REPEATED)


def wide_text(facts, uses):
    """So many kept facts by one trace of all columns of a Join, and what is used of them above."""
    empty, width = entry([], []), len(TABLES) * COLUMNS
    joins = [empty, empty, empty, empty, empty, empty]
    keeps = dict(entry([(list(range(width)), [])], []), keep=[{"to": [], "trace": 0}] * facts)
    above = entry([(list(range(width, 2 * width)), uses)], [])
    return json.dumps({"nodes": joins + [keeps, dict(above, keep=[])], "version": 1}, separators=(",", ":"))


def large_texts():
    """The large ones: a title, and the texts of schema, query and certificate."""
    schema = ";\n".join(table_text(name) for name in TABLES) + ";\n"
    for title, whole in (("64 kept facts a node", False), ("each use and each column", True)):
        yield title, schema, query_text() + "\n", certificate_text(whole)
    yield "nullable keys", nullable_keys_text(), filters_text(), bare_text(1 + 2 * FILTERS)
    for title, certificate in repeated_texts():
        yield title, "CREATE TABLE t (c BIGINT);\n", "SELECT c FROM t\n", certificate
    joined = "SELECT * FROM %s\n" % ", ".join(TABLES)
    yield "one trace, many facts", schema, joined, wide_text(SHARED, list(range(SHARED)))
    yield "one fact, many uses", schema, joined, wide_text(1, [0] * USED)


def measure_cases(program, folder):
    """Measures the cases and prints the slowest."""
    with open(os.path.join(TOP, "tests/cases/cases.json"), encoding="utf-8") as file:
        cases = [case for case in json.load(file) if case["command"] == "verify" and case["stage"] == "verify"]
    times = []
    for case in cases:
        seconds, _ = measure_texts(program, folder, case["schema"], case["query"], case["certificate"], (0, 3))
        times.append((seconds, case["name"]))
    seconds, name = max(times)
    print("%d cases: at most %.1f ms (%s)" % (len(times), 1000 * seconds, name))


def main():
    if sys.argv[1:2] == ["--write"]:
        for number, (_, schema, query, certificate) in enumerate(large_texts()):
            for name, text in (("schema.sql", schema), ("query.sql", query), ("certificate.json", certificate)):
                with open(os.path.join(sys.argv[2], "%d.%s" % (number, name)), "w", encoding="utf-8") as file:
                    file.write(text)
        return
    program = program_of(sys.argv[1:])
    with tempfile.TemporaryDirectory() as folder:
        measure_cases(program, folder)
        for title, schema, query, certificate in large_texts():
            seconds, memory = measure_texts(program, folder, schema, query, certificate, (0,))
            size = len(certificate) / 1e6
            print("%-24s %5.1f MB of certificate: %6.3f s, %4.0f MB at most" % (title, size, seconds, memory))


if __name__ == "__main__":
    main()
