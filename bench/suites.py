#!/usr/bin/env python3
"""Counts which window queries of PostgreSQL's and SQLite's own tests are read.

    python3 bench/suites.py POSTGRESQL SQLITE [WDREPORT [WDCHECK]]

POSTGRESQL and SQLITE are folders of their sources (of Debian: `apt-get source postgresql-15 sqlite3`); the programs are the built ones
(default: those below crates/). A query is a SELECT or a WITH with OVER in it, once for each text; its schema has the tables that the same
file, or PostgreSQL's test_setup.sql, creates by a list of columns. Prints for each file how many queries there are, how many `wdcheck` reads
and how many `wdreport`, with its verdicts, and then the words at which the others are refused.
"""

import collections
import os
import re
import subprocess
import sys
import tempfile

TOP = os.path.dirname(os.path.dirname(os.path.abspath(__file__)))
PARTS = re.compile(r"--[^\n]*|/\*.*?\*/|'(?:[^']|'')*'|\"[^\"]*\"|\$(\w*)\$.*?\$\1\$|;|[^;'\"/$-]+|.", re.S)
TABLE = re.compile(r"create\s+(?:temp\w*\s+|unlogged\s+)?table\s+(?:if\s+not\s+exists\s+)?([\w.\"]+)\s*\(", re.I)


def statements(text):
    """Returns the statements of a text without comments."""
    found, now = [], ""
    for part in PARTS.finditer(text):
        it = part.group(0)
        if it == ";":
            found.append(now.strip())
            now = ""
        elif not it.startswith(("--", "/*")):
            now += it
    return [it for it in [*found, now.strip()] if it]


def tables(found):
    """Returns the last declaration of each table that is created by a list of columns."""
    made = {}
    for it in found:
        match = TABLE.match(it)
        if match:
            depth, end = 0, None
            for at in range(match.end() - 1, len(it)):
                depth += {"(": 1, ")": -1}.get(it[at], 0)
                if not depth:
                    end = at + 1
                    break
            if end and not re.match(r"\s*inherits", it[end:], re.I):
                made[match[1].lower()] = it[:end] + ";\n"
    return made


def queries(found):
    """Returns the window queries, each once."""
    return list(dict.fromkeys(it for it in found if re.match(r"(select|with)\b", it, re.I) and re.search(r"\bover\b", it, re.I)))


def of_sqlite(text):
    """Returns the statements in the braces of a test of SQLite's."""
    found = []
    for match in re.finditer(r"\{((?:[^{}]|\{[^{}]*\})*)\}", text):
        if re.search(r"\b(select|create)\b", match[1], re.I) and "$" not in match[1]:
            found += statements(match[1])
    return found


def judged(program, made, asked, name, words):
    with tempfile.TemporaryDirectory() as folder:
        with open(f"{folder}/schema.sql", "w", encoding="utf-8") as file:
            file.write("".join(made.values()))
        read, verdicts, refused = 0, collections.Counter(), collections.Counter()
        for number, query in enumerate(asked):
            path = f"{folder}/q{number}.sql"
            with open(path, "w", encoding="utf-8") as file:
                file.write(query + "\n")
            said = subprocess.run([program, *words(path, f"{folder}/schema.sql")], capture_output=True, text=True, cwd=folder).stdout
            verdict, why = name(said)
            read += verdict is not None
            verdicts[verdict] += verdict is not None
            refused[why] += verdict is None
            os.remove(path)
    return read, verdicts, refused


def check_said(said):
    word = said.split("\n")[0]
    return (word, None) if word in ("DETERMINISTIC", "DEPENDS", "UNKNOWN") else (None, word)


def report_said(said):
    counts = re.search(r"(\d+) deterministic, (\d+) depends?, (\d+) may tie, (\d+) not read", said)
    if counts and counts[4] == "0":
        return next((verdict for verdict, count in zip(("deterministic", "depends", "may tie"), counts.groups()) if count != "0"), None), "nothing"
    lines = said.split("\n")
    at = next((i for i, it in enumerate(lines) if re.search(r"not read: .*\[\d+\]", it)), None)
    if at is None:
        return None, "no place"
    shown = next((it for it in lines[at + 1 :] if "|" in it), "")
    marks = next((it for it in lines[at + 1 :] if "^" in it), "")
    word = shown[marks.find("^") : marks.rfind("^") + 1] if "^" in marks else ""
    number = re.findall(r"\[(\w+)\]", lines[at])
    return None, f"{number[-1]} {word.strip()[:24]}"


def main():
    postgresql, sqlite = sys.argv[1:3]
    report = os.path.abspath(sys.argv[3]) if len(sys.argv) > 3 else f"{TOP}/crates/wdreport/out/wdreport"
    check = os.path.abspath(sys.argv[4]) if len(sys.argv) > 4 else f"{TOP}/crates/wdcheck/out/wdcheck"
    regress = f"{postgresql}/src/test/regress/sql"
    setup = tables(statements(open(f"{regress}/test_setup.sql", encoding="utf-8").read()))
    files = [(f"{regress}/{it}", statements) for it in sorted(os.listdir(regress))]
    files += [(f"{sqlite}/test/{it}", of_sqlite) for it in sorted(os.listdir(f"{sqlite}/test")) if it.startswith("window") and it.endswith(".test")]
    refusals, every = collections.Counter(), [0, 0, 0]
    for path, parted in files:
        found = parted(open(path, encoding="utf-8", errors="replace").read())
        asked = queries(found)
        if not asked:
            continue
        made = tables(found) if parted is of_sqlite else {**setup, **tables(found)}
        by_profile, _, _ = judged(check, made, asked, check_said, lambda query, schema: ["check", schema, query])
        read, verdicts, refused = judged(report, made, asked, report_said, lambda query, schema: [query])
        refusals.update(refused)
        every = [a + b for a, b in zip(every, [len(asked), by_profile, read])]
        print(f"{os.path.basename(path)}: {len(asked)} queries, wdcheck reads {by_profile}, wdreport {read}: {dict(verdicts)}")
    print(f"all: {every[0]} queries, wdcheck reads {every[1]}, wdreport {every[2]}")
    for why, count in refusals.most_common(40):
        if count:
            print(f"  {count} at {why}")


main()
