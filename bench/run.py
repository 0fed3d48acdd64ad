#!/usr/bin/env python3
"""Times queries from CSV to CSV, side by side with PostgreSQL, SQLite and data.table where they are there.

    python3 bench/run.py [PROGRAM] [--tasks WORD] [--turns N]

PROGRAM is the built program (default: crates/wdcheck/out/wdcheck, which ./wdcheck builds). PostgreSQL is asked by psql, in the
database that its usual variables name (PGDATABASE, PGHOST, ..); SQLite by sqlite3; data.table by Rscript, on one thread. Each of
them starts anew, reads the CSV files, answers the query and writes CSV; what another answers than the program, each row equally
often, is told. Tasks run at 100,000 and 1,000,000 records, or at the sizes that their line gives. Prints the least seconds of the
turns, the program's most memory, and what ten times the records cost it. With --tasks those whose title has the word.
"""

import argparse
import multiprocessing
import os
import random
import subprocess
import sys
import tempfile
import time
from collections import namedtuple

from verify import program_of

# The columns of each table with their types; a record has no NULL, which SQLite would read as an empty text.
TABLES = {
    "t": "id BIGINT PRIMARY KEY, g TEXT NOT NULL, region BIGINT NOT NULL, day BIGINT NOT NULL, v BIGINT NOT NULL",
    "s": "id BIGINT PRIMARY KEY, g TEXT NOT NULL, region BIGINT NOT NULL, day BIGINT NOT NULL, v BIGINT NOT NULL",
    "u": "id BIGINT PRIMARY KEY, w BIGINT NOT NULL",
    "r": "region BIGINT PRIMARY KEY, name TEXT NOT NULL",
    "w": "id BIGINT PRIMARY KEY, name TEXT NOT NULL",
}
REGIONS, GROUPS = 100, 1000

# A title, the query, its tables, the numbers of records, what data.table does for it, where it has something for it, and how
# SQLite has the query, where it has it otherwise.
Task = namedtuple("Task", "title query tables sizes r sqlite", defaults=[None])
BOTH = (100_000, 1_000_000)
TASKS = (
    Task("all records as they are", "SELECT id, g, region, day, v FROM t", "t", BOTH, "t"),
    Task("ten least of n", "SELECT id, v FROM t ORDER BY v, id FETCH FIRST 10 ROWS ONLY", "t", BOTH, "t[order(v, id)][1:10, .(id, v)]"),
    Task("ROW_NUMBER by partition", "SELECT id, ROW_NUMBER() OVER (PARTITION BY g ORDER BY v, id) AS n FROM t", "t", BOTH,
         "setorder(t, g, v, id)[, n := seq_len(.N), by = g][, .(id, n)]"),
    Task("RANK, DENSE_RANK, LAG",
         "SELECT id, RANK() OVER (PARTITION BY g ORDER BY v) AS a, DENSE_RANK() OVER (PARTITION BY g ORDER BY v) AS b, "
         "LAG(v) OVER (PARTITION BY g ORDER BY v, id) AS c FROM t", "t", BOTH,
         "setorder(t, g, v, id)[, `:=`(a = frank(v, ties.method = 'min'), b = frank(v, ties.method = 'dense'), c = shift(v)), by = g]"
         "[, .(id, a, b, c)]"),
    Task("running SUM", "SELECT id, SUM(v) OVER (ORDER BY id ROWS UNBOUNDED PRECEDING) AS s FROM t", "t", BOTH,
         "setorder(t, id)[, s := cumsum(as.numeric(v))][, .(id, s)]"),
    Task("MIN over 501 rows", "SELECT id, MIN(v) OVER (ORDER BY id ROWS BETWEEN 250 PRECEDING AND 250 FOLLOWING) AS m FROM t", "t",
         (20_000, 200_000), None),
    Task("SUM over 501 rows, EXCLUDE GROUP",
         "SELECT id, SUM(v) OVER (ORDER BY day, id ROWS BETWEEN 250 PRECEDING AND 250 FOLLOWING EXCLUDE GROUP) AS s FROM t", "t",
         (20_000, 200_000), None),
    Task("SUM over RANGE of 7 days",
         "SELECT id, SUM(v) OVER (PARTITION BY g ORDER BY day RANGE BETWEEN 6 PRECEDING AND CURRENT ROW) AS s FROM t", "t", BOTH, None),
    Task("join with 100 regions, RANK",
         "SELECT t.id, r.name, RANK() OVER (PARTITION BY r.name ORDER BY t.v) AS n FROM t JOIN r ON t.region = r.region", "tr", BOTH,
         "t[r, on = 'region'][, n := frank(v, ties.method = 'min'), by = name][, .(id, name, n)]"),
    Task("join of n with n", "SELECT t.id, u.w FROM t JOIN u ON t.id = u.id", "tu", BOTH, "t[u, on = 'id'][, .(id, w)]"),
    Task("running SUM over 1,000 groups", "SELECT g, SUM(SUM(v)) OVER (ORDER BY g) AS s FROM t GROUP BY g", "t", BOTH,
         "t[, .(s = sum(as.numeric(v))), keyby = g][, .(g, s = cumsum(s))]"),
    Task("GROUPING SETS of three columns",
         "SELECT g, region, day, COUNT(*) AS c, SUM(v) AS s FROM t GROUP BY GROUPING SETS ((g, region), (region), (day))", "t", BOTH,
         "groupingsets(t, j = .(c = .N, s = sum(as.numeric(v))), by = c('g', 'region', 'day'), sets = list(c('g', 'region'), 'region', 'day'))",
         "SELECT g, region, NULL AS day, COUNT(*) AS c, SUM(v) AS s FROM t GROUP BY g, region "
         "UNION ALL SELECT NULL, region, NULL, COUNT(*), SUM(v) FROM t GROUP BY region "
         "UNION ALL SELECT NULL, NULL, day, COUNT(*), SUM(v) FROM t GROUP BY day"),
    Task("keys in order", "SELECT id FROM s ORDER BY id", "s", BOTH, "s[order(id), .(id)]"),
    Task("ROW_NUMBER by partition, in order", "SELECT id, ROW_NUMBER() OVER (PARTITION BY g ORDER BY v, id) AS n FROM s ORDER BY id", "s", BOTH,
         "setorder(s, g, v, id)[, n := seq_len(.N), by = g][order(id), .(id, n)]"),
    Task("RANK, DENSE_RANK, LAG, in order",
         "SELECT id, RANK() OVER (PARTITION BY g ORDER BY v) AS a, DENSE_RANK() OVER (PARTITION BY g ORDER BY v) AS b, "
         "LAG(v) OVER (PARTITION BY g ORDER BY v, id) AS c FROM s ORDER BY id", "s", BOTH,
         "setorder(s, g, v, id)[, `:=`(a = frank(v, ties.method = 'min'), b = frank(v, ties.method = 'dense'), c = shift(v)), by = g]"
         "[order(id), .(id, a, b, c)]"),
    Task("join with 100 regions, RANK, in order",
         "SELECT s.id, r.name, RANK() OVER (PARTITION BY r.name ORDER BY s.v) AS n FROM s JOIN r ON s.region = r.region ORDER BY s.id", "sr", BOTH,
         "s[r, on = 'region'][, n := frank(v, ties.method = 'min'), by = name][order(id), .(id, name, n)]"),
    Task("half by a filter, ROW_NUMBER", "SELECT id, ROW_NUMBER() OVER (PARTITION BY g ORDER BY v, id) AS n FROM t WHERE region < 50", "t", BOTH,
         "setorder(t[region < 50], g, v, id)[, n := seq_len(.N), by = g][, .(id, n)]"),
    Task("join by key, LAG", "SELECT a.id, LAG(b.v) OVER (ORDER BY a.id) AS p FROM t a JOIN t b ON a.id = b.id", "t", BOTH,
         "setorder(t[t, on = 'id', .(id, v = i.v)], id)[, .(id, p = shift(v))]"),
    Task("DISTINCT of two columns", "SELECT DISTINCT g, region FROM t", "t", BOTH, "unique(t[, .(g, region)])"),
    Task("100 rows after half a million", "SELECT id, v FROM t ORDER BY v, id OFFSET 500000 ROWS FETCH NEXT 100 ROWS ONLY", "t", (1_000_000,),
         "t[order(v, id)][500001:500100, .(id, v)]", "SELECT id, v FROM t ORDER BY v, id LIMIT 100 OFFSET 500000"),
    Task("expressions, then a window", "SELECT id, SUM(v * 2 + 1) OVER (PARTITION BY g ORDER BY id ROWS UNBOUNDED PRECEDING) AS n FROM t", "t", BOTH,
         "setorder(t, g, id)[, n := cumsum(as.numeric(v) * 2 + 1), by = g][, .(id, n)]"),
    Task("COUNT(*) of n texts", "SELECT name, COUNT(*) AS n FROM w GROUP BY name", "w", BOTH, "w[, .(n = .N), by = name]"),
)


def write_tables(folder, records):
    """Keys in rising order, as a table is mostly exported, but in `s` and `u`; texts that share a beginning; many values that tie."""
    draw = random.Random(1)
    with open(f"{folder}/t.csv", "w", encoding="ascii") as file:
        file.write("id,g,region,day,v\n")
        for key in range(records):
            file.write("%d,customer %04d,%d,%d,%d\n" % (key, draw.randrange(GROUPS), draw.randrange(REGIONS), draw.randrange(3650), draw.randrange(100_000)))
    keys = list(range(records))
    draw.shuffle(keys)
    with open(f"{folder}/s.csv", "w", encoding="ascii") as file:
        file.write("id,g,region,day,v\n")
        for key in keys:
            file.write("%d,customer %04d,%d,%d,%d\n" % (key, draw.randrange(GROUPS), draw.randrange(REGIONS), draw.randrange(3650), draw.randrange(100_000)))
    with open(f"{folder}/u.csv", "w", encoding="ascii") as file:
        file.write("id,w\n" + "".join("%d,%d\n" % (key, draw.randrange(1000)) for key in keys))
    with open(f"{folder}/w.csv", "w", encoding="ascii") as file:
        file.write("id,name\n" + "".join("%d,customer %07d\n" % each for each in enumerate(keys)))
    with open(f"{folder}/r.csv", "w", encoding="ascii") as file:
        file.write("region,name\n" + "".join("%d,region %02d\n" % (key, key) for key in range(REGIONS)))


def create(table, word=""):
    return f"CREATE {word}TABLE {table} ({TABLES[table]});\n"


def text_file(folder, name, text):
    with open(f"{folder}/{name}", "w", encoding="utf-8") as file:
        file.write(text)
    return f"{folder}/{name}"


def of_wdcheck(program, task, folder):
    schema = text_file(folder, "schema.sql", "".join(create(table) for table in task.tables))
    query = text_file(folder, "query.sql", task.query + "\n")
    return [program, "run", schema, query, *[f"{table}={folder}/{table}.csv" for table in task.tables]]


def of_postgres(task, folder):
    text = "".join(create(table, "TEMPORARY ") + f"\\copy {table} FROM '{folder}/{table}.csv' CSV HEADER\n" for table in task.tables)
    return ["psql", "-qX", "-v", "ON_ERROR_STOP=1", "-f", text_file(folder, "task.psql", f"{text}\\copy ({task.query}) TO STDOUT CSV HEADER\n")]


def of_sqlite(task, folder):
    query = task.sqlite or task.query.replace("FETCH FIRST 10 ROWS ONLY", "LIMIT 10")
    text = "".join(f"{create(table)}.import --csv --skip 1 {folder}/{table}.csv {table}\n" for table in task.tables)
    return ["sqlite3", ":memory:", "-batch", "-cmd", f".read {text_file(folder, 'task.sqlite', text)}", "-cmd", ".mode csv", "-cmd", ".headers on", query]


def of_data_table(task, folder):
    text = "".join(f"{table} <- fread('{folder}/{table}.csv')\n" for table in task.tables)
    text = f"suppressMessages(library(data.table))\nsetDTthreads(1)\noptions(scipen = 20)\n{text}fwrite({task.r}, '')\n"
    return ["Rscript", "--vanilla", text_file(folder, "task.R", text)]


def answers(words):
    """Whether the words run here at all."""
    try:
        return subprocess.run(words, stdin=subprocess.DEVNULL, capture_output=True).returncode == 0
    except OSError:
        return False


def others():
    """The other engines that are there, each with what makes its words."""
    tried = (
        ("PostgreSQL", ["psql", "-qXc", "SELECT 1"], of_postgres),
        ("SQLite", ["sqlite3", ":memory:", "SELECT 1"], of_sqlite),
        ("data.table", ["Rscript", "--vanilla", "-e", "library(data.table)"], of_data_table),
    )
    found = [(name, words_of) for name, words, words_of in tried if answers(words)]
    missing = [name for name, _, words_of in tried if (name, words_of) not in found]
    if missing:
        print(f"not here: {', '.join(missing)}")
    return found


def measure(words, folder):
    """Seconds, peak memory in MB and the bytes of one run."""
    path = f"{folder}/answer.csv"
    with open(path, "wb") as out:
        start = time.monotonic()
        child = subprocess.Popen(words, stdout=out)
        _, status, usage = os.wait4(child.pid, 0)
        seconds = time.monotonic() - start
    if status != 0:
        sys.exit("%s ended with status %d" % (words[0], os.waitstatus_to_exitcode(status)))
    return seconds, usage.ru_maxrss / 1024, path


def rows_in(path):
    """A sum of the rows of an answer, each row equally often."""
    steps = f"tail -n +2 '{path}' | tr -d '\"\\r' | LC_ALL=C sort | sha256sum"
    return subprocess.run(["sh", "-c", steps], stdout=subprocess.PIPE, check=True).stdout


def measure_task(program, task, engines, folder, turns):
    """Measures a task at each of its sizes and prints what comes out."""
    before = None
    for records in task.sizes:
        # In a process of its own, since what this one has taken counts as its children's too.
        writer = multiprocessing.Process(target=write_tables, args=(folder, records))
        writer.start()
        writer.join()
        runs = [measure(of_wdcheck(program, task, folder), folder) for _ in range(turns)]
        seconds, wanted = min(run[0] for run in runs), rows_in(runs[-1][2])
        told = [f"wdcheck {seconds:.2f} s, {max(run[1] for run in runs):.0f} MB"]
        for name, words_of in engines:
            if words_of is of_data_table and not task.r:
                continue
            their = [measure(words_of(task, folder), folder) for _ in range(turns)]
            told.append(f"{name} {min(run[0] for run in their):.2f} s" + ("" if rows_in(their[-1][2]) == wanted else " WITH ANOTHER ANSWER"))
        print(f"{task.title}, {records:,} records: {'; '.join(told)}", flush=True)
        if before:
            print(f"{task.title}: ten times the records take {seconds / before:.1f} times as long", flush=True)
        before = seconds


def main():
    parser = argparse.ArgumentParser(description=__doc__.splitlines()[0])
    parser.add_argument("program", nargs="?")
    parser.add_argument("--tasks", default="")
    parser.add_argument("--turns", type=int, default=3)
    given = parser.parse_args()
    program, engines = program_of([given.program] if given.program else []), others()
    with tempfile.TemporaryDirectory() as folder:
        os.chmod(folder, 0o755)
        for task in TASKS:
            if given.tasks in task.title:
                measure_task(program, task, engines, folder, given.turns)


if __name__ == "__main__":
    main()
