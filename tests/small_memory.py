#!/usr/bin/env python3
"""Runs the built program under limits of address space: each run ends with its own answer, or with `out of memory` and status 5.

    python3 tests/small_memory.py PROGRAM [--jobs N] [--steps N]

Each command is run over a small input and over a large one. The limit rises from the least at which the program starts each time
(without words it then prints its usage; where the system puts its stack, and so how much it takes, differs from start to start) to the least at which the run has its answer: page by page for the first pages and the last ones, and between
them by equal steps. A signal, another status or another text is a failure. The last line is 'N passed, M failed'.
"""

import argparse
import concurrent.futures
import os
import subprocess
import sys
import tempfile

PAGE = os.sysconf("SC_PAGE_SIZE")
# No run needs more, in pages.
MOST = (4 << 30) // PAGE
# So many starts in a row count as each time.
STARTS = 64
# So many limits are tried page by page at either end.
EACH_PAGE = 32
OUT_OF_MEMORY = (5, b"", b"out of memory\n")

SCHEMA = "CREATE TABLE t (id BIGINT PRIMARY KEY, g TEXT NOT NULL, v BIGINT, u BIGINT UNIQUE);\n"
SMALL = {
    "schema.sql": SCHEMA,
    "query.sql": "SELECT id, ROW_NUMBER() OVER (ORDER BY id) AS n FROM t\n",
    "tied.sql": "SELECT id, ROW_NUMBER() OVER (ORDER BY v) AS n FROM t\n",
    "t.csv": "id,g,v,u\n1,a,10,\n2,b,10,\n3,c,20,\n4,d,,\n",
    "witness.json": '{"first":[[0,1]],"second":[[1,0]],"tables":{"t":[[1,"a",null,1],[2,"b",null,2]]}}\n',
}


def large():
    """A query of 200 calls, each in a class of its own, over 500 records; one over 4,096 pairs that tie, of a witness of 64 rows."""
    calls = ", ".join(f"SUM(v + {n}) OVER (PARTITION BY g ORDER BY v + {n}, id) AS s{n}" for n in range(200))
    rows = ",".join(f'[{n},"g",1,{n}]' for n in range(64))
    there, back = str(list(range(4096))), str(list(range(4095, -1, -1)))
    return {
        "schema.sql": SCHEMA,
        "query.sql": f"SELECT id, {calls} FROM t\n",
        "tied.sql": "SELECT a.id, ROW_NUMBER() OVER (ORDER BY a.v) AS n FROM t AS a JOIN t AS b ON a.v = b.v\n",
        "t.csv": "id,g,v,u\n" + "".join(f"{n},group {n % 100},{n % 1000},{n}\n" for n in range(500)),
        "witness.json": f'{{"first":[{there}],"second":[{back}],"tables":{{"t":[{rows}]}}}}\n'.replace(" ", ""),
    }


class Run:
    """The words of a run in a folder."""

    def __init__(self, program, folder, words):
        self.words, self.folder = [program, *words], folder

    def under(self, limit):
        """Status, standard output and standard error under a limit of address space, in pages."""
        words = ["sh", "-c", 'ulimit -v "$0" && exec "$@"', str(limit * PAGE // 1024), *self.words]
        done = subprocess.run(words, cwd=self.folder, stdin=subprocess.DEVNULL, capture_output=True, timeout=60)
        return done.returncode, done.stdout, done.stderr

    def least(self, wanted, low):
        """The least limit from this one on at which the run gives this."""
        high = low + 1
        while self.under(high) != wanted and high < MOST:
            low, high = high, 2 * high
        while low < high:
            middle = (low + high) // 2
            low, high = (low, middle) if self.under(middle) == wanted else (middle + 1, high)
        return low

    def least_each_time(self, wanted, low):
        """The least limit from this one on at which the run gives this each time."""
        limit = self.least(wanted, low)
        while any(self.under(limit) != wanted for _ in range(STARTS)):
            limit += 1
        return limit


def limits(first, last, steps):
    """The limits to try, in pages: all near the two ends, and equal steps between."""
    ends = {*range(first, first + EACH_PAGE), *range(max(first, last - EACH_PAGE), last + EACH_PAGE)}
    return sorted(ends | {first + (last - first) * step // steps for step in range(steps + 1)})


def judge(pool, run, first, steps):
    """How many limits were tried, and what was wrong."""
    own = run.under(MOST)
    if own[0] not in (0, 1, 2):
        return 0, [f"no answer with ample memory: {own}"]
    tried = limits(first, run.least(own, first), steps)
    results = pool.map(lambda pages: run.under(pages), tried)
    wrong = [f"under {pages * PAGE} bytes: {it}"[:300] for pages, it in zip(tried, results) if it not in (own, OUT_OF_MEMORY)]
    return len(tried), wrong


def commands(program, folder, files):
    """The five commands over these files, the certificate being the one that `check` prints."""
    os.mkdir(folder)
    for name, text in files.items():
        with open(f"{folder}/{name}", "w", encoding="utf-8") as file:
            file.write(text)
    texts = ["schema.sql", "query.sql"]
    found = Run(program, folder, ["check", *texts]).under(MOST)
    with open(f"{folder}/cert.json", "wb") as file:
        file.write(found[1].split(b"\n", 1)[1])
    for words in (["check", *texts], ["explain", *texts], ["verify", *texts, "cert.json"], ["run", *texts, "t=t.csv"]):
        yield words[0], Run(program, folder, words)
    yield "refute", Run(program, folder, ["refute", "schema.sql", "tied.sql", "witness.json"])


def main():
    parser = argparse.ArgumentParser(description="Runs the built program under limits of address space.")
    parser.add_argument("program")
    parser.add_argument("--jobs", type=int, default=os.cpu_count() or 1, help="runs at a time")
    parser.add_argument("--steps", type=int, default=64, help="steps between the least limit and the one that suffices")
    arguments = parser.parse_args()
    program = os.path.abspath(arguments.program)
    passed, failed = 0, 0
    with tempfile.TemporaryDirectory() as folder, concurrent.futures.ThreadPoolExecutor(arguments.jobs) as pool:
        usage = Run(program, folder, [])
        first = usage.least_each_time(usage.under(MOST), 1)
        for size, files in (("small", SMALL), ("large", large())):
            for name, run in commands(program, f"{folder}/{size}", files):
                tried, wrong = judge(pool, run, first, arguments.steps)
                passed, failed = passed + (not wrong), failed + bool(wrong)
                print(f"{name}, {size}: {tried} limits" + (f"; FAIL at {len(wrong)}; the first: {wrong[0]}" if wrong else ""), flush=True)
    print(f"{passed} passed, {failed} failed")
    return 1 if failed or not passed else 0


if __name__ == "__main__":
    sys.exit(main())
