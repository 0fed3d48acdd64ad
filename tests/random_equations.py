#!/usr/bin/env python3
"""The standard's equations, against PostgreSQL.

    python3 tests/random_equations.py [WDREPORT] [--number N] [--seed S] [--show] [--installed]

Draws N (400) queries in PostgreSQL's usual SQL, each of which has one answer, and has WDREPORT respell them. PostgreSQL answers each as it
was drawn and as it is respelled, over the same tables; both answers must have the same rows. A query that WDREPORT does not read is left
out; how many these are is printed, and at least half must be read. `--show` prints each query as it was drawn and as it is respelled. The
last line is 'N passed, M failed'. `--installed` only ends with status 0 where a server of PostgreSQL 15 or later starts, and else with 3.
"""

import sys

sys.dont_write_bytecode = True

import postgres

SCHEMA = """CREATE TABLE t (id BIGINT PRIMARY KEY, g TEXT NOT NULL, v BIGINT, b BOOLEAN);
CREATE TABLE u (id BIGINT PRIMARY KEY, g TEXT, w BIGINT NOT NULL);
"""
ROWS = 24


class Queries:
    """Draws queries over t, or a derived table with its columns."""

    def __init__(self, draw):
        self.draw = draw

    def one_of(self, *makers):
        return self.draw.choice(makers)()

    def ones(self):
        return str(self.draw.randint(-2, 4))

    def whole(self, depth):
        """A whole number."""
        if depth == 0:
            return self.draw.choice(["v", "id", "v", self.ones()])
        less = depth - 1
        return self.one_of(
            lambda: self.whole(0),
            lambda: f"{self.whole(less)} {self.draw.choice('+-*')} {self.whole(0)}",
            lambda: f"COALESCE({self.whole(less)}, {self.whole(0)})",
            lambda: f"NULLIF({self.whole(less)}, {self.whole(0)})",
            lambda: f"CASE {self.whole(less)} WHEN {self.ones()} THEN {self.whole(0)} WHEN {self.ones()} THEN {self.ones()} ELSE {self.whole(0)} END",
            lambda: f"CASE WHEN {self.condition(less)} THEN {self.whole(less)} END",
            lambda: f"({self.whole(less)})::bigint" if self.draw.random() < 0.3 else f"CAST(v AS bigint)",
        )

    def condition(self, depth):
        less = max(depth - 1, 0)
        whole, no = lambda: self.whole(less), self.draw.choice(["", " NOT"])
        made = [
            lambda: f"{whole()} {self.draw.choice(['<', '=', '>=', '<>'])} {whole()}",
            lambda: f"{whole()}{no} IN ({self.ones()}, {whole()})",
            lambda: f"{whole()}{no} BETWEEN {self.ones()} AND {whole()}",
            lambda: f"g{no} IN ('a', 'b')",
            lambda: f"{whole()} IS{no} DISTINCT FROM {whole()}",
            lambda: f"b IS{no} {self.draw.choice(['TRUE', 'FALSE', 'UNKNOWN'])}",
            lambda: f"({whole()} > {self.ones()}) IS{no} {self.draw.choice(['TRUE', 'FALSE'])}",
            lambda: f"v IS{no} NULL",
        ]
        if depth > 0:
            made += [lambda: f"({self.condition(less)} {self.draw.choice(['AND', 'OR'])} {self.condition(less)})", lambda: f"NOT ({self.condition(less)})"]
        return self.one_of(*made)

    def among(self):
        """A conjunct with a query in it."""
        return self.one_of(
            lambda: f"v IN (SELECT w FROM u WHERE u.w > {self.ones()})",
            lambda: f"v + 1 IN (SELECT u.id FROM u)",
            lambda: "g IN (SELECT DISTINCT g FROM u GROUP BY g HAVING COUNT(*) > 1)",
            lambda: f"EXISTS (SELECT 1 FROM u AS x WHERE x.w = t.v AND x.id > {self.ones()})",
            lambda: "EXISTS (SELECT * FROM u AS x WHERE x.g = t.g AND t.id = x.w)",
        )

    def plain(self):
        more = self.draw.choice(["", f" AND {self.among()}"])
        return f"SELECT id, {self.whole(2)} AS x FROM t WHERE {self.condition(2)}{more}"

    def latest(self):
        key, other = self.draw.choice([("g", "v"), ("v", "g"), ("g, b", "v")])
        return f"SELECT DISTINCT ON ({key}) id, g, v FROM t WHERE {self.condition(1)} ORDER BY {key}, {other} {self.draw.choice(['', 'DESC'])}, id"

    def joined(self):
        return self.one_of(
            lambda: f"SELECT t.id, w FROM t JOIN u USING (g) WHERE v IN ({self.ones()}, w)",
            lambda: "SELECT g, id, x.w FROM t JOIN (SELECT g, id, w FROM u) AS x USING (g, id)",
            lambda: "SELECT v, h FROM t NATURAL JOIN (SELECT id, w AS h FROM u) AS x",
            lambda: "SELECT v, w FROM t NATURAL JOIN u",
            lambda: f"SELECT t.id, x.w FROM public.t JOIN public.u AS x ON x.w = t.v AND t.v BETWEEN {self.ones()} AND 5",
        )

    def grouped(self):
        key = self.draw.choice(["g", "v + 1", "CASE WHEN v > 1 THEN 'big' ELSE g END", "COALESCE(v, 0)", "b"])
        by = self.draw.choice(["1", key])
        return self.one_of(
            lambda: f"SELECT {key} AS k, COUNT(*) AS n, SUM(v) FILTER (WHERE {self.condition(1)}) AS s FROM t GROUP BY {by}",
            lambda: f"SELECT {key} AS k, MAX(id) AS n FROM t WHERE {self.condition(1)} GROUP BY {by} HAVING COUNT(*) FILTER (WHERE {self.condition(0)}) IN (1, 2, 3)",
            lambda: f"SELECT g, COUNT(DISTINCT {self.draw.choice(['v', 'b', 'id'])}) AS n FROM t WHERE {self.condition(1)} GROUP BY g",
            lambda: "SELECT COUNT(DISTINCT v) AS n FROM t",
            lambda: "SELECT t.g, COUNT(DISTINCT x.w) AS n FROM t JOIN u AS x ON x.w = t.v GROUP BY t.g",
        )

    def windowed(self):
        return f"SELECT id, SUM(v) FILTER (WHERE {self.condition(1)}) OVER (PARTITION BY {self.draw.choice(['g', 'COALESCE(v, 0)'])} ORDER BY id) AS s, LAG({self.whole(1)}) OVER (ORDER BY id) AS p FROM t"

    def members(self):
        first = self.one_of(self.plain, self.latest)
        return self.one_of(
            lambda: f"WITH a AS ({first}), c AS (SELECT id FROM a WHERE id IN (1, 2, 3, 4, 5, 6)) SELECT c.id FROM c",
            lambda: f"WITH a AS ({first}) SELECT x.id, y.id AS j FROM a x JOIN a y ON x.id = y.id",
            lambda: f"SELECT x.id FROM (WITH a AS ({first}) SELECT id FROM a) AS x WHERE x.id BETWEEN 2 AND 20",
        )

    def query(self):
        return self.one_of(self.plain, self.plain, self.latest, self.joined, self.grouped, self.grouped, self.windowed, self.members)


def rows(draw):
    """Rows of both tables, of which many have the same values."""
    maybe = lambda it: "NULL" if draw.random() < 0.2 else it
    text = lambda: f"'{draw.choice('abc')}'"
    first = ", ".join(f"({n + 1}, {text()}, {maybe(draw.randint(-1, 4))}, {maybe(draw.choice(['TRUE', 'FALSE']))})" for n in range(ROWS))
    second = ", ".join(f"({n + 1}, {maybe(text())}, {draw.randint(-1, 5)})" for n in range(ROWS // 2))
    return f"INSERT INTO t VALUES {first}; INSERT INTO u VALUES {second};"


if __name__ == "__main__":
    sys.exit(postgres.main(SCHEMA, lambda draw: SCHEMA + rows(draw), lambda draw: Queries(draw).query(), ("", "")))
