#!/usr/bin/env python3
"""Numbers beside decimals, dates and timestamps, against PostgreSQL.

    python3 tests/random_units.py [WDREPORT] [--number N] [--seed S] [--show] [--installed]

Draws N (400) queries over a table with decimals of two scales, a date and a timestamp, and has WDREPORT respell them. PostgreSQL answers
each twice: as it was drawn over a table of these types, and as it is respelled over a table of whole numbers, which holds units of the
last places, days and microseconds. Both answers must have the same rows. A query that WDREPORT does not read is left out; how many these
are is printed, and at least half must be read. `--show` prints each query as it was drawn and as it is respelled. The last line is
'N passed, M failed'. `--installed` only ends with status 0 where a server of PostgreSQL 15 or later starts, and else with 3.
"""

import sys

sys.dont_write_bytecode = True

import postgres

TYPES = {"total": "numeric(10, 2)", "paid": "numeric(10, 2)", "rate": "numeric(10, 4)", "qty": "integer", "d": "date", "t": "timestamp"}
SCHEMA = f"CREATE TABLE o (id BIGINT PRIMARY KEY, {', '.join(f'{name} {kind}' for name, kind in TYPES.items())});\n"
# A value of each column in whole numbers.
WHOLE = {"total": "total * 100", "paid": "paid * 100", "rate": "rate * 10000", "qty": "qty", "d": "d - DATE '1970-01-01'", "t": "extract(epoch FROM t) * 1000000"}
ROWS = 80


def value(draw, name):
    """A value of a column, from so few that many rows have the same."""
    if draw.random() < 0.15:
        return "NULL"
    if name in ("total", "paid"):
        return f"{draw.randint(-8, 8) * 25 / 100:.2f}"
    if name == "rate":
        return f"{draw.randint(-6, 6) * 1250 / 10000:.4f}"
    if name == "qty":
        return str(draw.randint(-2, 3))
    day = f"2026-01-{draw.randint(1, 9):02}"
    return f"DATE '{day}'" if name == "d" else f"TIMESTAMP '{day} {draw.choice(['00', '06', '12'])}:00:00'"


class Queries:
    """Draws queries. A name that stands for a column of a derived table counts what its expression does."""

    def __init__(self, draw):
        self.draw = draw
        self.names = {2: ["total", "paid"], 4: ["rate"]}

    def one_of(self, *makers):
        return self.draw.choice(makers)()

    def number(self, places):
        """A number with at most so many places."""
        n = self.draw.randint(-9, 9)
        written = self.draw.choice([f"{abs(n)}", f"{abs(n)}.{self.draw.choice(['5', '25', '75'][: 2 if places == 2 else 3])}"])
        return f"- {written}" if n < 0 else written

    def ones(self):
        """What counts ones."""
        return self.draw.choice(["qty", "2", "3", "(qty + 1)", "(2 - qty)", "qty * 2"])

    def amount(self, places, depth):
        """What counts a decimal of so many places."""
        name = self.draw.choice(self.names[places])
        if depth == 0:
            return name
        less = depth - 1
        return self.one_of(
            lambda: name,
            lambda: f"{self.amount(places, less)} {self.draw.choice('+-')} {self.amount(places, 0)}",
            lambda: f"{self.amount(places, less)} {self.draw.choice('+-')} {self.number(places)}",
            lambda: f"{self.ones()} * ({self.amount(places, less)})",
            lambda: f"({self.amount(places, less)}) * {self.ones()}",
            lambda: f"- ({self.amount(places, less)})",
            lambda: f"COALESCE({self.amount(places, less)}, {self.number(places)})",
            lambda: f"NULLIF({self.amount(places, less)}, {self.number(places)})",
            lambda: f"CASE WHEN {self.condition(less)} THEN {self.amount(places, less)} ELSE {self.draw.choice([self.number(places), 'NULL', name])} END",
            lambda: f"CASE qty WHEN 1 THEN {self.amount(places, less)} WHEN 2 THEN {self.number(places)} END",
        )

    def moment(self):
        """A comparison of dates and timestamps."""
        day, sign = f"2026-01-{self.draw.randint(1, 9):02}", self.draw.choice(["<", "<=", "=", "<>", ">=", ">"])
        return self.one_of(
            lambda: f"d {sign} DATE '{day}'",
            lambda: f"d + {self.draw.randint(1, 3)} {sign} '{day}'",
            lambda: f"t {sign} TIMESTAMP '{day} 06:00'",
            lambda: f"t - INTERVAL '{self.draw.randint(1, 30)} hours' {sign} TIMESTAMP '{day} 00:00'",
            lambda: f"t {sign} d",
            lambda: f"DATE '{day}' {sign} t",
            lambda: f"d - DATE '{day}' {sign} {self.draw.randint(-2, 3)}",
        )

    def condition(self, depth):
        places, sign, less = self.draw.choice([2, 2, 4]), self.draw.choice(["<", "<=", "=", "<>", ">=", ">"]), max(depth - 1, 0)
        amount = lambda: self.amount(places, less)
        plain = [
            lambda: f"{amount()} {sign} {self.number(places)}",
            lambda: f"{self.number(places)} {sign} {amount()}",
            lambda: f"{amount()} {sign} {amount()}",
            lambda: f"{amount()} BETWEEN {self.number(places)} AND {self.number(places)}",
            lambda: f"{amount()} IN ({self.number(places)}, {self.number(places)}, {self.draw.choice(self.names[places])})",
            lambda: f"{amount()} IS DISTINCT FROM {self.number(places)}",
            lambda: f"{amount()} {sign} CASE WHEN qty > 1 THEN {self.number(places)} ELSE {self.number(places)} END",
            lambda: f"qty {sign} {self.draw.randint(-2, 3)}",
            self.moment,
        ]
        if depth > 0:
            plain += [lambda: f"({self.condition(less)} {self.draw.choice(['AND', 'OR'])} {self.condition(less)})", lambda: f"NOT ({self.condition(less)})"]
        return self.one_of(*plain)

    def window(self, places):
        """A call over a window that counts a decimal, and one that counts rows."""
        amount, by = self.amount(places, 1), self.draw.choice(["qty", f"{self.amount(places, 1)} > {self.number(places)}"])
        offset = self.draw.choice(["1", "0.5", "2.25"])
        decimal = self.one_of(
            lambda: f"SUM({amount}) OVER (PARTITION BY {by})",
            lambda: f"MIN({amount}) OVER (PARTITION BY {by})",
            lambda: f"MAX({amount}) OVER (PARTITION BY qty ORDER BY id ROWS 2 PRECEDING)",
            lambda: f"LAG({amount}, 1, {self.number(places)}) OVER (ORDER BY id)",
            lambda: f"FIRST_VALUE({amount}) OVER (PARTITION BY {by} ORDER BY id)",
            lambda: f"SUM({amount}) OVER (ORDER BY {self.draw.choice(self.names[places])} RANGE BETWEEN {offset} PRECEDING AND CURRENT ROW)",
        )
        rows = self.one_of(
            lambda: f"COUNT(*) OVER (PARTITION BY {by})",
            lambda: f"COUNT(*) OVER (ORDER BY d RANGE BETWEEN INTERVAL '{self.draw.randint(1, 3)} days' PRECEDING AND CURRENT ROW)",
            lambda: f"COUNT(*) OVER (ORDER BY t DESC RANGE BETWEEN INTERVAL '{self.draw.randint(1, 40)} hours' PRECEDING AND CURRENT ROW)",
            lambda: "RANK() OVER (PARTITION BY qty ORDER BY total)",
        )
        return decimal, rows

    def query(self):
        places = self.draw.choice([2, 2, 4])
        return self.one_of(self.plain, *[lambda: self.derived(places)] * 3, lambda: self.grouped(places), lambda: self.keyed(places), lambda: self.among(places))

    def plain(self):
        return f"SELECT id FROM o WHERE {self.condition(3)}"

    def derived(self, places):
        decimal, rows = self.window(places)
        inner = f"SELECT id, {self.amount(places, 2)} AS s, {decimal} AS w, {rows} AS n, qty, d, t, total, paid, rate FROM o"
        kept = {it: list(names) for it, names in self.names.items()}
        self.names[places] += ["s", "w"]
        outer = f"{self.condition(2)} AND n {self.draw.choice(['<', '>='])} {self.draw.randint(1, 6)}"
        self.names = kept
        return f"WITH x AS ({inner}) SELECT id FROM x WHERE {outer}" if self.draw.random() < 0.5 else f"SELECT id FROM ({inner}) AS x WHERE {outer}"

    def grouped(self, places):
        amount, sign = self.amount(places, 1), self.draw.choice(["<", ">="])
        kept = self.draw.choice(["", f" FILTER (WHERE {self.condition(1)})"])
        call = f"{self.draw.choice(['SUM', 'MIN', 'MAX'])}({amount}){kept}"
        return f"SELECT qty AS id FROM o WHERE qty IS NOT NULL GROUP BY qty HAVING {call} {sign} {self.number(places)}"


    def keyed(self, places):
        return f"SELECT COUNT(*) AS id FROM o WHERE {self.condition(1)} GROUP BY {self.amount(places, 2)} HAVING MIN({self.amount(places, 1)}) > {self.number(places)}"

    def among(self, places):
        return f"SELECT id FROM o WHERE {self.condition(0)} AND {self.draw.choice(self.names[places])} IN (SELECT {self.amount(places, 1)} FROM o WHERE {self.condition(0)})"


def tables(draw):
    """The statements that make and fill both tables."""
    rows = ", ".join(f"({number + 1}, {', '.join(value(draw, name) for name in TYPES)})" for number in range(ROWS))
    whole = ", ".join(f"({it})::bigint AS {name}" for name, it in WHOLE.items())
    return f"{SCHEMA} INSERT INTO o VALUES {rows}; CREATE SCHEMA whole; CREATE TABLE whole.o AS SELECT id, {whole} FROM o;"


if __name__ == "__main__":
    sys.exit(postgres.main(SCHEMA, tables, lambda draw: Queries(draw).query(), ("SET search_path = public;", "SET search_path = whole;")))
