#!/usr/bin/env python3
"""Draws queries that group small random tables and compares each answer with a plain count.

    python3 tests/random_grouped.py PROGRAM [--number N] [--seed S] [--postgres DATABASE]

A query has GROUP BY with columns, brackets, ROLLUP, CUBE, GROUPING SETS and the empty set, or none; HAVING; aggregates, GROUPING
and windows over them in the select list; DISTINCT, ORDER BY and a limit; over a table, a join or a derived table, which groups
too. The answer is counted here from the standard's definitions: the sets of each item are written out, the rows of each group
gathered, and each call computed over them, step by step, and of the faults of a step the least counts. Functions that go by the
place of a row stand there only where no two groups tie, but for every sixth query, which is open: of this one the answer is not
counted. Some queries are spoiled in one clause or two, and must be refused by the number of the first. Of every third query
`check` must be borne out: `verify` accepts its certificate, of version 2, and over rearranged records `run` gives one answer, in
one order where `check --list` and `verify --list` say so; or `refute` takes its witness. --postgres asks that database too (by
psql), which shows that this page tells the rules as it does. Above the last line, 'N passed, M failed', stands how many queries
there were of each kind.
"""

import argparse
import collections
import csv
import functools
import io
import json
import os
import random
import re
import subprocess
import sys
import tempfile
from collections import namedtuple

SCHEMA = ("CREATE TABLE t (id BIGINT PRIMARY KEY, a BIGINT, b TEXT NOT NULL, c TEXT, d BOOLEAN, v BIGINT);\n"
          "CREATE TABLE s (k BIGINT PRIMARY KEY, n TEXT, w BIGINT);\n")
KINDS = {"t": {"id": "whole", "a": "whole", "b": "text", "c": "text", "d": "truth", "v": "whole"}, "s": {"k": "whole", "n": "text", "w": "whole"}}
MOST_SETS = 64
# The clauses that are spoiled, in the order in which they are judged.
JUDGED = ["WHERE", "GROUP BY", "HAVING", "WINDOW", "SELECT", "ORDER BY"]

# A value of a query: its text, its kind, and what it is of a row. A row is a dict: from the keys of its columns to their values, and
# above a grouping also from the texts of calls.
Expr = namedtuple("Expr", "text kind of")
# A column by its key, with the ways to write it, the last of which names the table.
Column = namedtuple("Column", "key kind texts")
Source = namedtuple("Source", "text columns rows")
# An item of GROUP BY and its sets.
Item = namedtuple("Item", "text sets")
# An aggregate (without an argument COUNT(*)), and GROUPING.
Aggregate = namedtuple("Aggregate", "key function argument")
Grouping = namedtuple("Grouping", "key columns")
SortKey = namedtuple("SortKey", "expr text descending nulls_first")
Window = namedtuple("Window", "text partition order")
Call = namedtuple("Call", "key function argument window")


class Fault(Exception):
    """A fault of a step: 1 is division by zero, 2 out of range."""


# Values


def exact(number):
    if not -(2**63) <= number < 2**63:
        raise Fault(2)
    return number


def divided(a, b):
    if b == 0:
        raise Fault(1)
    return exact(abs(a) // abs(b) * (1 if (a < 0) == (b < 0) else -1))


OPERATORS = {"+": lambda a, b: exact(a + b), "-": lambda a, b: exact(a - b), "*": lambda a, b: exact(a * b), "/": divided,
             "=": lambda a, b: a == b, "<>": lambda a, b: a != b, "<": lambda a, b: a < b, ">=": lambda a, b: a >= b}


def of_known(operator, *parts):
    """The operator's value, or NULL where a part is NULL."""
    def of(row):
        values = [part.of(row) for part in parts]
        return None if None in values else operator(*values)
    return of


def joined(one, other, decisive):
    """AND (decided by false) and OR (decided by true): the right side is looked at only where the left one leaves it open."""
    def of(row):
        first = one.of(row)
        if first is decisive:
            return decisive
        second = other.of(row)
        return decisive if second is decisive else None if None in (first, second) else not decisive
    return of


def compare(a, b, key):
    """Below, at or above 0 as the one value stands before the other: NULL is the largest unless the key says otherwise."""
    if a is None or b is None:
        return 0 if a is b else 1 if (a is None) != key.nulls_first else -1
    return 0 if a == b else (-1 if a < b else 1) * (-1 if key.descending else 1)


def compare_all(one, other, keys):
    return next(filter(None, (compare(a, b, key) for a, b, key in zip(one, other, keys))), 0)


def of_step(rows, exprs):
    """The values of the expressions at each row; a step that faults has the least of its faults."""
    values, faults = [], []
    for row in rows:
        values.append([])
        for expr in exprs:
            try:
                values[-1].append(expr.of(row))
            except Fault as fault:
                faults.append(fault.args[0])
    if faults:
        raise Fault(min(faults))
    return values


# Expressions


def literal(draw, kind):
    if kind == "whole":
        number = draw.choice([0, 1, 2, 3, 7])
        return Expr(str(number), kind, lambda row: number)
    if kind == "text":
        text = draw.choice("xyz")
        return Expr(f"'{text}'", kind, lambda row: text)
    truth = draw.random() < 0.5
    return Expr(str(truth).upper(), kind, lambda row: truth)


def expression(draw, kind, leaf, depth=2):
    """An expression of a kind over what `leaf` draws, which has kinds of its own where it has none of this one."""
    below = lambda of: expression(draw, of, leaf, depth - 1)
    way = draw.random()
    if depth == 0 or way < 0.45:
        found = leaf(kind) if draw.random() < 0.85 else None
        return found or literal(draw, kind)
    if way < 0.6:
        when, then, other = below("truth"), below(kind), below(kind) if draw.random() < 0.6 else None
        text = f"CASE WHEN {when.text} THEN {then.text}{f' ELSE {other.text}' if other else ''} END"
        return Expr(text, kind, lambda row: then.of(row) if when.of(row) else other.of(row) if other else None)
    if kind == "whole":
        if way < 0.7:
            one = below(kind)
            return Expr(f"- ({one.text})", kind, of_known(lambda a: exact(-a), one))
        one, other = below(kind), below(kind)
        operator = draw.choice("++--*")
        return Expr(f"({one.text} {operator} {other.text})", kind, of_known(OPERATORS[operator], one, other))
    if kind == "text":
        return below(kind)
    return condition(draw, below, way)


def condition(draw, below, way):
    kind = draw.choice(list(KINDS["t"].values()))
    if way < 0.7:
        one, word = below(kind), draw.choice(["IS NULL", "IS NOT NULL"])
        return Expr(f"({one.text} {word})", "truth", lambda row: (one.of(row) is None) == (word == "IS NULL"))
    if way < 0.85:
        one, other, operator = below(kind), below(kind), draw.choice(["=", "<>", "<", ">="])
        return Expr(f"({one.text} {operator} {other.text})", "truth", of_known(OPERATORS[operator], one, other))
    one, other, word = below("truth"), below("truth"), draw.choice(["AND", "OR", "NOT"])
    if word == "NOT":
        return Expr(f"(NOT {one.text})", "truth", of_known(lambda a: not a, one))
    return Expr(f"({one.text} {word} {other.text})", "truth", joined(one, other, word == "OR"))


# Tables, and what stands behind FROM


def random_tables(draw):
    """The rows of both tables, whose small values make ties."""
    maybe = lambda value: None if draw.random() < 0.2 else value
    large = draw.random() < 0.1
    whole = lambda: draw.choice([2**63 - 1, -(2**63), 2**62]) if large and draw.random() < 0.3 else draw.randint(-3, 6)
    t = [{"id": number, "a": maybe(draw.randint(1, 3)), "b": draw.choice("xyz"), "c": maybe(draw.choice("xy")),
          "d": maybe(draw.random() < 0.5), "v": maybe(whole())} for number in range(1, draw.choice([0, 1, 4, 8, 14]) + 1)]
    s = [{"k": number, "n": maybe(draw.choice("xy")), "w": maybe(whole())} for number in draw.sample(range(1, 5), draw.choice([0, 2, 3, 4]))]
    draw.shuffle(t)
    return {"t": t, "s": s}


def columns_of(table, name, alone):
    """The columns of a table in FROM; their bare names do where it stands alone."""
    return [Column(f"{name}.{it}", kind, [it, it, f"{name}.{it}"] if alone else [f"{name}.{it}"]) for it, kind in KINDS[table].items()]


def rows_of(tables, table, name):
    return [{f"{name}.{key}": value for key, value in row.items()} for row in tables[table]]


def source_of_table(draw, tables):
    name, text = draw.choice([("t", "t"), ("q", "t AS q"), ("q", "t q")])
    return Source(text, columns_of("t", name, True), lambda: rows_of(tables, "t", name))


def source_of_join(draw, tables):
    pairs = lambda one, other, on: [a | b for a in one for b in other if on(a, b)]
    same = lambda a, b: a is not None and a == b
    if draw.random() < 0.6:
        rows = lambda: pairs(rows_of(tables, "t", "t"), rows_of(tables, "s", "s"), lambda a, b: same(a["t.a"], b["s.k"]))
        text = draw.choice(["t JOIN s ON t.a = s.k", "t INNER JOIN s ON k = a"])
        return Source(text, columns_of("t", "t", True) + columns_of("s", "s", True), rows)
    rows = lambda: pairs(rows_of(tables, "t", "x"), rows_of(tables, "t", "y"), lambda a, b: same(a["x.b"], b["y.b"]) and a["x.id"] < b["y.id"])
    return Source("t AS x JOIN t AS y ON x.b = y.b AND x.id < y.id", columns_of("t", "x", False) + columns_of("t", "y", False), rows)


def source_of_derived(draw, tables):
    """A derived table, which shows columns as they are, or groups."""
    inner = Select(draw, source_of_table(draw, tables) if draw.random() < 0.7 else source_of_join(draw, tables), "i")
    inner.draw_all(draw.randint(2, 4), is_derived=True)
    columns = [Column(f"z.i{number}", output.kind, [f"i{number}", f"z.i{number}"]) for number, output in enumerate(inner.outputs, 1)]
    rows = lambda: [dict(zip((it.key for it in columns), row)) for row in inner.answer()]
    return Source(f"({inner.text()}) AS z", columns, rows)


def random_source(draw, tables):
    return draw.choice([source_of_table, source_of_table, source_of_join, source_of_derived])(draw, tables)


# GROUP BY


def random_element(draw, columns):
    """A column or several in brackets: the text and the keys."""
    chosen = [draw.choice(columns) for _ in range(draw.choice([1, 1, 1, 2, 3]))]
    text = ", ".join(draw.choice(it.texts) for it in chosen)
    return (f"({text})" if len(chosen) > 1 or draw.random() < 0.2 else text), [it.key for it in chosen]


def random_item(draw, columns):
    """An item of GROUP BY, whose sets are as the standard writes them out."""
    elements = [random_element(draw, columns) for _ in range(draw.choice([1, 2, 2, 3]))]
    texts, sets = [it for it, _ in elements], [it for _, it in elements]
    way = draw.random()
    if way < 0.35:
        return Item(texts[0], [sets[0]])
    if way < 0.4:
        return Item("()", [[]])
    if way < 0.6:
        return Item(f"ROLLUP ({', '.join(texts)})", [sum(sets[:count], []) for count in range(len(sets), -1, -1)])
    if way < 0.8:
        shown = [[number for number in range(len(sets)) if mask >> (len(sets) - 1 - number) & 1] for mask in range(2 ** len(sets) - 1, -1, -1)]
        return Item(f"CUBE ({', '.join(texts)})", [sum((sets[it] for it in chosen), []) for chosen in shown])
    if draw.random() < 0.5:
        at = draw.randint(0, len(sets))
        texts.insert(at, "()")
        sets.insert(at, [])
    return Item(f"GROUPING SETS ({', '.join(texts)})", sets)


def all_sets(items):
    """Each set of the first item with each of the second, and so on; a column counts once in a set."""
    sets = [[]]
    for item in items:
        sets = [one + other for one in sets for other in item.sets]
    return [list(dict.fromkeys(it)) for it in sets]


def aggregate_value(function, values):
    known = [it for it in values if it is not None]
    if function == "COUNT":
        return len(known)
    return None if not known else exact(sum(known)) if function == "SUM" else min(known) if function == "MIN" else max(known)


# Windows


def window_values(call, keys):
    """The call's value at each row; `keys` has the values of its argument, partition and order there."""
    values = []
    for _, partition, order in keys:
        inside = [(at, compare_all(it[2], order, call.window.order)) for at, it in enumerate(keys) if it[1] == partition]
        before, upto = [at for at, side in inside if side < 0], [at for at, side in inside if side <= 0]
        groups = {tuple(keys[at][2]) for at in upto}
        argument = lambda them: [keys[at][0] for at in them]
        if call.function in ("RANK", "ROW_NUMBER"):
            values.append(len(before) + 1)
        elif call.function == "DENSE_RANK":
            values.append(len(groups))
        elif call.function == "LAG":
            ordered = sorted(before, key=functools.cmp_to_key(lambda a, b: compare_all(keys[a][2], keys[b][2], call.window.order)))
            values.append(argument(ordered[-1:])[0] if ordered else None)
        else:
            values.append(len(upto) if call.argument is None else aggregate_value(call.function, argument(upto)))
    return values


def has_ties(keys):
    shown = collections.Counter((tuple(partition), tuple(order)) for _, partition, order in keys)
    return any(count > 1 for count in shown.values())


# Selects


class Select:
    """A select that groups: it is drawn part by part, and tells its text and its answer."""

    def __init__(self, draw, source, prefix, is_open=False):
        self.draw, self.source, self.prefix, self.is_open = draw, source, prefix, is_open
        self.where, self.items, self.having, self.calls, self.windows = None, [], None, {}, {}
        self.outputs, self.aliases, self.named, self.order, self.distinct, self.limit = [], [], [], [], False, None

    # Drawing

    def column(self, kind, keys=None):
        """A column of FROM, or one of those with these keys, of a kind, if there is one."""
        found = [it for it in self.source.columns if it.kind == kind and (keys is None or it.key in keys)]
        if not found:
            return None
        column = self.draw.choice(found)
        return Expr(self.draw.choice(column.texts), kind, lambda row: row[column.key])

    def group_keys(self):
        return list(dict.fromkeys(key for item in self.items for keys in item.sets for key in keys))

    def aggregate(self, kind):
        functions = {"whole": ["COUNT", "COUNT", "SUM", "SUM", "MIN", "MAX"], "text": ["MIN", "MAX"], "truth": []}[kind]
        if not functions:
            return None
        function, argument = self.draw.choice(functions), None
        if function != "COUNT" or self.draw.random() < 0.5:
            of = self.draw.choice(["whole", "text", "truth"]) if function == "COUNT" else kind
            argument = expression(self.draw, of, self.column, 1)
            divisor = self.column("whole")  # PostgreSQL divides literals even where there is no row.
            if of == "whole" and divisor and self.draw.random() < 0.1:
                argument = Expr(f"10 / {divisor.text}", of, of_known(lambda a: divided(10, a), divisor))
        key = f"{function}({argument.text if argument else '*'})"
        self.calls[key] = Aggregate(key, function, argument)
        return Expr(key, kind, lambda row: row[key])

    def grouping(self):
        keys = self.group_keys()
        if not keys:
            return None
        chosen = [self.draw.choice([it for it in self.source.columns if it.key in keys]) for _ in range(self.draw.choice([1, 1, 2, 3]))]
        key = f"GROUPING({', '.join(self.draw.choice(it.texts) for it in chosen)})"
        self.calls[key] = Grouping(key, [it.key for it in chosen])
        return Expr(key, "whole", lambda row: row[key])

    def of_group(self, kind):
        """What may stand above a grouping: a column that is grouped by, an aggregate or GROUPING."""
        way = self.draw.random()
        if way < 0.15 and kind == "whole":
            return self.grouping() or self.aggregate(kind)
        return (self.column(kind, self.group_keys()) if way < 0.6 else None) or self.aggregate(kind)

    def sort_key(self, expr, text=None):
        descending, nulls = self.draw.random() < 0.4, self.draw.choice([None, None, True, False])
        text = f"{text or expr.text}{' DESC' if descending else self.draw.choice(['', ' ASC'])}"
        text += {None: "", True: " NULLS FIRST", False: " NULLS LAST"}[nulls]
        return SortKey(expr, text, descending, descending if nulls is None else nulls)

    def any_of_group(self, depth=1):
        return expression(self.draw, self.draw.choice(["whole", "whole", "text", "truth"]), self.of_group, depth)

    def parting_keys(self):
        """Keys that part all groups where no set is repeated: GROUPING of each column, and the columns."""
        columns = [it for it in self.source.columns if it.key in self.group_keys()]
        exprs = []
        for column in columns[:8]:
            key = f"GROUPING({column.texts[-1]})"
            self.calls[key] = Grouping(key, [column.key])
            exprs.append(Expr(key, "whole", lambda row, key=key: row[key]))
        return exprs + [Expr(it.texts[-1], it.kind, lambda row, key=it.key: row[key]) for it in columns]

    def random_window(self):
        if self.named and self.draw.random() < 0.3:
            name, window = self.draw.choice(self.named)
            return window._replace(text=name)
        partition = [self.any_of_group() for _ in range(self.draw.choice([0, 0, 0, 1]))]
        exprs = self.parting_keys() if not self.is_open and self.draw.random() < 0.4 else [self.any_of_group() for _ in range(self.draw.choice([0, 1, 1, 2]))]
        order = [self.sort_key(it) for it in exprs]
        parts = [f"{word} BY {', '.join(it.text for it in of)}" for word, of in (("PARTITION", partition), ("ORDER", order)) if of]
        window = Window(f"({' '.join(parts)})", partition, order)
        if self.draw.random() < 0.15:
            self.named.append((f"w{len(self.named)}", window))
        return window

    def window_call(self, kind):
        """A call over the groups, of a kind; one that goes by places only where no two groups tie, or where the answer is open."""
        if kind == "truth":
            return None
        functions = {"whole": ["RANK", "DENSE_RANK", "COUNT", "SUM", "SUM", "MIN", "MAX", "ROW_NUMBER", "ROW_NUMBER", "LAG"], "text": ["MIN", "MAX", "LAG"]}[kind]
        function, window, argument = self.draw.choice(functions[-3:] if self.is_open else functions), self.random_window(), None
        if function == "COUNT" and self.draw.random() < 0.5:
            argument = self.any_of_group()
        elif function == "LAG":
            argument = self.of_group(kind)
        elif function in ("SUM", "MIN", "MAX"):
            argument = expression(self.draw, kind, self.of_group, 1)
        call = Call(None, function, argument, window)
        if function in ("ROW_NUMBER", "LAG") and not self.is_open and self.may_tie(call):
            call = call._replace(function="RANK" if function == "ROW_NUMBER" else "MAX")
        inside = argument.text if argument else "*" if call.function == "COUNT" else ""
        key = f"{call.function}({inside}) OVER {window.text}"
        self.windows[key] = call._replace(key=key)
        return Expr(key, kind, lambda row: row[key])

    def may_tie(self, call):
        try:
            return has_ties(self.window_keys(call, self.groups()))
        except Fault:
            return True

    def output(self):
        kind = self.draw.choice(["whole", "whole", "whole", "text", "truth"])
        if self.prefix == "o" and kind != "truth" and self.draw.random() < 0.3:
            call = self.window_call(kind)
            return Expr(f"{call.text} - 1", kind, of_known(lambda a: exact(a - 1), call)) if kind == "whole" and self.draw.random() < 0.1 else call
        return expression(self.draw, kind, self.of_group, self.draw.choice([0, 0, 1, 2]))

    def draw_all(self, count, is_derived=False):
        if self.draw.random() < 0.3:
            self.where = expression(self.draw, "truth", self.column)
        columns = self.draw.sample(self.source.columns, min(len(self.source.columns), self.draw.choice([1, 2, 3])))
        most = 6 if is_derived else self.draw.choice([8, 8, 8, 8, MOST_SETS])
        for _ in range(self.draw.choice([0, 1, 1, 1, 2, 2, 3])):
            item = random_item(self.draw, columns)
            if len(all_sets([*self.items, item])) <= most:
                self.items.append(item)
        if self.draw.random() < 0.3:
            self.having = expression(self.draw, "truth", self.of_group)
        self.outputs = [self.output() for _ in range(count)]
        self.keep_written()
        if not self.is_grouped():
            self.outputs.append(self.aggregate("whole"))
        self.aliases = [f"{self.prefix}{number}" if is_derived or self.draw.random() < 0.6 else None for number in range(1, len(self.outputs) + 1)]
        if not is_derived:
            self.draw_end()
            self.keep_written()

    def keep_written(self):
        """Keeps the calls that stand in the query: some were drawn for what is not written."""
        written = [*self.outputs, *([self.having] if self.having else []), *(window for _, window in self.named), *self.order]
        self.calls = {key: call for key, call in self.calls.items() if any(key in it.text for it in written)}
        self.windows = {key: call for key, call in self.windows.items() if any(key in it.text for it in written)}

    def is_grouped(self):
        return bool(self.items or self.having or self.calls)

    def draw_end(self):
        self.distinct = self.draw.random() < 0.15
        for _ in range(self.draw.choice([0, 0, 1, 2, 3])):
            number = self.draw.randrange(len(self.outputs))
            text, shown = self.aliases[number] if self.aliases[number] and self.draw.random() < 0.5 else str(number + 1), self.outputs[number]
            if self.distinct or self.draw.random() < 0.5:
                self.order.append(self.sort_key(shown, text))
            else:
                expr = self.any_of_group()
                self.order.append(self.sort_key(expr, f"({expr.text} + 0)") if expr.kind == "whole" else self.sort_key(expr, f"CASE WHEN TRUE THEN {expr.text} END"))
        way = self.draw.random()
        if way < 0.15 and self.order:
            self.limit = (0, self.draw.randint(0, 4), True)
        elif way < 0.3 and (self.is_open or self.is_total()):
            self.limit = (self.draw.choice([0, 0, 1, 2]), self.draw.choice([0, 1, 1, 2, 3]), False)

    # What it means

    def groups(self):
        """The rows of the groups, set by set, with the values of all calls; those that HAVING keeps."""
        rows = self.source.rows()
        if self.where:
            rows = [row for row, (kept,) in zip(rows, of_step(rows, [self.where])) if kept]
        aggregates = [it for it in self.calls.values() if isinstance(it, Aggregate)]
        arguments = [it.argument or Expr("", "whole", lambda row: 1) for it in aggregates]
        for row, values in zip(rows, of_step(rows, arguments)):
            row.update((it.key, value) for it, value in zip(aggregates, values))
        groups, faults = [], []
        for columns in all_sets(self.items):
            members = {(): []} if not columns else {}
            for row in rows:
                members.setdefault(tuple(row[it] for it in columns), []).append(row)
            for values, inside in members.items():
                group = dict.fromkeys(self.group_keys()) | dict(zip(columns, values))
                for call in self.calls.values():
                    try:
                        group[call.key] = self.call_value(call, columns, inside)
                    except Fault as fault:
                        faults.append(fault.args[0])
                groups.append(group)
        if faults:
            raise Fault(min(faults))
        return [group for group, (kept,) in zip(groups, of_step(groups, [self.having])) if kept] if self.having else groups

    @staticmethod
    def call_value(call, columns, rows):
        if isinstance(call, Aggregate):
            return aggregate_value(call.function, [row[call.key] for row in rows])
        return sum((it not in columns) << place for place, it in enumerate(reversed(call.columns)))

    @staticmethod
    def window_exprs(call):
        return [call.argument or Expr("", "whole", lambda row: 1), *call.window.partition, *(it.expr for it in call.window.order)]

    def window_keys(self, call, groups):
        past = 1 + len(call.window.partition)
        return [(values[0], values[1:past], values[past:]) for values in of_step(groups, self.window_exprs(call))]

    def with_windows(self, groups):
        of_step(groups, [expr for call in self.windows.values() for expr in self.window_exprs(call)])
        faults = []
        for call in self.windows.values():
            try:
                for group, value in zip(groups, window_values(call, self.window_keys(call, groups))):
                    group[call.key] = value
            except Fault as fault:
                faults.append(fault.args[0])
        if faults:
            raise Fault(min(faults))
        return groups

    def keyed_answer(self):
        """The rows of the answer before the limit, each with its sort keys, in an order that these allow."""
        rows = self.with_windows(self.groups())
        shown = of_step(rows, [*self.outputs, *(it.expr for it in self.order)])
        keyed = [(values[: len(self.outputs)], values[len(self.outputs) :]) for values in shown]
        if self.distinct:
            keyed = list({tuple(row): (row, keys) for row, keys in reversed(keyed)}.values())
        return sorted(keyed, key=functools.cmp_to_key(lambda one, other: compare_all(one[1], other[1], self.order)))

    def is_total(self):
        """Whether no two rows of the answer tie on its sort keys."""
        try:
            keys = [tuple(keys) for _, keys in self.keyed_answer()]
        except Fault:
            return False
        return bool(self.order) and len(set(keys)) == len(keys)

    def answer(self):
        keyed = self.keyed_answer()
        if self.limit:
            skipped, count, ties = self.limit
            rest = keyed[skipped:]
            taken = rest[:count]
            if ties and taken:
                taken += [it for it in rest[count:] if it[1] == taken[-1][1]]
            keyed = taken
        return [row for row, _ in keyed]

    # Its text

    def parts(self):
        items = [f"{it.text} AS {alias}" if alias else it.text for it, alias in zip(self.outputs, self.aliases)]
        limit = []
        if self.limit:
            skipped, count, ties = self.limit
            limit = [f"OFFSET {skipped} ROWS"] * bool(skipped) + [f"FETCH FIRST {count} ROWS {'WITH TIES' if ties else 'ONLY'}"]
        return {"SELECT DISTINCT" if self.distinct else "SELECT": items, "FROM": [self.source.text], "WHERE": [self.where.text] if self.where else [],
                "GROUP BY": [it.text for it in self.items], "HAVING": [self.having.text] if self.having else [],
                "WINDOW": [f"{name} AS {window.text}" for name, window in self.named], "ORDER BY": [it.text for it in self.order], "": [" ".join(limit)]}

    def text(self):
        return text_of(self.parts())


def text_of(parts):
    return " ".join(f"{word} {', '.join(texts)}".strip() for word, texts in parts.items() if texts).strip()


# Queries that are refused


def tokens(text):
    return re.findall(r"'[^']*'|\w+|<>|<=|>=|[^\s\w]", text)


def added(parts, word, text):
    """The parts with one text more: a condition beside that of WHERE or HAVING, else one more of the list."""
    word = next(it for it in parts if it.startswith(word))
    texts = parts[word]
    return parts | {word: [f"{texts[0]} AND {text}"] if texts and word in ("WHERE", "HAVING") else [*texts, text]}


def spoilings(draw, select, parts):
    """Ways to spoil a select: the number of the refusal, and the parts. A token at fault has @ before it."""
    keys = select.group_keys()
    inside = [it.texts[-1] for it in select.source.columns if it.key in keys]
    outside = [it.texts[-1] for it in select.source.columns if it.key not in keys]
    any_of = lambda kind: next((it.texts[-1] for it in select.source.columns if it.kind == kind), None)
    column = draw.choice(select.source.columns).texts[-1]
    for it in outside[:3]:
        yield from ((417, added(parts, "SELECT", text)) for text in (it, f"COUNT(*) + CASE WHEN {it} IS NULL THEN 1 END", f"RANK() OVER (ORDER BY {it})",
                                                                   f"COUNT({it}) OVER ()", f"SUM(COUNT(*)) OVER (PARTITION BY {it})"))
        yield 417, added(parts, "HAVING", f"{it} IS NULL")
        yield 417, added(parts, "ORDER BY", it)
        yield 417, added(parts, "WINDOW", f"other AS (ORDER BY {it})")
        yield 418, added(parts, "SELECT", f"GROUPING({it})")
        yield 418, added(parts, "HAVING", f"GROUPING({it}) = 0")
        yield 418, added(parts, "SELECT", f"MAX(GROUPING({it})) OVER ()")
    for text in ("COUNT(*) = 1", f"GROUPING({column}) = 0", "NOT MIN(1) IS NULL"):
        yield 416, added(parts, "WHERE", text)
    for text in ("SUM(COUNT(*))", f"MAX(MIN({column}))" if any_of("truth") != column else "MAX(SUM(1))", "COUNT(1 + COUNT(*))", "SUM(SUM(COUNT(*))) OVER ()"):
        yield 416, added(parts, "SELECT", text)
    for it in inside[:1]:
        yield 416, added(parts, "SELECT", f"SUM(GROUPING({it}))")
        yield 405, added(parts, "SELECT", f"GROUPING({it}, {it} IS NULL)")
        yield 405, added(parts, "SELECT", f"GROUPING({', '.join([it] * 32)})")
        yield 405, added(parts, "SELECT", f"GROUPING({it}) OVER ()")
    for text in ("AVG(1)", "COUNT()", "SUM(*)", "GROUPING()", "GROUPING(*)", "GROUPING(1)", "COUNT(1, 2)", "SUM('x')", "MIN(TRUE)", "RANK()", "TOTAL(*)"):
        yield 405, added(parts, "SELECT", text)
    if any_of("text"):
        yield 405, added(parts, "HAVING", f"SUM({any_of('text')}) = 1")
    if any_of("truth"):
        yield 405, added(parts, "ORDER BY", f"MAX({any_of('truth')})")
    for text in ("RANK() OVER () = 1", "COUNT(*) OVER () = 1"):
        yield 406, added(parts, "HAVING", text)
        yield 406, added(parts, "WHERE", text)
    yield 406, added(parts, "SELECT", "SUM(RANK() OVER ())")
    yield 406, added(parts, "ORDER BY", "COUNT(*) OVER ()")
    yield 404, added(parts, "HAVING", "(COUNT(*))")
    yield 404, added(parts, "SELECT", "COUNT(*) + MIN('x')")
    yield 402, added(parts, "GROUP BY", "nowhere")
    if any(it.key == "y.b" for it in select.source.columns):
        yield 403, added(parts, "GROUP BY", "ROLLUP (b)")
    yield 419, added(parts, "GROUP BY", f"CUBE ({', '.join([column] * 7)})")
    yield 419, added(added(parts, "GROUP BY", f"CUBE ({', '.join([column] * 5)})"), "GROUP BY", f"ROLLUP ({column}, {column})")
    yield 419, added(parts, "GROUP BY", f"GROUPING SETS ({', '.join(['()'] * 65)})")
    yield 415, added(parts, "SELECT", ", ".join(["COUNT(*)"] * 1025))
    for text in ("@1", f"{column} @+ 1", f"({column} @+ 1)", "ROLLUP (@)", f"CUBE ({column}, (@))", f"GROUPING SETS (ROLLUP @({column}))", "(@'x')", f"GROUPING @({column})",
                 f"ROLLUP @{column}", f"COUNT@(*)"):
        yield 201, added(parts, "GROUP BY", text)


def changed(parts, spoiled):
    return next(word for word in parts if parts[word] != spoiled[word])


def random_refusal(draw, select):
    """The text of a select that is spoiled, and the line that it must be refused by: of two clauses by that of the first to be judged."""
    parts = {word.replace(" DISTINCT", ""): texts for word, texts in select.parts().items()}
    number, spoiled = draw.choice(list(spoilings(draw, select, parts)))
    other, twice = draw.choice(list(spoilings(draw, select, spoiled)))
    first, second = JUDGED.index(changed(parts, spoiled)), JUDGED.index(changed(spoiled, twice))
    if first != second and 201 not in (number, other) and draw.random() < 0.5:
        number, spoiled = number if first < second else other, twice
    before, found, after = text_of(spoiled).partition("@")
    return before + after, f"query: refused {number}" + (f" at {len(tokens(before))}" if found else "")


# The program


def csv_text(names, rows):
    text = io.StringIO()
    csv.writer(text, lineterminator="\n").writerows([names, *([as_text(row[it]) for it in names] for row in rows)])
    return text.getvalue()


def as_text(value):
    return "" if value is None else str(value).lower() if isinstance(value, bool) else str(value)


def write_file(path, text):
    with open(path, "w", encoding="utf-8") as file:
        file.write(text)


class Asked:
    """A query in a folder, and what the program says of it."""

    def __init__(self, program, folder, query):
        self.program, self.folder, self.query = program, folder, query
        write_file(f"{folder}/query.sql", query)

    def said(self, command, *words):
        words = [self.program, *command.split(), f"{self.folder}/schema.sql", f"{self.folder}/query.sql", *words]
        ran = subprocess.run(words, stdin=subprocess.DEVNULL, capture_output=True, text=True, timeout=120)
        return ran.returncode, ran.stdout, ran.stderr

    def run(self, tables):
        """The rows of the answer over the tables that the query reads, or the status and the line."""
        read = [name for name in tables if re.search(rf"\b(FROM|JOIN) {name}\b", self.query)]
        for name in read:
            write_file(f"{self.folder}/{name}.csv", csv_text(list(KINDS[name]), tables[name]))
        status, output, errors = self.said("run", *(f"{name}={self.folder}/{name}.csv" for name in read))
        return list(csv.reader(io.StringIO(output)))[1:] if (status, errors) == (0, "") else f"status {status}, {errors.strip()}"

    def check(self, flag=""):
        """The verdict, and what is wrong with what bears it out, or None."""
        status, output, errors = self.said(f"check {flag}")
        verdict, *lines = output.split("\n")
        words = {"DETERMINISTIC": 0, "DEPENDS": 1, "UNKNOWN": 2, "LISTED": 0, "LIST OPEN": 2}
        if errors or words.get(verdict) != status:
            return verdict, f"check {flag}: status {status}, {output[:300]} {errors}"
        if status == 2:
            return verdict, None
        write_file(f"{self.folder}/evidence.json", lines[0])
        if status == 0 and json.loads(lines[0])["version"] != 2:
            return verdict, f"a certificate of another version: {lines[0]}"
        wanted = [(0, "ACCEPTED\n", ""), (1, "REFUTED\n", "")][status]
        judged = self.said([f"verify {flag}", "refute"][status], f"{self.folder}/evidence.json")
        return verdict, None if judged == wanted else f"{lines[0]} gives {judged}"


def by_postgres(database, tables, query, kinds):
    filled = "".join(f"INSERT INTO {name} VALUES ({', '.join('NULL' if it is None else repr(it) for it in row.values())});\n" for name, rows in tables.items() for row in rows)
    text = SCHEMA.replace("CREATE TABLE", "CREATE TEMPORARY TABLE") + filled + query
    ran = subprocess.run(["psql", "-qXAt", "-F", ",", "-v", "ON_ERROR_STOP=1", database], input=text, capture_output=True, text=True, timeout=60)
    if ran.returncode:
        return f"psql: {ran.stderr.strip()}"
    truths = {"t": "true", "f": "false"}
    return [[truths.get(it, it) if kind == "truth" else it for it, kind in zip(line.split(","), kinds)] for line in ran.stdout.split("\n")[:-1]]


def wanted_answer(select):
    """The answer, its rows as texts, or the fault; and whether the order of its rows is fixed."""
    try:
        rows = [[as_text(it) for it in row] for row in select.answer()]
    except Fault as fault:
        return f"status 4, fault F{fault.args[0]}: {'division by zero' if fault.args[0] == 1 else 'out of range'}", False
    return rows, select.is_total()


def is_answer(found, wanted, in_order):
    return found == wanted if in_order or isinstance(wanted, str) or isinstance(found, str) else sorted(found) == sorted(wanted)


def rearranged(draw, tables):
    return {name: draw.sample(rows, len(rows)) for name, rows in tables.items()}


def wrong_answer(asked, draw, select, tables, is_checked, database, kinds):
    """What is wrong with what is said of a query that is read, or None."""
    wanted, in_order = (asked.run(tables), False) if select.is_open else wanted_answer(select)
    found = asked.run(tables)
    kinds["open" if select.is_open else "fault" if isinstance(wanted, str) else "answer"] += 1
    if not is_answer(found, wanted, in_order):
        return f"gives {found} and not {wanted}"
    if database and not select.is_open and not isinstance(wanted, str):
        found = by_postgres(database, tables, select.text(), [it.kind for it in select.outputs])
        if not is_answer(found, wanted, in_order):
            return f"gives {found} by psql and not {wanted}"
    if not is_checked:
        return None
    verdict, wrong = asked.check()
    kinds[verdict] += 1
    if wrong or verdict != "DETERMINISTIC":
        return wrong
    if select.order:
        verdict, wrong = asked.check("--list")
        kinds[verdict] += 1
        in_order = in_order or verdict == "LISTED"
    for other in (rearranged(draw, tables), rearranged(draw, tables)):
        found = asked.run(other)
        if not is_answer(found, wanted, in_order):
            return f"is {verdict} and gives {found} and {wanted}"
    return wrong


def main():
    parser = argparse.ArgumentParser(description=__doc__.splitlines()[0])
    parser.add_argument("program")
    parser.add_argument("--number", type=int, default=400)
    parser.add_argument("--seed", type=int, default=1)
    parser.add_argument("--postgres", metavar="DATABASE")
    given = parser.parse_args()
    draw, passed, kinds = random.Random(given.seed), 0, collections.Counter()
    with tempfile.TemporaryDirectory() as folder:
        write_file(f"{folder}/schema.sql", SCHEMA)
        for number in range(given.number):
            tables = random_tables(draw)
            select = Select(draw, random_source(draw, tables), "o", is_open=number % 6 == 0)
            select.draw_all(draw.randint(1, 5))
            if draw.random() < 0.2:
                query, line = random_refusal(draw, select)
                kinds["refusal"] += 1
                said = Asked(os.path.abspath(given.program), folder, query).said("check")
                wrong = None if said == (3, "", f"{line}\n") else f"gives {said} and not {line}"
            else:
                query = select.text()
                asked = Asked(os.path.abspath(given.program), folder, query)
                wrong = wrong_answer(asked, draw, select, tables, number % 3 == 0, given.postgres, kinds)
            passed += not wrong
            if wrong:
                print(query, *(f"{name}:\n{csv_text(list(KINDS[name]), rows)}" for name, rows in tables.items()), wrong, sep="\n", end="\n\n")
    print(", ".join(f"{kinds[it]} {it}" for it in ("answer", "fault", "open", "refusal", "DETERMINISTIC", "DEPENDS", "UNKNOWN", "LISTED", "LIST OPEN")))
    print(f"{passed} passed, {given.number - passed} failed")
    return 0 if passed == given.number else 1


if __name__ == "__main__":
    sys.exit(main())
