#!/usr/bin/env python3
"""Draws schemas and queries of the plain class and compares each verdict with what the schema and the query alone tell.

    python3 tests/random_plain.py PROGRAM [--number N] [--seed S]

A query of the plain class selects columns of one table, `*` and `t.*`, and one ROW_NUMBER over a window of columns; besides it has
at most a WINDOW clause, whose other windows may be of any kind. Its answer is determined exactly where the window's columns contain
a key that no two rows share (a primary one, one with NULLS NOT DISTINCT, or one whose columns are all NOT NULL; the rule is
`unique`), or else every column that the query reads (`exchange`). `check` must say just that, by that rule, and never UNKNOWN;
`verify` must accept each certificate, and `refute` each witness. Of a witness the table must meet the schema and both orderings be
lawful, and the two answers that they give, which are computed here in the plainest way, must differ. Above the last line,
'N passed, M failed', stands how many queries there were of each kind.
"""

import argparse
import collections
import json
import os
import random
import re
import subprocess
import sys
import tempfile
from collections import namedtuple

Column = namedtuple("Column", "name kind not_null")
Key = namedtuple("Key", "columns primary distinct")
Table = namedtuple("Table", "name columns keys")
# A column with what stands behind it, and what that means.
SortKey = namedtuple("SortKey", "column text descending nulls_first")
# The columns of the table that a query shows, in order, None being the number; and its window.
Query = namedtuple("Query", "shown partition order")

KINDS = {"whole": ["SMALLINT", "INT2", "INTEGER", "INT", "INT4", "BIGINT", "INT8"], "text": ["TEXT"], "truth": ["BOOLEAN", "BOOL"]}
BITS = {"SMALLINT": 16, "INT2": 16, "INTEGER": 32, "INT": 32, "INT4": 32}
NAMES = ["a", "b", "c", "id", "v", "x1", "_low", "v$", "total", "first", "ties", "row", "nulls", "key", "row_number",
         "A", "Total", "a b", 'it"s', "select", "ORDER", "é", "t.a", "*", "--"]
TABLES = ["t", "s", "p", "orders", "Rows", "a b"]
RESERVED = """all and as asc by case constraint create cross desc distinct else end false fetch from full group groups having inner is
    isnull join left limit natural not notnull null offset on or order outer over partition primary range right rows select table
    then true union unique using when where window with""".split()


class Writer:
    """Spells words and names as one may: words in any case, names in quotes or, where that is the same name, without."""

    def __init__(self, draw):
        self.draw = draw
        self.case = draw.choice([str.upper, str.lower, str.title, self.mixed])

    def mixed(self, text):
        return "".join(self.draw.choice([letter.upper(), letter.lower()]) for letter in text)

    def chance(self, share):
        return self.draw.random() < share

    def words(self, text):
        return self.case(text)

    def either(self, *texts):
        return self.words(self.draw.choice(texts))

    def name(self, text):
        if re.fullmatch(r"[a-z_][a-z0-9_$]*", text) and text not in RESERVED and self.chance(0.8):
            return self.mixed(text) if self.chance(0.3) else text
        doubled = text.replace('"', '""')
        return f'"{doubled}"'

    def alias(self, text):
        return f"{self.words('as')} {self.name(text)}" if self.chance(0.6) else self.name(text)

    def joined(self, *parts):
        """The parts that there are, each with white space behind it."""
        spaces = [" "] * 27 + ["  ", "\n", " /* a, b */ "]
        return "".join(part + self.draw.choice(spaces) for part in parts if part)


# Schemas


def random_key(draw, count, primary, distinct):
    """A key over some of so many columns; `primary` and `distinct` are how likely it is each of them."""
    columns = tuple(draw.sample(range(count), min(count, draw.choice([1, 1, 2, 2, 3]))))
    is_primary = draw.random() < primary
    return Key(columns, is_primary, not is_primary and draw.random() < distinct)


def random_table(draw, name):
    """A table; now and then it has as many keys as a table may have, most of them nullable."""
    is_full = draw.random() < 0.04
    count = draw.randint(6, 8) if is_full else draw.randint(1, 6)
    names = draw.sample(NAMES, count)
    share = draw.choice([0.1, 0.3] if is_full else [0.1, 0.5, 0.9])
    columns = [Column(it, draw.choice(list(KINDS)), draw.random() < share) for it in names]
    keys = []
    for _ in range(64 if is_full else draw.choice([0, 1, 1, 2, 2, 3])):
        primary = 0 if any(key.primary for key in keys) else 0.01 if is_full else 0.3
        keys.append(random_key(draw, count, primary, 0.97 if is_full else 0.7))
    primary = {it for key in keys if key.primary for it in key.columns}
    columns = [it._replace(not_null=it.not_null or number in primary) for number, it in enumerate(columns)]
    return Table(name, columns, keys)


def rule_text(write, key):
    if key.primary:
        return write.words("primary key")
    return write.either("unique", "unique nulls distinct") if key.distinct else write.words("unique nulls not distinct")


def named_rule(write, text):
    return f"{write.words('constraint')} {write.name(write.draw.choice(NAMES))} {text}" if write.chance(0.2) else text


def table_text(write, table):
    """The table's declaration, and for each column how far its whole numbers reach."""
    draw = write.draw
    types = [draw.choice(KINDS[column.kind]) for column in table.columns]
    primary = {it for key in table.keys if key.primary for it in key.columns}
    rules = [[] for _ in table.columns]
    for number, column in enumerate(table.columns):
        if column.not_null and not (number in primary and write.chance(0.5)):
            rules[number].append(write.words("not null"))
        elif not column.not_null and write.chance(0.2):
            rules[number].append(write.words("null"))
    behind = []
    for key in table.keys:
        if len(key.columns) == 1 and write.chance(0.5):
            rules[key.columns[0]].append(rule_text(write, key))
        else:
            names = ", ".join(write.name(table.columns[it].name) for it in key.columns)
            behind.append(named_rule(write, f"{rule_text(write, key)} ({names})"))
    elements = []
    for column, kind, own in zip(table.columns, types, rules):
        draw.shuffle(own)
        elements.append(" ".join([write.name(column.name), write.words(kind), *[named_rule(write, it) for it in own]]))
    for it in behind:
        elements.insert(draw.randint(0, len(elements)) if write.chance(0.3) else len(elements), it)
    reach = [2 ** (BITS.get(kind, 64) - 1) for kind in types]
    return f"{write.words('create table')} {write.name(table.name)} ({', '.join(elements)})", reach


# Expressions and frames of windows that no call uses


def random_expression(write, table, kind, depth=2):
    draw = write.draw
    below = lambda of: random_expression(write, table, of, depth - 1)
    named = [write.name(it.name) for it in table.columns if it.kind == kind]
    plain = {"whole": ["7", "0"], "text": ["'it''s'", "''"], "truth": [write.words("true"), write.words("false")]}[kind]
    if depth == 0 or write.chance(0.3):
        return draw.choice(named or plain) if write.chance(0.8) else draw.choice(plain)
    if write.chance(0.2):
        return f"{write.words('case when')} {below('truth')} {write.words('then')} {below(kind)} {write.words('end')}"
    if kind == "whole":
        return f"({below(kind)} {draw.choice('+-*/%')} {below(kind)})" if write.chance(0.8) else f"- ({below(kind)})"
    if kind == "text":
        return f"({below(kind)})"
    of = draw.choice(list(KINDS))
    return draw.choice([f"({below(of)} {draw.choice(['=', '<>', '<', '>='])} {below(of)})", f"({below(of)} {write.words('is not null')})",
                        f"({write.words('not')} {below(kind)})", f"({below(kind)} {write.either('and', 'or')} {below(kind)})"])


def random_frame(write, order_kinds):
    """A frame that stands behind sort keys of these kinds, or none."""
    if write.chance(0.6):
        return ""
    modes = ["rows", "range"] + ["groups"] * bool(order_kinds)
    mode = write.draw.choice(modes)
    offsets = mode != "range" or order_kinds == ["whole"]
    places = ["unbounded preceding", *["2 preceding"] * offsets, "current row", *["0 following"] * offsets, "unbounded following"]
    start = write.draw.randint(0, len(places) - 2)
    if places[start] != "0 following" and write.chance(0.3):
        bounds = places[start]
    else:
        bounds = f"between {places[start]} and {places[write.draw.randint(max(start, 1), len(places) - 1)]}"
    excluded = write.draw.choice(["", "", " exclude current row", " exclude group", " exclude ties", " exclude no others"])
    return write.words(f"{mode} {bounds}{excluded}")


def direction_text(write):
    """How a sort key may go on, with whether it is descending and whether NULL stands first: by itself as larger than all."""
    word, nulls = write.draw.choice(["", "asc", "desc"]), write.draw.choice(["", "nulls first", "nulls last"])
    descending = word == "desc"
    text = "".join(f" {write.words(it)}" for it in (word, nulls) if it)
    return text, descending, nulls == "nulls first" if nulls else descending


def unused_window(write, table, bases):
    """A window of any kind; it may begin with one of those before it, which have neither order nor frame."""
    draw, every = write.draw, list(KINDS)
    base = draw.choice(bases) if bases and write.chance(0.3) else None
    partition = [draw.choice(every) for _ in range(0 if base else draw.choice([0, 0, 1, 2]))]
    order = [draw.choice(every) for _ in range(draw.choice([0, 1, 1, 2]))]
    by_partition = [random_expression(write, table, kind) for kind in partition]
    by_order = [random_expression(write, table, kind) + direction_text(write)[0] for kind in order]
    return write.joined(write.name(base) if base else "", listed(write, "partition by", by_partition), listed(write, "order by", by_order),
                        random_frame(write, order))


def listed(write, words, texts):
    return f"{write.words(words)} {', '.join(texts)}" if texts else ""


# Queries


def random_class(draw, table, shown):
    """The columns of the window, of which some may stand twice: often near those of a key or those that are shown."""
    every = range(len(table.columns))
    way = draw.random()
    if way < 0.4 and table.keys:
        chosen = list(draw.choice([table.keys[-1], draw.choice(table.keys)]).columns)
    elif way < 0.7:
        chosen = sorted({it for it in shown if it is not None})
    else:
        chosen = draw.sample(every, min(len(table.columns), draw.choice([0, 0, 1, 2, 3])))
    if chosen and draw.random() < 0.25:
        chosen.remove(draw.choice(chosen))
    if draw.random() < 0.2:
        chosen.append(draw.choice(every))
    draw.shuffle(chosen)
    cut = draw.randint(0, len(chosen))
    return chosen[:cut], chosen[cut:]


def random_query(draw, write, table):
    """A query over the table, and its text."""
    alias = draw.choice(NAMES + ["t"]) if write.chance(0.4) else None
    scope = alias or table.name

    def column_text(number):
        name = write.name(table.columns[number].name)
        return f"{write.name(scope)}.{name}" if write.chance(0.3) else name

    items, shown = [], []
    for _ in range(draw.choice([0, 1, 1, 2, 3, 4])):
        way = draw.random()
        if way < 0.25:
            text, columns = "*" if way < 0.15 else f"{write.name(scope)}.*", list(range(len(table.columns)))
        else:
            number = draw.randrange(len(table.columns))
            text, columns = column_text(number), [number]
            if write.chance(0.3):
                text = f"{text} {write.alias(draw.choice(NAMES))}"
        items.append(text)
        shown.append(columns)

    partition, ordered = random_class(draw, table, [it for each in shown for it in each])
    order = [SortKey(number, *direction_text(write)) for number in ordered]
    windows, over = random_window(write, table, partition, order, column_text)
    function = '"row_number"' if write.chance(0.1) else write.words("row_number")
    number = f"{function}() {write.words('over')} {over}"
    place = draw.randint(0, len(items))
    items.insert(place, f"{number} {write.alias(draw.choice(NAMES))}" if write.chance(0.5) else number)
    shown.insert(place, [None])
    text = write.joined(write.either("select", "select", "select all"), ", ".join(items), write.words("from"), write.name(table.name),
                        write.alias(alias) if alias else "", listed(write, "window", windows), draw.choice(["", ";"]))
    return Query([it for each in shown for it in each], partition, order), text


def random_window(write, table, partition, order, column_text):
    """The entries of WINDOW, some of which no call uses, and what stands behind OVER."""
    draw = write.draw
    in_brackets = lambda number: f"({column_text(number)})" if write.chance(0.05) else column_text(number)
    by_partition = listed(write, "partition by", [in_brackets(it) for it in partition])
    by_order = listed(write, "order by", [in_brackets(it.column) + it.text for it in order])
    frame = random_frame(write, [table.columns[it.column].kind for it in order])
    first, second, *others = draw.sample(NAMES, draw.choice([2, 2, 3, 4]))
    one, other = write.name(first), write.name(second)
    entries, over = draw.choice([
        ([], f"({write.joined(by_partition, by_order, frame)})"),
        ([(first, write.joined(by_partition, by_order, frame))], one),
        ([(first, by_partition)], f"({write.joined(one, by_order, frame)})"),
        ([(first, write.joined(by_partition, by_order))], f"({write.joined(one, frame)})"),
        ([(first, by_partition), (second, write.joined(one, by_order, frame))], other),
    ])
    bases = [first] if entries and entries[0][1] == by_partition else []
    for it in others:
        if write.chance(0.5):
            entries.insert(0, (it, unused_window(write, table, [])))
        else:
            entries.append((it, unused_window(write, table, bases)))
    return [f"{write.name(it)} {write.words('as')} ({text})" for it, text in entries], over


# What the answers to a query are


def expected_rule(table, query):
    """The rule by which the number is determined, or None."""
    known = {*query.partition, *(it.column for it in query.order)}
    for key in table.keys:
        is_shared_by_none = key.primary or not key.distinct or all(table.columns[it].not_null for it in key.columns)
        if is_shared_by_none and known.issuperset(key.columns):
            return "unique"
    return "exchange" if known.issuperset(it for it in query.shown if it is not None) else None


def is_of(value, column, reach):
    if value is None:
        return not column.not_null
    kind = {bool: "truth", str: "text", int: "whole"}.get(type(value))
    return kind == column.kind and (kind != "whole" or -reach <= value < reach)


def meets(table, reach, rows):
    """Whether the rows have the table's columns and break none of its keys."""
    if any(len(row) != len(table.columns) for row in rows):
        return False
    if not all(is_of(*each) for row in rows for each in zip(row, table.columns, reach)):
        return False
    for key in table.keys:
        found = [tuple(row[it] for it in key.columns) for row in rows]
        found = [it for it in found if key.primary or not key.distinct or None not in it]
        if len(found) != len(set(found)):
            return False
    return True


def is_before(one, other, order):
    """Whether a row has smaller sort keys."""
    for key in order:
        a, b = one[key.column], other[key.column]
        if a is None and b is None or a == b:
            continue
        if a is None or b is None:
            return (a is None) == key.nulls_first
        a, b = (it.encode() if isinstance(it, str) else it for it in (a, b))
        return (a < b) != key.descending
    return False


def partition_of(row, query):
    return tuple(row[it] for it in query.partition)


def is_lawful(ordering, rows, query):
    """Whether it has each row once, and none before one of its partition with smaller sort keys."""
    if sorted(ordering) != list(range(len(rows))):
        return False
    pairs = ((rows[one], rows[other]) for place, one in enumerate(ordering) for other in ordering[place + 1 :])
    return not any(partition_of(one, query) == partition_of(other, query) and is_before(other, one, query.order) for one, other in pairs)


def answer(ordering, rows, query):
    """The rows of the answer, with how often there is each."""
    counts, numbers = collections.Counter(), {}
    for position in ordering:
        counts[partition_of(rows[position], query)] += 1
        numbers[position] = counts[partition_of(rows[position], query)]
    return collections.Counter(tuple(numbers[at] if it is None else row[it] for it in query.shown) for at, row in enumerate(rows))


def wrong_witness(table, reach, query, text):
    """What is wrong with a witness, or None."""
    witness = json.loads(text)
    if set(witness) != {"first", "second", "tables"} or set(witness["tables"]) != {table.name}:
        return "the witness has other members or other tables"
    rows, orderings = witness["tables"][table.name], (witness["first"], witness["second"])
    if not meets(table, reach, rows):
        return "the witness's table does not meet the schema"
    if any(len(it) != 1 or not is_lawful(it[0], rows, query) for it in orderings):
        return "an ordering of the witness is not lawful"
    first, second = (answer(it[0], rows, query) for it in orderings)
    return "the witness shows one answer" if first == second else None


# The program


def write_file(path, text):
    with open(path, "w", encoding="utf-8") as file:
        file.write(text)


def said(program, folder, *words):
    """The status of a command, its lines, and what stands on standard error."""
    words = [program, words[0], f"{folder}/schema.sql", f"{folder}/query.sql", *words[1:]]
    ran = subprocess.run(words, stdin=subprocess.DEVNULL, capture_output=True, text=True, timeout=60)
    return ran.returncode, ran.stdout.split("\n"), ran.stderr


def complaint(program, folder, table, reach, query, rule):
    """What is wrong with what the program says of the query, or None."""
    status, lines, errors = said(program, folder, "check")
    verdict = (0, "DETERMINISTIC") if rule else (1, "DEPENDS")
    if (status, lines[0]) != verdict or len(lines) != 3 or errors:
        return f"status {status}, {lines[0]} {errors.strip()}, and not {verdict[1]}"
    write_file(f"{folder}/evidence.json", lines[1])
    if rule:
        found = [call["rule"] for node in json.loads(lines[1])["nodes"] for call in node["calls"]]
        if found != [rule]:
            return f"the rules are {found}, and not {rule}"
        wanted = (0, ["ACCEPTED", ""], "")
    else:
        wrong = wrong_witness(table, reach, query, lines[1])
        if wrong:
            return f"{wrong}: {lines[1]}"
        wanted = (1, ["REFUTED", ""], "")
    judged = said(program, folder, "verify" if rule else "refute", f"{folder}/evidence.json")
    return None if judged == wanted else f"{lines[1]} gives {judged}"


def main():
    parser = argparse.ArgumentParser(description=__doc__.splitlines()[0])
    parser.add_argument("program")
    parser.add_argument("--number", type=int, default=400)
    parser.add_argument("--seed", type=int, default=1)
    given = parser.parse_args()
    program, draw, passed, kinds = os.path.abspath(given.program), random.Random(given.seed), 0, collections.Counter()
    with tempfile.TemporaryDirectory() as folder:
        for _ in range(given.number):
            write = Writer(draw)
            tables = [random_table(draw, name) for name in draw.sample(TABLES, draw.choice([1, 1, 2, 3]))]
            texts = [table_text(write, it) for it in tables]
            at = draw.randrange(len(tables))
            query, text = random_query(draw, write, tables[at])
            schema = ";\n".join(it for it, _ in texts) + draw.choice(["", ";"])
            write_file(f"{folder}/schema.sql", schema)
            write_file(f"{folder}/query.sql", text)
            rule = expected_rule(tables[at], query)
            wrong = complaint(program, folder, tables[at], texts[at][1], query, rule)
            kinds[rule or "depends"] += 1
            passed += not wrong
            if wrong:
                print(f"{schema}\n{text}\n{wrong}\n")
    print(", ".join(f"{kinds[it]} {it}" for it in ("unique", "exchange", "depends")))
    print(f"{passed} passed, {given.number - passed} failed")
    return 0 if passed == given.number else 1


if __name__ == "__main__":
    sys.exit(main())
