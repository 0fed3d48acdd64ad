#!/usr/bin/env python3
"""Counts of how many queries the verdict stays open, among such as report writers write.

    python3 bench/unknown.py [PROGRAM] [--number N] [--seed S] [--keep FOLDER]

PROGRAM is the built wdreport (default: crates/wdreport/out/wdreport, which ./wdreport builds). The queries are drawn over the tables
of a shop; each is a file, and a call of the program judges 200 of them. Prints how many are not read (by number); of how many
`wdcheck check` says DETERMINISTIC, DEPENDS and UNKNOWN; and of the last how many a simpler plan certifies, how many the further search
decides, and how many stay open. With --keep the files stay in FOLDER, which must be there, and its file `open` lists the open ones.
"""

import argparse
import json
import os
import random
import re
import subprocess
import tempfile
from collections import Counter, defaultdict, namedtuple
from pathlib import Path

SCHEMA = """CREATE TABLE customers (customer_id INTEGER PRIMARY KEY, name TEXT NOT NULL, region TEXT, is_member BOOLEAN NOT NULL, rating SMALLINT);
CREATE TABLE products (product_id SMALLINT PRIMARY KEY, title TEXT NOT NULL UNIQUE, category TEXT NOT NULL, price BIGINT);
CREATE TABLE orders (order_id BIGINT PRIMARY KEY, customer_id INTEGER NOT NULL, day TEXT NOT NULL, cents BIGINT NOT NULL, discount SMALLINT, is_paid BOOLEAN);
CREATE TABLE items (order_id BIGINT NOT NULL, line SMALLINT NOT NULL, product_id SMALLINT NOT NULL, quantity INTEGER NOT NULL, note TEXT, PRIMARY KEY (order_id, line));"""
KEYS = {"customers": ["customer_id"], "products": ["product_id"], "orders": ["order_id"], "items": ["order_id", "line"]}
GROUPED = ["region", "is_member", "category", "customer_id", "day", "is_paid", "order_id", "product_id"]
JOINS = [("orders", "customers", "customer_id"), ("items", "orders", "order_id"), ("items", "products", "product_id")]
# A column: its text, its kind, what it serves for (key, group, measure, or call: what a window call gave), and whether it may be NULL.
Column = namedtuple("Column", "text kind use nullable")
COLUMNS = {table: [Column(name, {"TEXT": "text", "BOOLEAN": "truth"}.get(kind, "whole"), "key" if "KEY" in rule else "group" if name in GROUPED else "measure", not rule)
                   for name, kind, rule in re.findall(r"(\w+) (SMALLINT|INTEGER|BIGINT|TEXT|BOOLEAN)( PRIMARY KEY| NOT NULL)?", body)]
           for table, body in re.findall(r"CREATE TABLE (\w+) \((.*)\);", SCHEMA)}
# What stands after FROM, its columns, and those that tell its rows apart, where there are such.
Source = namedtuple("Source", "text columns keys")
LITERALS = {"whole": ["0", "1", "2", "3", "5", "10", "100"], "text": ["'north'", "'x'"], "day": ["'2026-01-01'", "'2026-02'"]}
COMPUTED = ["{0} + {2}", "{0} - {1}", "- {0}", "{0} * {2}", "{0} / 10", "CASE WHEN {0} > {2} THEN {1} ELSE 0 END"]
FILTERS = ["{0} = 1", "{0} = 1", "{0} <= {1}", "{0} <= {1}", "({0} > {2} AND {0} <= {1})", "{0} > {2}"]
LIMITS = [" LIMIT {0}", " LIMIT {0} OFFSET {1}", " FETCH FIRST {0} ROWS ONLY", " FETCH FIRST {0} ROWS WITH TIES", " OFFSET {1} ROWS FETCH NEXT {0} ROWS ONLY", ""]
RANKED, SHIFTED = ["ROW_NUMBER", "RANK", "DENSE_RANK", "NTILE"], ["LAG", "LEAD", "FIRST_VALUE", "LAST_VALUE", "NTH_VALUE", "MIN", "MAX"]
FRAMES = ["ROWS UNBOUNDED PRECEDING", "ROWS 2 PRECEDING", "ROWS BETWEEN 1 PRECEDING AND 1 FOLLOWING", "ROWS BETWEEN 3 PRECEDING AND 1 PRECEDING",
          "ROWS BETWEEN CURRENT ROW AND UNBOUNDED FOLLOWING", "ROWS BETWEEN UNBOUNDED PRECEDING AND UNBOUNDED FOLLOWING", "RANGE UNBOUNDED PRECEDING",
          "RANGE BETWEEN CURRENT ROW AND UNBOUNDED FOLLOWING", "GROUPS 1 PRECEDING", "GROUPS BETWEEN 1 PRECEDING AND 1 FOLLOWING"]
WAYS = ["certified by a simpler plan", "decided by the further search", "open"]  # of those of which wdcheck says UNKNOWN


def source_of_tables(draw):
    """A table, or two or three that are joined by their keys."""
    if draw.random() < 0.6:
        table = draw.choice(["customers", "products", "orders", "orders", "orders", "items"])
        return Source(table, COLUMNS[table], KEYS[table])
    joins = draw.choice([JOINS[:1], JOINS[:1], JOINS[1:2], JOINS[2:], JOINS[1:], JOINS[1::-1]])
    tables = [joins[0][0]] + [other for _, other, _ in joins]
    text = f"{tables[0]} AS {tables[0][0]}" + "".join(f" JOIN {it} AS {it[0]} ON {it[0]}.{column} = {one[0]}.{column}" for one, it, column in joins)
    columns = [it._replace(text=f"{table[0]}.{it.text}") for table in tables for it in COLUMNS[table]]
    return Source(text, columns, [f"{tables[0][0]}.{key}" for key in KEYS[tables[0]]])


def of_use(columns, *uses):
    return [it for it in columns if it.use in uses] or columns


def value(draw, columns):
    """A column, or what is computed of one or two."""
    column = draw.choice(columns)
    if column.kind != "whole" or draw.random() < 0.85:
        return column
    other = draw.choice([it for it in columns if it.kind == "whole"])
    return column._replace(text=draw.choice(COMPUTED).format(column.text, other.text, draw.choice("125")))


def condition(draw, column):
    """A comparison with a literal, or a filter on what a call gave."""
    if column.nullable and draw.random() < 0.3:
        return f"{column.text} IS {draw.choice(['', 'NOT '])}NULL"
    if column.use == "call" and column.kind == "whole":
        return draw.choice(FILTERS).format(column.text, draw.choice([3, 3, 5, 10]), draw.choice([1, 2]))
    literals = LITERALS["day" if column.text.endswith("day") else column.kind] if column.kind != "truth" else []
    return f"{column.text} {draw.choice(['=', '<>', '<', '>', '>=', '<='])} {draw.choice(literals)}" if literals else draw.choice(["", "NOT "]) + column.text


def sort_keys(draw, columns, keys):
    """One or two sort keys, after which in some queries those stand that tell all rows apart."""
    texts = [value(draw, of_use(columns, "measure", "group", "call")).text for _ in range(draw.choice([1, 1, 1, 2]))]
    shown = [text + draw.choice(["", " DESC"]) + draw.choice([""] * 8 + [" NULLS FIRST", " NULLS LAST"]) for text in dict.fromkeys(texts)]
    return "ORDER BY " + ", ".join(shown + ([it for it in keys if it not in texts] if draw.random() < 0.35 else []))


def call(draw, source):
    function = draw.choice(RANKED[:1] * 4 + RANKED + SHIFTED + ["LAG", "COUNT", "SUM", "SUM", "SUM"])
    wholes = [it for it in source.columns if it.kind == "whole"]
    argument = value(draw, of_use(wholes if function == "SUM" and wholes else source.columns, "measure", "group" if function in SHIFTED else ""))
    function = "COUNT" if (function == "SUM" and not wholes) or (function in ("MIN", "MAX") and argument.kind == "truth") else function
    inside = {"NTILE": draw.choice("234"), "NTH_VALUE": f"{argument.text}, 2", "COUNT": draw.choice(["*", argument.text])}.get(function, argument.text)
    groups = [it.text for it in source.columns if it.use == "group"]
    partition = draw.sample(groups, min(draw.choice([0, 0, 1, 1, 2]), len(groups)))
    window = ["PARTITION BY " + ", ".join(partition)] if partition else []
    framed, way = function not in RANKED + ["LAG", "LEAD"], draw.random()
    if framed and wholes and way < 0.08:
        window.append(f"ORDER BY {draw.choice(wholes).text} RANGE BETWEEN {draw.choice('135')} PRECEDING AND CURRENT ROW")
    elif not framed or way < 0.85:
        window.append(sort_keys(draw, [it for it in source.columns if it.text not in partition] or source.columns, [it for it in source.keys if it not in partition]))
    if framed and 0.08 < way < 0.55:
        window.append(draw.choice(FRAMES) + draw.choice([""] * 6 + [" EXCLUDE CURRENT ROW", " EXCLUDE TIES", " EXCLUDE GROUP"]))
    text = f"{function}({'' if function in RANKED[:3] else inside}) OVER ({' '.join(window)})"
    return Column(text, argument.kind if function in SHIFTED else "whole", "call", function in SHIFTED + ["SUM"])


def select(draw, source, calls, filtered):
    """A select without ORDER BY and limits, which names its outputs; and these as a source."""
    shown, text = draw.sample(source.columns, min(draw.randint(2, 4), len(source.columns))), ""
    if draw.random() < filtered:
        filters = [of_use(source.columns, "call"), of_use(source.columns, "key", "group", "measure")][:draw.choice([1, 1, 2])]
        text = " WHERE " + draw.choice([" AND ", " AND ", " OR "]).join(condition(draw, draw.choice(it)) for it in filters)
    if (groups := [it for it in source.columns if it.use in ("group", "call")]) and draw.random() < 0.3:
        groups = draw.sample(groups, min(draw.choice([1, 1, 2]), len(groups)))
        aggregates = ["COUNT(*)"] + [f"{of}({it.text})" for of in ("SUM", "SUM", "MIN", "MAX", "COUNT") for it in source.columns if it[1:3] == ("whole", "measure")]
        shown = [it._replace(use="group") for it in groups] + [Column(draw.choice(aggregates), "whole", "measure", False)]
        rolled, names = draw.random() < 0.1, ", ".join(it.text for it in groups)
        text += f" GROUP BY {f'ROLLUP ({names})' if rolled else names}" + (f" HAVING {shown[-1].text} > {draw.choice('123')}" if draw.random() < 0.2 else "")
        source = source._replace(columns=shown, keys=[] if rolled else [it.text for it in groups])
    shown, names = list(dict.fromkeys(shown + [call(draw, source) for _ in range(calls)])), {}
    for it in shown:
        name = it.text.split(".")[-1] if re.fullmatch(r"[\w.]+", it.text) else f"x{len(names)}"
        names[it.text] = f"{name}_{len(names)}" if name in names.values() else name
    keys = [names[key] for key in source.keys] if all(key in names for key in source.keys) else []
    outputs = ", ".join(of if name == of else f"{of} AS {name}" for of, name in names.items())
    return f"{outputs} FROM {source.text}{text}", Source("", [it._replace(text=names[it.text]) for it in shown], keys)


def query(draw):
    """A select over tables or over a derived table, mostly with a call, or with a limit, or with both."""
    source, way = source_of_tables(draw), draw.random()
    if way < 0.5:
        text, shown = select(draw, source, draw.choice([1, 1, 1, 2]), 0.3)
        source = shown._replace(text=f"(SELECT {text}) AS s")
        if draw.random() < 0.2 and (joined := [it.text for it in shown.columns if it.text in ("customer_id", "product_id")]):
            table = {"customer_id": "customers", "product_id": "products"}[joined[0]]
            columns = [it._replace(text=f"s.{it.text}") for it in shown.columns] + [it._replace(text=f"t.{it.text}") for it in COLUMNS[table]]
            source = Source(f"{source.text} JOIN {table} AS t ON t.{joined[0]} = s.{joined[0]}", columns, [f"s.{it}" for it in shown.keys])
        text, shown = select(draw, source, draw.choice([0] * 19 + [1]), 0.75)
    else:
        text, shown = select(draw, source, draw.choice([1, 1, 2]) if way < 0.8 else 0, 0.4)
    text = ("SELECT DISTINCT " if draw.random() < 0.12 else "SELECT ") + text
    if way >= 0.8 or draw.random() < 0.25:
        keys = [it.text for it in draw.sample(shown.columns, min(draw.choice([1, 1, 2]), len(shown.columns)))]
        last = [it for it in shown.keys if it not in keys] if draw.random() < 0.35 else []
        text += " ORDER BY " + ", ".join([it + draw.choice(["", " DESC"]) for it in keys] + last)
        text += draw.choice(LIMITS).format(draw.choice([1, 1, 3, 5, 10]), draw.choice([1, 5, 10]))
    return text


def judged(program, folder):
    """How each file of a folder counts, by the findings and the page."""
    run = subprocess.run([program, "--format", "json", "--html", f"{folder}.html", folder], stdout=subprocess.PIPE, encoding="utf-8")
    assert run.returncode in (0, 1, 2), f"{program} ended with status {run.returncode}"
    found, ways = defaultdict(str), {}
    for block in map(json.loads, run.stdout.splitlines()):
        found[block["path"]] += block["text"]
    for section in Path(f"{folder}.html").read_text(encoding="utf-8").split("<section ")[1:]:
        path = re.match(r"[^>]*><h2>(.*?):1 <", section)[1]
        if ": not read: " in found[path]:
            ways[path] = "not read " + re.search(r"\[\d+\]", found[path])[0]
        elif ": depends: " in found[path]:
            ways[path] = WAYS[1] if "= found by a further search" in found[path] else "DEPENDS"
        else:
            ways[path] = "open" if found[path] else WAYS[0] if "Why: a simpler plan" in section else "DETERMINISTIC"
    return ways


def main():
    parser = argparse.ArgumentParser(description=__doc__.splitlines()[0])
    parser.add_argument("program", nargs="?", default=str(Path(__file__).resolve().parents[1] / "crates/wdreport/out/wdreport"))
    parser.add_argument("--number", type=int, default=20_000)
    parser.add_argument("--seed", type=int, default=1)
    parser.add_argument("--keep")
    given = parser.parse_args()
    draw, texts, ways = random.Random(given.seed), {}, {}
    while len(texts) < given.number:
        texts.setdefault(query(draw), len(texts))
    with tempfile.TemporaryDirectory() as scratch:
        folder = Path(given.keep or scratch)
        Path(folder, "schema.sql").write_text(SCHEMA)
        for text, place in texts.items():
            inside = Path(folder, f"{place // 200:04}")
            inside.mkdir(exist_ok=True)
            Path(inside, f"{place:06}.sql").write_text(text + ";\n")
            if place % 200 == 199 or place + 1 == given.number:
                ways.update(judged(given.program, inside))
        Path(folder, "open").write_text("".join(f"{path}\n" for path, way in ways.items() if way == "open"))
    counts, refused = Counter(ways.values()), sorted({way for way in ways.values() if way.startswith("not read")})
    counts["UNKNOWN"], read = sum(counts[way] for way in WAYS), len(ways) - sum(counts[way] for way in refused)
    print(f"{read} of {len(ways)} read, in {sum(os.times()[2:4]):.0f} processor seconds" + "".join(f"; {way}: {counts[way]}" for way in refused))
    for word in ["DETERMINISTIC", "DEPENDS", "UNKNOWN"] + WAYS:
        print(f"{word}: {counts[word]}, {100 * counts[word] / read:.1f} %")


if __name__ == "__main__":
    main()
