#!/usr/bin/env python3
"""Runs wdreport over queries and compares what it says of them.

    python3 tests/report.py PROGRAM

The folders of tests/report hold queries with their schemas, and expected.txt what must be said of them: each place that is open, the
word and the ORDER BY that mends it. Where a query depends, its block must have rows of tables by names of columns and two answers
that differ. Then cases of the words, the statuses, several statements in a file, refusals with their places, schemas in folders above, files that are not there,
and what is printed of characters that a terminal would obey; of what --fix writes, of locks, of outputs that would take the place of other files, of standard input, of colours and progress on a terminal, and
schemas as PostgreSQL's tools write them, and of the SQL of `wdreport schema`, which a PostgreSQL runs where one is installed. The last line is 'N passed, M failed'.
"""

import glob
import html
import json
import os
import pty
import re
import select
import shutil
import stat
import subprocess
import sys
import tempfile
import threading
import time

TOP = os.path.dirname(os.path.dirname(os.path.abspath(__file__)))
FOLDERS = ["shop", "bank", "web", "hr"]
COUNT = re.compile(r"(\d+) quer(?:y|ies): (\d+) deterministic, (\d+) depend, (\d+) may tie, (\d+) not read; (\d+) can be mended by a key")
HEAD = re.compile(r"^(\S+?):(\d+):(\d+): (depends|may tie|not read)(.*)$", re.M)
results = []


def run(*words, cwd, given=""):
    """What the program prints for these words, with what is given on standard input, and its status."""
    ran = subprocess.run([PROGRAM, *words], cwd=cwd, input=given.encode(), capture_output=True, timeout=300)
    return ran.stdout.decode(), ran.stderr.decode(), ran.returncode


def put(folder, files):
    """Writes files into a folder."""
    for path, text in files.items():
        os.makedirs(os.path.dirname(f"{folder}/{path}"), exist_ok=True)
        with open(f"{folder}/{path}", "w", encoding="utf-8", newline="") as file:
            file.write(text)


def held(path):
    """The text of a file, with the ends of its lines as they are."""
    with open(path, encoding="utf-8", newline="") as file:
        return file.read()


def check(name, ok, said=""):
    results.append(bool(ok))
    if not ok:
        print(f"failed: {name}: {str(said)[:600]}")


def blocks(text):
    """The blocks of an output: place, word, and the lines."""
    found = []
    for block in text.split("\n\n"):
        head = HEAD.match(block)
        if head:
            found.append((f"{head[1]}:{head[2]}:{head[3]}", head[4], block.splitlines()))
    return found


def the_folders():
    """All queries of tests/report."""
    out, err, status = run(*FOLDERS, cwd=f"{TOP}/tests/report")
    check("status of the folders", (status, err) == (1, ""), (status, err))
    found = {place: (word, lines) for place, word, lines in blocks(out)}
    wanted = [line.split(" ", 2) for line in open(f"{TOP}/tests/report/expected.txt") if not line.startswith("#")]
    check("the places", sorted(found) == sorted(w[0] for w in wanted), sorted(found))
    for place, word, order in wanted:
        if place not in found:
            continue
        said, lines = found[place]
        check(f"{place} word", said == word or word == "open", said)
        helps = [line.strip() for line in lines if line.strip().startswith("help:")]
        check(f"{place} help", helps and helps[0].startswith(f"help: {order.strip()} ") and "DETERMINISTIC" in helps[0], helps)
        caret = [line for line in lines if "^" in line]
        check(f"{place} caret", caret and caret[0].index("^") - 8 == int(place.rsplit(":", 1)[1]) - 1, caret)
        # The rows of the witness stand in the first block of a query, here the first of its file.
        if said == "depends" and place == min((p for p in found if p.split(":")[0] == place.split(":")[0]), key=lambda p: [int(n) for n in p.split(":")[1:]]):
            check(f"{place} tables", any(re.match(r" +=( \w+): \w+\*? ", line) for line in lines), lines)
            answers = [line.split("answer: ")[1].split("   or   ") for line in lines if "answer: " in line]
            check(f"{place} answers", answers and all(len(a) == 2 and a[0] != a[1] for a in answers), lines)
    count = COUNT.search(out)
    numbers = [int(n) for n in count.groups()] if count else []
    check("the count", numbers and numbers[:2] == [16, 8] and numbers[2] + numbers[3] == 8 and numbers[4:] == [0, 8], numbers)


SCHEMA = "CREATE TABLE t (id BIGINT PRIMARY KEY, g TEXT NOT NULL, v BIGINT);\n"
# A table whose columns hold fewer numbers.
SMALL = "CREATE TABLE u (k BIGINT PRIMARY KEY, s SMALLINT NOT NULL, i INTEGER);\n"
# A table of amounts, as PostgreSQL's tools write it.
AMOUNTS = "CREATE TABLE o (id BIGINT PRIMARY KEY, total numeric(10, 2), paid numeric(10, 2), rate numeric(10, 4), qty INTEGER, d date, t timestamp);\n"
ONE = "SELECT id FROM t"
TIED = "SELECT g, ROW_NUMBER() OVER (ORDER BY v) AS n FROM t"
MENDED = "SELECT g, ROW_NUMBER() OVER (ORDER BY v, id) AS n FROM t"
# Rows are numbered by a column that may tie, in a derived table of which some columns are shown.
NUMBERED = "SELECT {} FROM (SELECT {}, ROW_NUMBER() OVER (ORDER BY v) AS n FROM t) AS s"
# The sort key may tie, and past the condition there is no row over which any search could find two answers.
MAY_TIE = "SELECT g, ROW_NUMBER() OVER (ORDER BY v) AS n FROM t WHERE id * 7 + 3 = 24000000000001"


def small_cases():
    """Cases of one folder each: its files, the words, the status, and what must stand in the output."""
    cases = [
        ("one answer", {"q.sql": ONE}, ["q.sql"], 0, ["1 query: 1 deterministic, 0 depend, 0 may tie, 0 not read; 0 can be mended"]),
        ("a column that nothing reads", {"q.sql": NUMBERED.format("n", "id, v")}, ["q.sql"], 0, ["1 query: 1 deterministic, 0 depend, 0 may tie"]),
        ("a column that is read", {"q.sql": NUMBERED.format("id, n", "id, v")}, ["q.sql"], 1, ["1 query: 0 deterministic, 1 depend"]),
        ("a column that a condition reads", {"q.sql": NUMBERED.format("n", "id, v") + " WHERE id > 1"}, ["q.sql"], 1, ["1 query: 0 deterministic"]),
        ("a side of a join of which one column is read", {"q.sql": f"SELECT s.n, t.id FROM ({NUMBERED.format('id, n', 'id, v')}) AS s JOIN t ON s.n = t.id"}, ["q.sql"], 0, ["1 query: 1 deterministic"]),
        ("a call that nothing reads", {"q.sql": NUMBERED.format("id", "id")}, ["q.sql"], 0, ["1 query: 1 deterministic"]),
        ("a sum that nothing reads and that may be out of range", {"q.sql": "SELECT id FROM (SELECT id, SUM(v) OVER (ORDER BY g ROWS UNBOUNDED PRECEDING) AS s FROM t) AS s"}, ["q.sql"], 1, ["1 query: 0 deterministic, 0 depend, 1 may tie"]),
        ("a limit of no rows", {"q.sql": "SELECT g FROM t ORDER BY v LIMIT 0"}, ["q.sql"], 0, ["1 query: 1 deterministic"]),
        ("two statements", {"q.sql": f"-- ; no end\n{ONE};\n{TIED};"}, ["q.sql"], 1, ["q.sql:3:11: depends", "2 queries: 1 deterministic, 1 depend", "help: ORDER BY v, id "]),
        ("a comment alone", {"q.sql": f"{ONE}; -- behind"}, ["q.sql"], 0, ["1 query: 1 deterministic"]),
        ("no query", {"q.sql": "-- nothing\n"}, ["q.sql"], 2, ["q.sql: not read", "1 not read"]),
        ("a refusal", {"q.sql": "SELECT id\nFROM t WHERE g LIKE 'a'"}, ["q.sql"], 2, ["q.sql:2:16: not read", "[201]", "    2 | FROM t WHERE g LIKE 'a'\n      |                ^^^^"]),
        ("a refused second statement", {"q.sql": f"{ONE};\n\nSELECT 12a FROM t"}, ["q.sql"], 2, ["q.sql:3:8: not read", "[104]"]),
        ("a number with a point by itself", {"q.sql": f"{ONE};\n\nSELECT 12.5 FROM t"}, ["q.sql"], 2, ["q.sql:3:16: not read", "[201]", "    3 | SELECT numeric '12.5' FROM t\n      |                ^^^^^^", "a number with a point is read where"]),
        ("an unknown column in a second statement", {"q.sql": f"{ONE};\nSELECT idd FROM t"}, ["q.sql"], 2, ["q.sql:2:8: not read", "[402]", "    2 | SELECT idd FROM t\n      |        ^^^"]),
        ("a bad schema", {"q.sql": ONE, "schema.sql": "CREATE TABLE t (a DATE,)"}, ["q.sql"], 2, ["schema.sql:1:24: not read: ", "[309]", "1 not read"]),
        ("no such file", {"q.sql": ONE}, ["none.sql", "q.sql"], 3, ["none.sql: there is no such file", "1 deterministic"]),
        ("a folder", {"a/q.sql": ONE, "a/b/r.sql": TIED, "a/c.txt": "no"}, ["a"], 1, ["a/b/r.sql:1:11: depends", "2 queries"]),
        ("the nearest schema", {"a/schema.sql": "CREATE TABLE u (x BIGINT)", "a/q.sql": "SELECT x FROM u", "q.sql": ONE}, ["."], 0, ["2 queries: 2 deterministic"]),
        ("a schema that is named", {"a/q.sql": "SELECT x FROM u", "u.ddl": "CREATE TABLE u (x BIGINT)"}, ["--schema", "u.ddl", "a"], 0, ["1 deterministic"]),
        ("characters that a terminal obeys", {"q.sql": "SELECT g, ROW_NUMBER() OVER (ORDER BY v) AS \"\x1b[31m\u202e\" FROM t"}, ["q.sql"], 1, ["q.sql:1:11: depends"]),
        ("no ORDER BY", {"q.sql": "SELECT g, ROW_NUMBER() OVER () AS n FROM t"}, ["q.sql"], 1, ["help: ORDER BY id "]),
        ("a limit", {"q.sql": "SELECT g FROM t ORDER BY v LIMIT 2"}, ["q.sql"], 1, ["q.sql:1:17: ", "help: ORDER BY v, "]),
        ("two orders", {"q.sql": "SELECT LAG(g) OVER (ORDER BY g, v) AS a, LAG(g) OVER (ORDER BY v) AS b FROM t"}, ["q.sql"], 1, ["help: ORDER BY v, id ", "help: also at 1:34: , id "]),
        ("a window by its name", {"q.sql": "SELECT g, LAG(g) OVER w AS p, LEAD(g) OVER (w) AS q FROM t WINDOW w AS (ORDER BY v)"}, ["q.sql"], 1, ["q.sql:1:11: ", "q.sql:1:31: ", "help: ORDER BY v, id "]),
        ("may tie passes", {"q.sql": MAY_TIE}, ["--allow-unknown", "q.sql"], 0, ["q.sql:1:", "may tie: ", "0 depend, 1 may tie"]),
        ("may tie does not pass", {"q.sql": MAY_TIE}, ["q.sql"], 1, ["0 depend, 1 may tie"]),
        ("what depends does not pass", {"q.sql": TIED, "r.sql": MAY_TIE}, ["--allow-unknown", "."], 1, ["1 depend, 1 may tie"]),
        ("what is not read does not pass", {"q.sql": "SELECT", "r.sql": MAY_TIE}, ["--allow-unknown", "."], 2, ["1 may tie, 1 not read"]),
        ("a folder of that name", {"schema/q.sql": ONE}, ["./schema"], 0, ["1 deterministic"]),
        ("a path behind schema", {"q.sql": ONE}, ["schema", "q.sql"], 3, []),
        ("no such colour", {"q.sql": ONE}, ["--color", "red", "q.sql"], 3, []),
        ("no words", {}, [], 3, []),
        ("a wrong word", {"q.sql": ONE}, ["--wrong", "q.sql"], 3, []),
    ]
    for name, files, words, status, wanted in cases:
        with tempfile.TemporaryDirectory() as folder:
            put(folder, {"schema.sql": SCHEMA, **files})
            out, err, ended = run(*words, cwd=folder)
            check(f"{name}: status", ended == status, (ended, out, err))
            for text in wanted:
                check(f"{name}: {text!r}", text in out, out)
            check(f"{name}: plain", not re.search("[\x00-\x09\x0b-\x1f\u202a-\u202e]", out), repr(out))
    for word, text in (("--help", "Usage: wdreport"), ("--version", "wdreport 1.0.0")):
        out, err, ended = run(word, cwd=TOP)
        check(word, ended == 0 and text in out and not err, (ended, out, err))


def the_formats():
    """What a program and a workflow are told: the same findings as a person."""
    out, _, _ = run(*FOLDERS, cwd=f"{TOP}/tests/report")
    told = sorted((place, word) for place, word, _ in blocks(out))
    lines, err, status = run("--format", "json", *FOLDERS, cwd=f"{TOP}/tests/report")
    found = [json.loads(line) for line in lines.splitlines()]
    check("json status", (status, err) == (1, ""), (status, err))
    check("json members", all(sorted(f) == ["column", "finding", "line", "mended", "path", "text"] for f in found), lines)
    check("json places", sorted((f"{f['path']}:{f['line']}:{f['column']}", f["finding"]) for f in found) == told, lines)
    check("json texts", all(f["text"].startswith(f"{f['path']}:{f['line']}:{f['column']}: {f['finding']}") for f in found), lines)
    check("json mended", all("ORDER BY" in f["mended"] for f in found), lines)
    lines, err, status = run("--format", "github", *FOLDERS, cwd=f"{TOP}/tests/report")
    lines = lines.splitlines()
    heads = [re.match(r"::(error|warning) file=([^,:]+),line=(\d+),col=(\d+)::(.*)$", line) for line in lines[:-1]]
    check("github status", (status, err) == (1, ""), (status, err))
    check("github places", sorted((f"{h[2]}:{h[3]}:{h[4]}", "depends" if h[1] == "error" else "may tie") for h in heads if h) == told, lines)
    check("github messages", all(h and "%0A" in h[5] and "help: ORDER BY" in h[5] for h in heads), lines)
    check("github count", COUNT.search(lines[-1]), lines)
    _, err, status = run("--format", "xml", *FOLDERS, cwd=f"{TOP}/tests/report")
    check("no such format", status == 3 and "xml" in err, (status, err))


def fixed(name, files, words, status, after, wanted, given="", printed=None):
    """A run with --fix: its status, the files after it, and what must stand in what it tells."""
    with tempfile.TemporaryDirectory() as folder:
        put(folder, {"schema.sql": SCHEMA, **files})
        out, err, ended = run("--fix", *words, cwd=folder, given=given)
        told = out if printed is None else err
        check(f"{name}: status", ended == status, (ended, out, err))
        for path, text in {"schema.sql": SCHEMA, **files, **after}.items():
            check(f"{name}: {path}", held(f"{folder}/{path}") == text, held(f"{folder}/{path}"))
        for text in wanted:
            check(f"{name}: {text!r}", text in told, told)
        check(f"{name}: printed", printed is None or out == printed, out)
        names = sorted(os.path.relpath(os.path.join(at, f), folder) for at, _, found in os.walk(folder) for f in found)
        check(f"{name}: no other file", names == sorted({"schema.sql", *files}), names)


def the_fixes():
    """What --fix writes, byte for byte, and where it writes nothing."""
    two = f"-- first\r\n{ONE};\n\n{TIED} ; -- behind\n"
    mended = f"-- first\r\n{ONE};\n\n{MENDED} ; -- behind\n"
    fixed("one of two", {"q.sql": two}, ["q.sql"], 0, {"q.sql": mended}, ["q.sql:4:11: depends", "q.sql: fixed: 1 of 2 queries", "1 can be mended"])
    fixed("three", {"q.sql": f"{TIED};{TIED};{TIED}"}, ["q.sql"], 0, {"q.sql": f"{MENDED};{MENDED};{MENDED}"}, ["q.sql: fixed: 3 of 3 queries"])
    fixed("past ASCII", {"q.sql": f"-- é ＠ 🙂\n{TIED}"}, ["q.sql"], 0, {"q.sql": f"-- é ＠ 🙂\n{MENDED}"}, ["fixed: 1 of 1 queries"])
    fixed("a window by its name", {"q.sql": "SELECT g, LAG(g) OVER w AS p, LEAD(g) OVER (w) AS q FROM t WINDOW w AS (ORDER BY v)"}, ["q.sql"], 0,
          {"q.sql": "SELECT g, LAG(g) OVER w AS p, LEAD(g) OVER (w) AS q FROM t WINDOW w AS (ORDER BY v, id)"}, ["fixed: 1 of 1 queries"])
    fixed("no ORDER BY", {"q.sql": "SELECT g, ROW_NUMBER() OVER () AS n FROM t"}, ["q.sql"], 0, {"q.sql": "SELECT g, ROW_NUMBER() OVER (ORDER BY id) AS n FROM t"}, [])
    fixed("nothing open", {"q.sql": ONE}, ["q.sql"], 0, {}, ["1 query: 1 deterministic"])
    fixed("a refused one beside it", {"q.sql": f"SELECT 1.5 FROM t; {TIED}"}, ["q.sql"], 2, {}, ["[104]"])
    fixed("an unknown column beside it", {"q.sql": f"SELECT x FROM t; {TIED}"}, ["q.sql"], 2, {"q.sql": f"SELECT x FROM t; {MENDED}"}, ["[402]", "fixed: 1 of 2 queries"])
    fixed("a folder", {"a/q.sql": TIED, "a/b/r.sql": TIED, "a/c.txt": TIED}, ["a"], 0, {"a/q.sql": MENDED, "a/b/r.sql": MENDED}, ["a/b/r.sql: fixed", "a/q.sql: fixed"])
    # Two rows may be equal in every three of the columns behind the first, and differ in the fourth.
    fixed("no help", {"q.sql": "SELECT a, b, c, d, e, ROW_NUMBER() OVER (ORDER BY a) AS n FROM u", "schema.sql": "CREATE TABLE u (a BIGINT, b BIGINT, c BIGINT, d BIGINT, e BIGINT)"}, ["q.sql"], 1, {}, ["1 depend", "0 can be mended"])
    large = TIED + ";" + " " * 65536
    fixed("too large", {"q.sql": large}, ["q.sql"], 3, {}, ["[107]", "q.sql: not fixed: it has more than 65,536 bytes"])
    fixed("just not too large", {"q.sql": TIED + " " * (65536 - len(TIED) - 4)}, ["q.sql"], 0, {"q.sql": MENDED + " " * (65536 - len(TIED) - 4)}, ["fixed: 1 of 1"])
    fixed("the name is taken", {"q.sql": TIED, ".q.sql.wdreport-new": "mine"}, ["q.sql"], 3, {}, ["q.sql: not fixed: "])
    fixed("standard input", {}, ["-"], 0, {}, ["-:4:11: depends", "-: fixed: 1 of 2 queries", "2 queries: 1 deterministic"], two, mended)
    fixed("standard input as it is", {}, ["-"], 0, {}, ["1 deterministic"], f"{ONE} ;\n", f"{ONE} ;\n")
    fixed("standard input beside a file", {"q.sql": TIED}, ["q.sql", "-"], 0, {"q.sql": MENDED}, ["q.sql: fixed", "-: fixed"], TIED, MENDED)
    fixed("too large a standard input", {}, ["-"], 3, {}, ["-: not fixed: it has more than 65,536 bytes"], large, "")
    for given, status, text in ((ONE, 0, "1 deterministic"), (TIED, 1, "-:1:11: depends"), ("", 2, "-: not read: there is no query in it")):
        with tempfile.TemporaryDirectory() as folder:
            put(folder, {"schema.sql": SCHEMA})
            out, err, ended = run("-", cwd=folder, given=given)
            check(f"standard input: {text}", (ended, err) == (status, "") and text in out, (ended, out, err))
    the_places_of_fixes()
    the_formats_of_fixes()


def the_places_of_fixes():
    """Permissions and links stay, a file in a folder that can't be written keeps its text, and what was fixed stays fixed."""
    with tempfile.TemporaryDirectory() as folder:
        put(folder, {"schema.sql": SCHEMA, "a/q.sql": TIED})
        os.chmod(f"{folder}/a/q.sql", 0o640)
        os.symlink("a/q.sql", f"{folder}/link.sql")
        out, err, ended = run("--fix", "link.sql", cwd=folder)
        check("a link: status", ended == 0 and "link.sql: fixed: 1 of 1 queries" in out, (ended, out, err))
        check("a link: it stays", os.path.islink(f"{folder}/link.sql") and held(f"{folder}/a/q.sql") == MENDED)
        check("permissions stay", stat.S_IMODE(os.stat(f"{folder}/a/q.sql").st_mode) == 0o640)
        before = os.stat(f"{folder}/a/q.sql")
        out, err, ended = run("--fix", ".", cwd=folder)
        after = os.stat(f"{folder}/a/q.sql")
        check("fixed once", ended == 0 and "fixed" not in out and (before.st_ino, before.st_mtime_ns) == (after.st_ino, after.st_mtime_ns), (ended, out, err))
        check("the help", "help:" not in out and "2 deterministic" in out, out)
    if os.getuid() == 0 and not shutil.which("setpriv"):
        return
    with tempfile.TemporaryDirectory() as folder:
        put(folder, {"schema.sql": SCHEMA, "a/q.sql": TIED})
        os.chmod(folder, 0o755)
        os.chmod(f"{folder}/a", 0o555)
        shutil.copy(PROGRAM, f"{folder}/wdreport")
        words = [f"{folder}/wdreport", "--fix", "a"]
        if os.getuid() == 0:
            words = ["setpriv", "--reuid=65534", "--regid=65534", "--clear-groups", *words]
        ran = subprocess.run(words, cwd=folder, stdin=subprocess.DEVNULL, capture_output=True, timeout=60)
        check("a folder that can't be written", ran.returncode == 3 and b"a/q.sql: not fixed: it can't be written" in ran.stdout, ran)
        check("its file stays", held(f"{folder}/a/q.sql") == TIED and os.listdir(f"{folder}/a") == ["q.sql"])
        os.chmod(f"{folder}/a", 0o755)


def the_formats_of_fixes():
    """What a program and a workflow are told of a file that is fixed."""
    with tempfile.TemporaryDirectory() as folder:
        put(folder, {"schema.sql": SCHEMA, "q.sql": TIED, "r.sql": TIED})
        out, err, status = run("--fix", "--format", "json", "q.sql", cwd=folder)
        found = [json.loads(line) for line in out.splitlines()]
        check("json of a fix", (status, err) == (0, "") and [f["finding"] for f in found] == ["depends", "fixed"], (status, out, err))
        check("json: the text", found[1]["text"] == "q.sql: fixed: 1 of 1 queries" and found[0]["mended"] == MENDED, found)
        out, err, status = run("--fix", "--format", "github", "r.sql", cwd=folder)
        check("github of a fix", (status, err) == (0, "") and "\n::warning file=r.sql,line=1,col=1::r.sql: fixed: 1 of 1 queries\n" in out, (status, out, err))


def on_terminals(words, cwd):
    """What the program writes to a terminal that is its standard output, to one that is its standard error, and its status."""
    (out, out_end), (err, err_end) = pty.openpty(), pty.openpty()
    running = subprocess.Popen([PROGRAM, *words], cwd=cwd, stdin=subprocess.DEVNULL, stdout=out_end, stderr=err_end)
    os.close(out_end)
    os.close(err_end)
    said = {out: b"", err: b""}
    left = [out, err]
    while left:
        for stream in select.select(left, [], [], 60)[0]:
            try:
                more = os.read(stream, 65536)
            except OSError:
                more = b""
            said[stream] += more
            if not more:
                left.remove(stream)
    status = running.wait(60)
    os.close(out)
    os.close(err)
    return said[out].decode().replace("\r\n", "\n"), said[err].decode(), status


def the_screen():
    """Colours are the plain text but for their codes, and progress stands on a terminal alone."""
    codes = re.compile("\x1b\\[[0-9]*m")
    with tempfile.TemporaryDirectory() as folder:
        put(folder, {"schema.sql": SCHEMA, "q.sql": f"{TIED};\nSELECT 1.5 FROM t", "r.sql": TIED})
        plain, _, _ = run(".", cwd=folder)
        check("no colours", "\x1b" not in plain, plain)
        colours, _, _ = run("--color", "always", ".", cwd=folder)
        check("colours", codes.sub("", colours) == plain, colours)
        for code, words in (("\x1b[1m", "./r.sql:1:11: depends"), ("\x1b[31m", "      |"), ("\x1b[32m", "      help: ORDER BY v, id")):
            check(f"colour of {words}", code + words in colours, colours)
        seen, err, status = on_terminals(["."], folder)
        check("colours on a terminal", (seen, err, status) == (colours, "", 2), (seen, err, status))
        seen, _, _ = on_terminals(["--color", "never", "."], folder)
        check("no colours on a terminal", seen == plain, seen)
        for form in ("json", "github"):
            lines, _, _ = run("--color", "always", "--format", form, ".", cwd=folder)
            check(f"no colours in {form}", "\x1b" not in lines, lines)
        put(folder, {f"many/{n:04}.sql": TIED if n % 2 else ONE for n in range(1000)})
        began = time.time()
        plain, err, status = run("many", cwd=folder)
        took = time.time() - began
        check("1,000 files", (status, err) == (1, "") and "1000 queries: 500 deterministic, 500 depend" in plain, (status, err, plain[-200:]))
        check("1,000 files in time", took < 10, took)
        again = ["many"] * (1 + int(3 / took))
        seen, err, status = on_terminals(["--color", "never", *again], folder)
        check("a long run on a terminal", status == 1 and seen.count("help: ORDER BY v, id ") == 500 * len(again), (status, seen[-200:]))
        numbers = [int(n) for n in re.findall(r"\r(\d+) of about \d+ queries\x1b\[K", err)]
        check("progress", re.search(rf"\r\d+ of about {len(again)}000 queries\x1b\[K", err) and numbers == sorted(numbers), err[:200])
        check("progress is taken off", err.endswith("\r\x1b[K"), err[-60:])
        # A file that is read shows how many queries it has.
        put(folder, {"all.sql": f"{TIED};\n" * 1000})
        began = time.time()
        run("all.sql", cwd=folder)
        again = ["all.sql"] * (1 + int(3 / (time.time() - began)))
        _, err, _ = on_terminals(["--color", "never", *again], folder)
        check("progress by queries", re.search(rf"\r\d+ of {len(again)}000 queries\x1b\[K", err), err[-200:])


# Tables of every kind, and types of every kind.
DATABASE = r"""
CREATE TYPE mood AS ENUM ('sad', 'ok');
CREATE DOMAIN cents AS BIGINT NOT NULL;
CREATE DOMAIN deep AS cents;
CREATE TABLE customers (customer_id SERIAL PRIMARY KEY, email VARCHAR(80) NOT NULL UNIQUE, "Full Name" TEXT, "quo""te" INT, is_ok BOOLEAN,
    owed deep, mood mood, tags TEXT[], amount NUMERIC(12, 2), rate REAL, at TIMESTAMPTZ, small SMALLINT, "range" INT, "rows" INT, "order" INT);
CREATE TABLE orders (order_id BIGINT GENERATED ALWAYS AS IDENTITY PRIMARY KEY, customer_id INT NOT NULL REFERENCES customers, day DATE,
    UNIQUE (customer_id, day) INCLUDE (order_id), UNIQUE NULLS NOT DISTINCT (day), CHECK (order_id > 0));
CREATE UNIQUE INDEX some_rows ON orders (customer_id) WHERE day IS NULL;
CREATE UNIQUE INDEX expression ON orders ((customer_id + 1));
CREATE TABLE late (id INT PRIMARY KEY DEFERRABLE INITIALLY DEFERRED);
CREATE TABLE nothing ();
CREATE TABLE parted (id INT, at DATE, PRIMARY KEY (id, at)) PARTITION BY RANGE (at);
CREATE TABLE parted_2020 PARTITION OF parted FOR VALUES FROM ('2020-01-01') TO ('2021-01-01');
CREATE TABLE base (id INT PRIMARY KEY);
CREATE TABLE heir (more INT UNIQUE) INHERITS (base);
CREATE VIEW shown AS SELECT order_id FROM orders;
CREATE MATERIALIZED VIEW stored AS SELECT order_id FROM orders;
CREATE UNIQUE INDEX stored_key ON stored (order_id);
CREATE SCHEMA other;
CREATE TABLE other.hidden (id INT PRIMARY KEY);
"""
# What must be printed of them.
DATABASE_SCHEMA = """\
-- without its keys and NOT NULL, since other tables inherit from it
CREATE TABLE base (
    id INTEGER
);
CREATE TABLE customers (
    customer_id INTEGER NOT NULL,
    email TEXT NOT NULL,
    "Full Name" TEXT,
    "quo""te" INTEGER,
    is_ok BOOLEAN,
    owed BIGINT,
    mood TEXT, -- mood
    tags TEXT, -- text[]
    amount BIGINT, -- numeric(12,2)
    rate BIGINT, -- real
    at TEXT, -- timestamp with time zone
    small SMALLINT,
    "range" INTEGER,
    "rows" INTEGER,
    "order" INTEGER,
    PRIMARY KEY (customer_id),
    UNIQUE (email)
);
CREATE TABLE heir (
    id INTEGER NOT NULL,
    more INTEGER,
    UNIQUE (more)
);
CREATE TABLE late (
    id INTEGER NOT NULL,
    PRIMARY KEY (id) -- holds where a transaction has ended
);
CREATE TABLE orders (
    order_id BIGINT NOT NULL,
    customer_id INTEGER NOT NULL,
    day TEXT, -- date
    PRIMARY KEY (order_id),
    UNIQUE (customer_id, day),
    UNIQUE NULLS NOT DISTINCT (day)
);
CREATE TABLE parted (
    id INTEGER NOT NULL,
    at TEXT NOT NULL, -- date
    PRIMARY KEY (id, at)
);
CREATE TABLE stored (
    order_id BIGINT,
    UNIQUE (order_id)
);
-- left out: without columns, nothing
-- left out: the view shown
"""


def the_schema():
    """The SQL of `wdreport schema`: where PostgreSQL 15 or a later one is installed, what it prints of a database, which must be read."""
    out, err, status = run("schema", cwd=TOP)
    check("schema", (status, err) == (0, "") and out.startswith("-- ") and out.rstrip().endswith(";"), (status, err))
    with tempfile.TemporaryDirectory() as folder:
        put(folder, {"schema.sql": DATABASE_SCHEMA, "q.sql": 'SELECT "range", ROW_NUMBER() OVER (ORDER BY "Full Name", email) AS n FROM customers'})
        told, err, status = run("q.sql", cwd=folder)
        check("a schema of a database is read", (status, err) == (0, ""), (status, told, err))
    servers = sorted((path.removesuffix("/initdb") for path in glob.glob("/usr/lib/postgresql/*/bin/initdb")), key=lambda path: int(path.split("/")[4]) if path.split("/")[4].isdigit() else 0)
    if not servers or int(servers[-1].split("/")[4]) < 15 or not shutil.which("psql"):
        return
    with tempfile.TemporaryDirectory() as folder:
        put(folder, {"catalog.sql": out, "database.sql": DATABASE})
        os.chmod(folder, 0o777)
        as_user = ["setpriv", "--reuid=65534", "--regid=65534", "--clear-groups"] if os.getuid() == 0 else []
        server = [*as_user, f"{servers[-1]}/pg_ctl", "-D", f"{folder}/data", "-w", "-l", f"{folder}/log"]
        made = subprocess.run([*as_user, f"{servers[-1]}/initdb", "-D", f"{folder}/data", "-A", "trust", "-U", "postgres"], capture_output=True)
        if made.returncode:
            print(f"no server of PostgreSQL starts here, so its catalog is not read: {made.stderr.decode()[-200:]}")
            return
        started = subprocess.run([*server, "-o", f"-k {folder} -c listen_addresses=", "start"], stdout=subprocess.DEVNULL, stderr=subprocess.DEVNULL)
        if started.returncode:
            print("no server of PostgreSQL starts here, so its catalog is not read")
            return
        try:
            psql = ["psql", "-X", "-h", folder, "-U", "postgres", "-qAt", "-v", "ON_ERROR_STOP=1", "-f"]
            made = subprocess.run([*psql, f"{folder}/database.sql"], capture_output=True)
            check("the database", made.returncode == 0, made)
            read = subprocess.run([*psql, f"{folder}/catalog.sql"], capture_output=True)
            check("the schema of the database", (read.returncode, read.stdout.decode()) == (0, DATABASE_SCHEMA), read)
        finally:
            subprocess.run([*server, "-m", "immediate", "stop"], capture_output=True)


def lines_of(name):
    """The lines of a file of cases, but for its comments: each a pair of texts."""
    with open(f"{TOP}/tests/report/{name}", encoding="utf-8") as file:
        lines = [line.rstrip("\n") for line in file if not line.startswith("#")]
    return [tuple(line.split("\t")) if "\t" in line else tuple(line.rsplit(" || ", 1)) for line in lines]


def schema_of(query):
    """The schema over which a query of a file of cases is."""
    return AMOUNTS if re.search(r"\bFROM o\b", query) else SCHEMA


def the_remedies():
    """What to write in place of a word that is not read."""
    for text, wanted in lines_of("remedies.txt"):
        is_schema = text.startswith("CREATE")
        with tempfile.TemporaryDirectory() as folder:
            put(folder, {"schema.sql": text if is_schema else schema_of(text), "q.sql": "SELECT id FROM t" if is_schema else text})
            out, _, status = run("q.sql", cwd=folder)
            helps = [line for line in out.splitlines() if line.startswith("      help: ")]
            check(f"remedy for {text}", status == 2 and len(helps) == 1 and wanted in helps[0], (status, out))


def marked(line):
    """A line of places.txt: the number, the text, and what it marks with its line and column."""
    number, text = line.split(" ", 1)
    text = re.sub(r"\{(\d+):([^}]*)\}", lambda m: "".join(m[2].replace("#", str(n + 1)) for n in range(int(m[1]))), text.replace("\\n", "\n"))
    before, words, behind = re.split("[«»]", text)
    return number, before + words + behind, words, before.count("\n") + 1, len(before.rsplit("\n", 1)[-1]) + 1


def the_places():
    """Where the cause of a refusal stands that names no place."""
    with open(f"{TOP}/tests/report/places.txt", encoding="utf-8") as file:
        cases = [marked(line.rstrip("\n")) for line in file if not line.startswith("#")]
    # A type that the profile lacks, 307, is read as PostgreSQL's.
    wanted = [str(number) for number in [*range(301, 307), 308, *range(401, 420)]]
    check("each number has a place", sorted({case[0] for case in cases}) == wanted, sorted({case[0] for case in cases}))
    for number, text, words, line, column in cases:
        is_schema = text.startswith("CREATE")
        with tempfile.TemporaryDirectory() as folder:
            put(folder, {"schema.sql": text if is_schema else SCHEMA, "q.sql": ONE if is_schema else text})
            out, _, status = run("q.sql", cwd=folder)
            place = f"{'schema' if is_schema else 'q'}.sql:{line}:{column}: not read"
            carets = [shown for shown in out.splitlines() if re.fullmatch(r" +\| +\^+", shown)]
            ok = status == 2 and out.startswith(place) and f"[{number}]" in out and len(carets) == 1 and carets[0].count("^") == len(words)
            check(f"place of {number} in {text[:80]}", ok, (status, out))


def the_ties():
    """RANK and WITH TIES, where the query has one answer with them."""
    for text, wanted in lines_of("ties.txt"):
        with tempfile.TemporaryDirectory() as folder:
            put(folder, {"schema.sql": SCHEMA, "q.sql": text})
            out, _, status = run("q.sql", cwd=folder)
            helps = [line.strip() for line in out.splitlines() if line.strip().startswith("help: or ")]
            lines = [] if wanted == "none" else [f"help: or {line}      (" for line in wanted.split(" && ")]
            ok = status == 1 and len(helps) == len(lines) and all(said.startswith(line) and "DETERMINISTIC" in said for said, line in zip(helps, lines))
            check(f"ties of {text}", ok, (status, out))
            for line in lines:
                mended = line.removeprefix("help: or ").split(": ", 1)[1].split("      (")[0]
                if len(lines) == 1 and mended.startswith("ORDER BY"):
                    put(folder, {"q.sql": text[: text.rindex("ORDER BY")] + mended})
                    out, _, status = run("q.sql", cwd=folder)
                    check(f"mended by {mended}", status == 0, (status, out))


def the_marks():
    """The columns by which rows tie, marked in the rows of a witness."""
    for text, wanted in lines_of("marks.txt"):
        with tempfile.TemporaryDirectory() as folder:
            put(folder, {"schema.sql": SCHEMA, "q.sql": text})
            out, _, status = run("--html", "page.html", "q.sql", cwd=folder)
            columns = [] if wanted == "none" else wanted.split()
            rows = [line for line in out.splitlines() if line.startswith("      = t: ")]
            told = [re.findall(r"(\w+)\* ", line) for line in rows]
            check(f"marks of {text}", status == 1 and rows and all(it == columns for it in told), (status, out))
            check(f"the mark is told of {text}", ("      = *: rows tie by these columns" in out.splitlines()) == bool(columns), out)
            heads = re.findall(r"<th><mark>(\w+)</mark></th>", held(f"{folder}/page.html"))
            check(f"marks on the page of {text}", heads == columns, heads)


def the_respelled():
    """Queries that the profile refuses, or whose numbers count units, as the standard's equations respell them, and what is found of them."""
    for text, wanted, kind in lines_of("respelled.txt"):
        with tempfile.TemporaryDirectory() as folder:
            put(folder, {"schema.sql": schema_of(text), "q.sql": text})
            shown, told, ended = run("--show-respelled", "q.sql", cwd=folder)
            there = shown.split("-- q.sql")[1] if "-- q.sql" in shown else ""
            told = [line for line in told.splitlines() if line and not line.startswith("schema.sql: note: ")]
            check(f"respelled: {text}", (told, ended) == ([], 0) and " ".join(there.split()) == wanted, (ended, shown, told))
            out, _, status = run("q.sql", cwd=folder)
            check(f"respelled: {text}: {kind}", status == {"deterministic": 0, "depend": 1, "not read": 2}[kind] and f" 1 {kind}" in out, (status, out))
            check(f"respelled: {text}: note", ("note: queries that wdcheck does not read" in out) == bool(wanted), out)


def nested(count, around):
    """An expression within itself so often."""
    text = "v"
    for _ in range(count):
        text = around.replace("#", text)
    return text


# Queries that the equations would make deep or long: each is refused, in a stack of 2 MB.
EXTREME = {
    "brackets": f"SELECT id FROM t WHERE {nested(62, '(# + 1)')} IN (1, 2)",
    "calls": f"SELECT id FROM t WHERE {nested(60, 'COALESCE(#, 0)')} IN (1, 2)",
    "cases": f"SELECT id, {nested(63, 'CASE WHEN v IN (1) THEN # END')} AS w FROM t",
    "open brackets": "SELECT id FROM t WHERE " + "(" * 30000,
    "values": f"SELECT id FROM t WHERE v IN ({','.join(['1'] * 30000)})",
    "a sum": f"SELECT id FROM t WHERE v + {' + '.join(['1'] * 16000)} BETWEEN 1 AND 2",
    "members": "WITH " + ", ".join(f"a{i} AS (SELECT id FROM {f'a{i - 1}' if i else 't'})" for i in range(64)) + " SELECT id FROM a63",
    "members read twice": "WITH a0 AS (SELECT id FROM t), " + ", ".join(f"a{i} AS (SELECT x.id FROM a{i - 1} x JOIN a{i - 1} y ON x.id = y.id)" for i in range(1, 40)) + " SELECT id FROM a39",
    "tests": "SELECT id FROM t WHERE " + " OR ".join(f"v IN ({i})" for i in range(4000)),
    "moments": "SELECT id FROM t WHERE d >= DATE '2026-01-01'" + " AND d < DATE '2026-01-02'" * 2000,
    "casts": f"SELECT id FROM t WHERE {'(' * 6300}id{'::bigint)' * 6300} = 1",
    "calls of CAST": f"SELECT id FROM t WHERE {'CAST(' * 4000}id{' AS int8)' * 4000} = 1",
    "memberships": "SELECT id FROM t WHERE " + " AND ".join(["id IN (SELECT v FROM t)"] * 2000),
    "memberships within one another": "SELECT id FROM t WHERE id IN (" + "SELECT v FROM t WHERE v IN (" * 2000 + "SELECT v FROM t" + "))" * 2000,
    "keys": "SELECT " + ", ".join(f"v + {i} AS a{i}" for i in range(2000)) + " FROM t GROUP BY " + ", ".join(f"{i + 1}" for i in range(2000)),
    "long keys": "SELECT " + ", ".join("+".join(["v"] * 120) + f"+{i} AS a{i}" for i in range(8)) + f", MAX({'+'.join(['v'] * 30000)}) AS z FROM t GROUP BY 1, 2, 3, 4, 5, 6, 7, 8",
    "keys within one another": "SELECT v + 1 AS v FROM (" * 1500 + "SELECT v FROM t" + ") x GROUP BY 1" * 1500,
    "distinct counts": "SELECT COUNT(DISTINCT v) AS v FROM (" * 1500 + "SELECT v FROM t" + ") x" * 1500,
    "natural joins": "SELECT a0.id FROM t a0 " + " ".join(f"NATURAL JOIN t a{i}" for i in range(1, 2500)),
    "natural joins within one another": "SELECT id FROM " + "(SELECT id FROM t NATURAL JOIN " * 1700 + "t" + ") x" * 1700,
    "WITH within one another": "SELECT id FROM " + "(WITH a AS (SELECT id FROM t) SELECT id FROM a JOIN " * 1100 + "t" + ") x" * 1100,
}


def the_extreme():
    """Queries that are refused however deep or long the equations would make them."""
    for name, text in EXTREME.items():
        with tempfile.TemporaryDirectory() as folder:
            put(folder, {"schema.sql": SCHEMA, "q.sql": text})
            ran = subprocess.run(["bash", "-c", 'ulimit -s 2048; exec "$0" q.sql', PROGRAM], cwd=folder, capture_output=True, timeout=300)
            check(f"extreme: {name}", ran.returncode == 2 and b" 1 not read" in ran.stdout and not ran.stderr, ran)


def the_simpler():
    """Queries that have one answer because what ties decide is not shown."""
    for text, wanted in lines_of("simpler.txt"):
        with tempfile.TemporaryDirectory() as folder:
            put(folder, {"schema.sql": SCHEMA + SMALL, "q.sql": text})
            out, _, status = run("q.sql", cwd=folder)
            check(f"{wanted}: {text}", status == (0 if wanted == "deterministic" else 1), (status, out))


def the_further():
    """Queries of which two answers are found over more rows, or with values that the query names; and some that have but one."""
    schema = held(f"{TOP}/tests/report/bank/schema.sql")
    for text, wanted in lines_of("further.txt"):
        word, _, most = wanted.partition(" over ")
        with tempfile.TemporaryDirectory() as folder:
            put(folder, {"schema.sql": schema, "q.sql": text})
            out, _, status = run("q.sql", cwd=folder)
            rows = [out.count(f"\n      = {table}: ") for table in ("accounts", "transactions", "fx_rates")]
            check(f"{wanted}: {text}", (", 1 depend" in out) == (word == "depends") and (not most or max(rows) == int(most)), (status, out))


def the_excuses():
    """Comments above a query."""
    for text, wanted in lines_of("remarks.txt"):
        text = json.loads(text)
        before = "SELECT id FROM t" if text.startswith(";") else ""
        with tempfile.TemporaryDirectory() as folder:
            put(folder, {"schema.sql": SCHEMA, "q.sql": before + text + TIED})
            out, _, status = run("q.sql", cwd=folder)
            is_excused = wanted.startswith("excused")
            check(f"remark {text!r}: status", status == (0 if is_excused else 1), (status, out))
            check(f"remark {text!r}: counted", ("; 1 excused" in out) == is_excused, out)
            check(f"remark {text!r}: told", ("this comment excuses nothing" in out) == (wanted == "told"), out)
            check(f"remark {text!r}: block", ("depends" in out.split(" queries:")[0].split(" query:")[0]) != is_excused, out)
            page, _, _ = run("--html", "page.html", "q.sql", cwd=folder)
            with open(f"{folder}/page.html", encoding="utf-8") as file:
                shown = file.read()
            reason = wanted.removeprefix("excused ").replace("&", "&amp;").replace("<", "&lt;").replace(">", "&gt;").replace("'", "&#39;").replace('"', "&quot;")
            check(f"remark {text!r}: page", (f"Excused in the text: {reason}" in shown) if is_excused and reason.isprintable() else True, shown[-2000:])


    # Behind the last query of a file nothing is excused, whatever is said.
    for behind, place in (("\n-- wdreport: may depend, too late", "2:1"), (";\n\n  -- wdreport: may depend, too late\n", "3:3"), (" -- wdreport: may depend, too late", f"1:{len(ONE) + 2}"),
                          ("; -- wdreport: may depent", f"1:{len(ONE) + 3}"), (";\n/* a */ -- WDREPORT : may depend, x", "2:9")):
        with tempfile.TemporaryDirectory() as folder:
            put(folder, {"schema.sql": SCHEMA, "q.sql": ONE + behind})
            out, _, status = run("q.sql", cwd=folder)
            check(f"behind the last query {behind!r}", status == 0 and f"q.sql:{place}: this comment excuses nothing" in out and out.count("excuses nothing") == 1, (status, out))
    with tempfile.TemporaryDirectory() as folder:
        put(folder, {"schema.sql": SCHEMA, "q.sql": f"{ONE}; -- wdreporter: may depend, x\n-- of wdreport: may depend, x\n/* wdreport: may depend, x */", "r.sql": "-- wdreport: may depend, x"})
        out, _, status = run("q.sql", cwd=folder)
        check("behind the last query others are spoken to", status == 0 and "excuses nothing" not in out, (status, out))
        out, _, status = run("r.sql", cwd=folder)
        check("an excuse without a query", status == 2 and "r.sql:1:1: this comment excuses nothing" in out and "r.sql: not read" in out, (status, out))


def the_baselines():
    """Findings that are known."""
    for text, wanted in lines_of("baselines.txt"):
        word, number = wanted.split(" ")
        with tempfile.TemporaryDirectory() as folder:
            put(folder, {"schema.sql": SCHEMA, "q.sql": ONE, "known": json.loads(text)})
            out, err, status = run("--baseline", "known", "q.sql", cwd=folder)
            if word == "read":
                gone = f"{number} of the baseline no longer occur" if number != "0" else "1 deterministic"
                check(f"baseline {text}", status == 0 and gone in out and ("no longer" in out) == (number != "0"), (status, out, err))
            else:
                check(f"baseline {text}", status == 3 and f"known: line {number} " in err, (status, out, err))
    with tempfile.TemporaryDirectory() as folder:
        put(folder, {"schema.sql": SCHEMA, "q.sql": TIED, "r.sql": "SELECT x FROM t"})
        words = ["--baseline", "known", "q.sql", "r.sql"]
        out, err, status = run("--baseline-write", *words, cwd=folder)
        check("a baseline is written", status == 0 and "; 2 known" in out and "depends: " not in out, (status, out, err))
        kept = held(f"{folder}/known")
        wanted = '{"version":1}\n{"finding":"depends","path":"q.sql","place":"ROW_NUMBER() OVER (ORDER BY v)"}\n{"finding":"not read","path":"r.sql","place":"402"}\n'
        check("what is written", kept == wanted, kept)
        out, err, status = run(*words, cwd=folder)
        check("what is known passes", status == 0 and "; 2 known" in out, (status, out, err))
        put(folder, {"q.sql": f"-- moved\n\n{TIED};\n{TIED}"})
        out, err, status = run(*words, cwd=folder)
        check("of two one is new", status == 1 and "; 2 known" in out and out.count("depends: ") == 1 and "q.sql:4:" in out, (status, out, err))
        out, err, status = run("--baseline", "none", "q.sql", cwd=folder)
        check("no baseline there", status == 3 and "the baseline can't be read" in err, (status, out, err))
        out, err, status = run("--baseline-write", "q.sql", cwd=folder)
        check("no baseline named", status == 3 and "--baseline FILE" in err, (status, out, err))
        put(folder, {"q.sql": f"-- wdreport: may depend, any will do\n{TIED}"})
        out, err, status = run("--fix", "q.sql", cwd=folder)
        check("what is excused is not mended", status == 0 and held(f"{folder}/q.sql").endswith(TIED), (status, out, err))


    # Of a baseline 64 MiB are read, and one with more is refused.
    head = '{"version":1}'
    for size, wanted in ((64 << 20, 0), ((64 << 20) + 1, 3)):
        with tempfile.TemporaryDirectory() as folder:
            put(folder, {"schema.sql": SCHEMA, "q.sql": ONE, "known": head + " " * (size - len(head) - 1) + "\n"})
            out, err, status = run("--baseline", "known", "q.sql", cwd=folder)
            check(f"a baseline of {size} bytes", status == wanted and ("the baseline has more than 64 MiB" in err) == (wanted == 3), (status, out, err))


def held_all(folder):
    """The bytes of all files of a folder, by their paths."""
    found = {}
    for at, _, names in os.walk(folder):
        for name in names:
            with open(f"{at}/{name}", "rb") as file:
                found[os.path.relpath(f"{at}/{name}", folder)] = file.read()
    return found


def the_outputs():
    """A page or a baseline takes the place of no file that is read, nor of one another, by whatever path it is named."""
    cases = [
        ["--html", "q.sql", "q.sql"], ["--html", "./q.sql", "q.sql"], ["--html", "a/../q.sql", "q.sql"], ["--html", "q.sql", "a/../q.sql"], ["--html", "link.sql", "q.sql"],
        ["--html", "q.sql", "link.sql"], ["--html", "linked/r.sql", "a"], ["--html", "a/r.sql", "."], ["--html", "schema.sql", "q.sql"], ["--html", "schema.sql", "a"],
        ["--html", "linked/../schema.sql", "a"], ["--schema", "s.ddl", "--html", "./s.ddl", "q.sql"], ["--html", "known", "--baseline", "known", "q.sql"],
        ["--html", "known", "--baseline", "./known", "--baseline-write", "q.sql"], ["--html", "new", "--baseline", "a/../new", "--baseline-write", "q.sql"],
        ["--baseline", "q.sql", "--baseline-write", "q.sql"], ["--baseline", "schema.sql", "--baseline-write", "q.sql"], ["--baseline", "link.sql", "--baseline-write", "a", "q.sql"],
        ["--html", "q.sql.cert", "q.sql"], ["--baseline", "a/r.sql.cert", "--baseline-write", "a"],
    ]
    with tempfile.TemporaryDirectory() as folder:
        put(folder, {"schema.sql": SCHEMA, "s.ddl": SCHEMA, "q.sql": ONE, "a/r.sql": ONE, "known": '{"version":1}\n'})
        os.symlink("q.sql", f"{folder}/link.sql")
        os.symlink("a", f"{folder}/linked")
        before = held_all(folder)
        for words in cases:
            out, err, status = run(*words, cwd=folder)
            check(f"outputs {words}: refused", (status, out) == (3, "") and err.startswith("wdreport: ") and "would be written over" in err, (status, out, err))
            check(f"outputs {words}: nothing is written", held_all(folder) == before and os.path.islink(f"{folder}/link.sql"), held_all(folder))
        # What is only named like one of them is written.
        out, err, status = run("--html", "a/q.sql.html", "--baseline", "a/known", "--baseline-write", "q.sql", cwd=folder)
        check("outputs of their own", status == 0 and sorted(held_all(folder)) == sorted([*before, "a/q.sql.html", "a/known"]), (status, out, err, sorted(held_all(folder))))
    with tempfile.TemporaryDirectory() as folder:
        put(folder, {"schema.sql": SCHEMA, "q.sql": ONE, ".page.html.wdreport-new": "mine"})
        os.symlink("nowhere", f"{folder}/link.html")
        before = {"schema.sql", "q.sql", ".page.html.wdreport-new"}
        for page in ("page.html", "link.html"):
            out, err, status = run("--html", page, "q.sql", cwd=folder)
            names = {name for name in os.listdir(folder)} - {"link.html"}
            check(f"a page that can't be written: {page}", status == 3 and "the page can't be written" in err and names == before and held(f"{folder}/.page.html.wdreport-new") == "mine", (status, err, names))
        os.mkfifo(f"{folder}/pipe")
        reader = threading.Thread(target=lambda: read.append(held(f"{folder}/pipe")), daemon=True)
        read = []
        reader.start()
        out, err, status = run("--html", "pipe", "q.sql", cwd=folder)
        reader.join(60)
        check("a page to a pipe", status == 0 and read and read[0].startswith("<!doctype html>") and stat.S_ISFIFO(os.stat(f"{folder}/pipe").st_mode), (status, err))
        os.remove(f"{folder}/pipe")
        os.mkdir(f"{folder}/page")
        out, err, status = run("--html", "page", "q.sql", cwd=folder)
        check("a folder is no page", status == 3 and "the page can't be written" in err and os.listdir(f"{folder}/page") == [], (status, err))
        os.rmdir(f"{folder}/page")
        out, err, status = run("--html", "new.html", "q.sql", cwd=folder)
        check("a new page leaves no other file", status == 0 and set(os.listdir(folder)) == before | {"link.html", "new.html"}, (status, err, os.listdir(folder)))


# Over the plan of ONE, with a limit.
FIRST = "SELECT id FROM t ORDER BY id LIMIT 1"


def locked(name, files, words, status, wanted, unwanted=(), after=None):
    """A run beside a lock: its status, what must stand in what it tells and what must not, and the files after it."""
    with tempfile.TemporaryDirectory() as folder:
        put(folder, {"schema.sql": SCHEMA, **files})
        out, err, ended = run(*words, cwd=folder)
        check(f"lock, {name}: status", ended == status, (ended, out, err))
        for text in wanted:
            check(f"lock, {name}: {text!r}", text in out, out)
        for text in unwanted:
            check(f"lock, {name}: no {text!r}", text not in out, out)
        for path, text in (after or {}).items():
            there = os.path.exists(f"{folder}/{path}")
            check(f"lock, {name}: {path}", (held(f"{folder}/{path}") if there else None) == text, there)
        return out, err


def the_locks():
    """The locks that `wdreport lock` writes, and what a later run tells of them."""
    with tempfile.TemporaryDirectory() as folder:
        put(folder, {"schema.sql": SCHEMA, "q.sql": f"{ONE};\n{TIED};\n{FIRST};\nSELECT x FROM t", "one.sql": ONE, "first.sql": FIRST, "open.sql": TIED, "open.sql.cert": "null\n"})
        out, err, status = run("lock", "q.sql", "one.sql", "first.sql", "open.sql", cwd=folder)
        check("lock: status", (status, err) == (0, ""), (status, out, err))
        for text in ("q.sql: locked: 2 of 4 queries", "one.sql: locked: 1 of 1 queries", "open.sql: locked: 0 of 1 queries", "\nlocked: 4 of 7 queries\n"):
            check(f"lock: {text!r}", text in out, out)
        check("lock: one without a certificate goes", not os.path.exists(f"{folder}/open.sql.cert"))
        check("lock: no other file", sorted(os.listdir(folder)) == sorted(["schema.sql", "q.sql", "one.sql", "first.sql", "open.sql", "q.sql.cert", "one.sql.cert", "first.sql.cert"]), os.listdir(folder))
        one, first = held(f"{folder}/one.sql.cert"), held(f"{folder}/first.sql.cert")
        check("lock: a line for each query", held(f"{folder}/q.sql.cert") == f"{one}null\n{first}null\n" and one.count("\n") == 1 and one.endswith("\n"), held(f"{folder}/q.sql.cert"))
        for text, nodes in ((one, 2), (first, 3)):
            certificate = json.loads(text)
            check("lock: a certificate", sorted(certificate) == ["nodes", "version"] and certificate["version"] == 1 and len(certificate["nodes"]) >= nodes, text)
        checker = os.path.join(os.path.dirname(os.path.dirname(os.path.dirname(PROGRAM))), "wdcheck/out/wdcheck")
        if os.access(checker, os.X_OK):
            ran = subprocess.run([checker, "verify", "schema.sql", "first.sql", "first.sql.cert"], cwd=folder, capture_output=True)
            check("lock: wdcheck accepts it", (ran.returncode, ran.stdout) == (0, b"ACCEPTED\n"), ran)
        out, err, status = run("q.sql", cwd=folder)
        check("lock: a later run", status == 2 and "4 queries: 2 deterministic, 1 depend, 0 may tie, 1 not read" in out and "lost" not in out and "stale" not in out, (status, out, err))
        out, err, status = run("lock", "q.sql", cwd=folder)
        check("lock: again the same", status == 0 and held(f"{folder}/q.sql.cert") == f"{one}null\n{first}null\n", out)
    locked("kept", {"q.sql": ONE, "q.sql.cert": one}, ["q.sql"], 0, ["1 query: 1 deterministic"], ["lost", "stale"])
    locked("kept, spelled otherwise", {"q.sql": ONE, "q.sql.cert": " " + one.rstrip("\n").replace(":", " : ")}, ["q.sql"], 0, ["1 deterministic"], ["lost", "stale"])
    locked("lost", {"q.sql": TIED, "q.sql.cert": one}, ["q.sql"], 1, ["q.sql:1:1: lost its certificate: the one in q.sql.cert no longer holds", "q.sql:1:11: depends", "\n1 query lost its certificate\n"])
    locked("two lost", {"q.sql": f"{TIED};\n\n{TIED}", "q.sql.cert": one + first}, ["q.sql"], 1, ["q.sql:1:1: lost", "q.sql:3:1: lost", "\n2 queries lost their certificates\n"])
    locked("lost where it is not read", {"q.sql": "SELECT x FROM t", "q.sql.cert": one}, ["q.sql"], 2, ["q.sql:1:1: lost", "[402]"])
    locked("lost where it may tie", {"q.sql": MAY_TIE, "q.sql.cert": one}, ["--allow-unknown", "q.sql"], 1, ["q.sql:1:1: lost", "1 query lost its certificate"])
    locked("lost and excused", {"q.sql": f"-- wdreport: may depend, so it is\n{TIED}", "q.sql.cert": one}, ["q.sql"], 0, ["q.sql:2:1: lost", "; 1 excused"], ["1 query lost its"])
    locked("lost and known", {"q.sql": TIED, "q.sql.cert": one, "known": '{"version":1}\n{"finding":"depends","path":"q.sql","place":"ROW_NUMBER() OVER (ORDER BY v)"}\n'},
           ["--baseline", "known", "q.sql"], 0, ["q.sql:1:1: lost", "; 1 known"], ["1 query lost its"])
    locked("lost and mended", {"q.sql": TIED, "q.sql.cert": one}, ["--fix", "q.sql"], 0, ["q.sql:1:1: lost", "q.sql: fixed"], ["1 query lost its"], {"q.sql": MENDED, "q.sql.cert": one})
    locked("stale", {"q.sql": f"{ONE};\n{ONE}", "q.sql.cert": first + one}, ["q.sql"], 0, ["q.sql.cert: stale: the query on line 1 of the file has another certificate now", "2 deterministic"], ["lost", "q.sql:2"])
    locked("that of another query", {"q.sql": f"{TIED};\n{FIRST}", "q.sql.cert": f"{first}null\n"}, ["q.sql"], 1, ["q.sql:1:1: lost", "1 deterministic, 1 depend"], ["q.sql:2:1", "stale"])
    locked("null", {"q.sql": TIED, "q.sql.cert": "null\n"}, ["q.sql"], 1, ["q.sql:1:11: depends", "0 deterministic, 1 depend"], ["lost", "stale"])
    locked("null of a query with one answer", {"q.sql": ONE, "q.sql.cert": " null"}, ["q.sql"], 0, ["1 deterministic"], ["lost", "stale"])
    locked("another number of lines", {"q.sql": f"{ONE};\n{ONE}", "q.sql.cert": one}, ["q.sql"], 3, ["q.sql.cert: the lock does not fit the file (lines: 1, queries: 2): wdreport lock writes it anew", "2 deterministic"], ["lost", "stale"])
    locked("too many lines", {"q.sql": ONE, "q.sql.cert": one + one}, ["q.sql"], 3, ["q.sql.cert: the lock does not fit the file (lines: 2, queries: 1)"])
    locked("a line that is no JSON", {"q.sql": f"{ONE};{ONE}", "q.sql.cert": f"{one}<<<<<<< HEAD\n"}, ["q.sql"], 3, ["q.sql.cert: line 2 of the lock is neither a certificate nor null", "2 deterministic"])
    locked("a line of another form", {"q.sql": ONE, "q.sql.cert": "{}\n"}, ["q.sql"], 3, ["line 1 of the lock is neither"])
    locked("a line of a later version", {"q.sql": ONE, "q.sql.cert": one.replace('"version":1', '"version":3')}, ["q.sql"], 3, ["line 1 of the lock is neither"])
    locked("an empty line", {"q.sql": ONE, "q.sql.cert": "\n"}, ["q.sql"], 3, ["line 1 of the lock is neither"])
    locked("a folder", {"q.sql": ONE, "q.sql.cert/x": ""}, ["q.sql"], 3, ["q.sql.cert: the lock can't be read", "1 deterministic"])
    locked("too large", {"q.sql": ONE, "q.sql.cert": " " * ((64 << 20) + 1)}, ["q.sql"], 3, ["q.sql.cert: the lock has more than 64 MiB"])
    locked("of another file", {"q.sql": TIED, "r.sql.cert": one}, ["q.sql"], 1, ["depends"], ["lost"])
    locked("a folder of queries", {"a/q.sql": ONE, "a/b/r.sql": ONE}, ["lock", "a"], 0, ["a/q.sql: locked: 1 of 1 queries", "locked: 2 of 2 queries"], [], {"a/q.sql.cert": one, "a/b/r.sql.cert": one})
    locked("a schema that is named", {"a/q.sql": "SELECT x FROM u", "u.ddl": "CREATE TABLE u (x BIGINT)"}, ["lock", "--schema", "u.ddl", "a"], 0, ["locked: 1 of 1 queries"])
    locked("a query as a lock", {"q.sql": ONE, "q.sql.cert": TIED}, ["lock", "q.sql", "q.sql.cert"], 3, ["q.sql: not locked: its lock would be written over a query that is judged"], [], {"q.sql.cert": TIED})
    locked("a schema as a lock", {"q.sql": ONE, "q.sql.cert": SCHEMA}, ["lock", "--schema", "./q.sql.cert", "q.sql"], 3, ["q.sql: not locked: its lock would be written over the schema"], [], {"q.sql.cert": SCHEMA})
    locked("one that can't be written", {"q.sql": ONE, ".q.sql.cert.wdreport-new": "mine"}, ["lock", "q.sql"], 3, ["q.sql.cert: a file .NAME.wdreport-new stands beside it"], [], {"q.sql.cert": None})
    locked("no such file", {"q.sql": ONE}, ["lock", "none.sql", "q.sql"], 3, ["none.sql: there is no such file", "q.sql: locked: 1 of 1"], [], {"q.sql.cert": one})
    locked("standard input", {}, ["lock", "-"], 3, ["-: not locked: standard input"])
    for words in (["lock"], ["lock", "--html", "page", "q.sql"], ["lock", "--fix", "q.sql"], ["lock", "--baseline", "known", "q.sql"], ["lock", "--format", "json", "q.sql"], ["lock", "--allow-unknown", "q.sql"]):
        _, err = locked(f"the words {words}", {"q.sql": ONE}, words, 3, [], [], {"q.sql.cert": None})
        check(f"lock, the words {words}: told", "error:" in err, err)
    locked("a folder of that name", {"lock/q.sql": ONE}, ["./lock"], 0, ["1 deterministic"])
    with tempfile.TemporaryDirectory() as folder:
        put(folder, {"schema.sql": SCHEMA, "q.sql": f"{TIED};\n{ONE}", "q.sql.cert": one + first})
        out, _, status = run("--format", "json", "q.sql", cwd=folder)
        found = [json.loads(line) for line in out.splitlines()]
        check("lock: json", status == 1 and [(f["finding"], f["path"], f["line"]) for f in found] == [("depends", "q.sql", 1), ("lost", "q.sql", 1), ("stale", "q.sql.cert", 1)], out)
        out, _, status = run("--format", "github", "q.sql", cwd=folder)
        check("lock: github", status == 1 and "\n::error file=q.sql,line=1,col=1::q.sql:1:1: lost its certificate" in out and "\n::warning file=q.sql.cert,line=1,col=1::q.sql.cert: stale" in out, out)
        page, _, status = run("--html", "page.html", "q.sql", cwd=folder)
        check("lock: the page", status == 1 and "2 queries: 1 deterministic" in held(f"{folder}/page.html"), page)
    out, _, status = run("lock", "--help", cwd=TOP)
    check("lock: help", status == 0 and "Usage: wdreport lock" in out and "--schema" in out and "--html" not in out, out)




FIRST_TABLE = "CREATE TABLE t (a numeric NOT NULL, CONSTRAINT k PRIMARY KEY (a));\n"
# What is told of each schema that is read as PostgreSQL's tools write it, by the words of its texts.
NOTES = {
    "passed": "schema.sql: note: passed over {}: less is known of the rows, so rows shown may break these",
    "order": "schema.sql: note: texts are taken to be in the order of their bytes, whatever COLLATE says",
    "same": "schema.sql: note: values that are equal and may look different, as of json, interval, real and numeric without a scale, are taken to be the same",
    "units": "schema.sql: note: dates count days, timestamps microseconds, and numeric(p, s) units of its last place",
}


def the_written():
    """Schemas as PostgreSQL's tools write them: their tables, and the words at which they are refused."""
    for text, wanted in lines_of("schemas.txt"):
        with tempfile.TemporaryDirectory() as folder:
            put(folder, {"schema.sql": FIRST_TABLE + text.replace("\\n", "\n").replace("\\\\", "\\"), "q.sql": "SELECT a FROM t"})
            shown, told, ended = run("--show-respelled", "q.sql", cwd=folder)
            out, err, status = run("q.sql", cwd=folder)
            if wanted.startswith("at "):
                _, place, words = wanted.split(" ")
                carets = [line for line in out.splitlines() if re.fullmatch(r" +\| +\^+", line)]
                ok = (status, ended, shown, err) == (2, 2, "", "") and out.startswith(f"schema.sql:{place}: not read: ") and len(carets) == 1 and carets[0].count("^") == len(words)
                check(f"schema: {text[:80]}", ok and "1 query: 0 deterministic, 0 depend, 0 may tie, 1 not read" in out and told == out.split("1 query")[0], (status, out, shown, told))
            else:
                check(f"schema: {text[:80]}", (ended, " ".join(shown.split())) == (0, "-- schema.sql " + wanted), (ended, shown, told))
                check(f"schema: {text[:80]}: judged", (status, err) == (0, "") and "1 query: 1 deterministic" in out and NOTES["same"] in out and told == out.split("1 query")[0], (status, out, told))
    for name, table in {"shop": "orders", "bank": "accounts", "web": "events", "hr": "employees", "dump": "parcels"}.items():
        with tempfile.TemporaryDirectory() as folder:
            put(folder, {"schema.sql": held(f"{TOP}/tests/report/written/{name}.sql"), "q.sql": f"SELECT 1 AS one FROM {table}"})
            shown, told, ended = run("--show-respelled", "q.sql", cwd=folder)
            if name == "dump":
                check("notes on a dump", NOTES["passed"].format("DEFAULT, CHECK, REFERENCES, other statements") in told and all(NOTES[it] in told for it in ("order", "same", "units")), told)
            check(f"schema of {name}", (ended, shown.split()) == (0, ["--", "schema.sql"] + held(f"{TOP}/tests/report/written/{name}.tables").split()), (ended, shown, told))
            put(folder, {"schema.sql": shown})
            again, told, ended = run("--show-respelled", "q.sql", cwd=folder)
            check(f"schema of {name}: read as it is", (ended, told) == (0, "") and again.split() == ["--", "schema.sql"] + shown.split(), (ended, again, told))
    for text in ("CREATE TABLE t (a BIGINT;", FIRST_TABLE + "CREATE FUNCTION f() RETURNS integer AS $$ SELECT 1 $$ LANGUAGE sql;"):
        with tempfile.TemporaryDirectory() as folder:
            put(folder, {"schema.sql": text, "q.sql": "SELECT a FROM t"})
            shown, told, ended = run("--show-respelled", "q.sql", cwd=folder)
            check(f"schema: {text}", (ended, shown) == (2, "") and "schema.sql" in told and "not read: judge a query over it to see where" in told, (ended, shown, told))
            out, _, status = run("q.sql", cwd=folder)
            check(f"schema: {text}: judged", status == 2 and "1 not read" in out, (status, out))


def the_written_judged():
    """Queries over a schema as PostgreSQL's tools write it."""
    shop = held(f"{TOP}/tests/report/written/shop.sql")
    tied = "SELECT order_id, status, ROW_NUMBER() OVER (PARTITION BY customer_id ORDER BY order_date DESC) AS n FROM orders"
    mended = tied.replace("DESC)", "DESC, order_id)")
    passed = NOTES["passed"].format("DEFAULT, CHECK, REFERENCES, GENERATED, other statements")
    with tempfile.TemporaryDirectory() as folder:
        put(folder, {"schema.sql": shop, "a.sql": tied, "b.sql": mended, "c.sql": "SELECT email FROM customers ORDER BY email LIMIT 1"})
        every = ["a.sql", "b.sql", "c.sql"]
        out, err, status = run(*every, cwd=folder)
        check("written: judged", (status, err) == (1, "") and "a.sql:1:26: depends" in out and "help: ORDER BY order_date DESC, order_id " in out and "3 queries: 2 deterministic, 1 depend" in out, (status, out, err))
        check("written: notes once", out.count(": note: ") == 2 and out.startswith(f"{passed}\n\n{NOTES['units']}\n\n"), out)
        out, err, status = run("--format", "json", *every, cwd=folder)
        lines = [json.loads(line) for line in out.splitlines()]
        check("written: json", (status, err) == (1, "") and [line["finding"] for line in lines][:3] == ["note", "note", "depends"] and lines[0]["path"] == "schema.sql" and lines[0]["text"] == passed, out)
        out, err, status = run("--format", "github", *every, cwd=folder)
        check("written: github", status == 1 and out.startswith("::warning file=schema.sql,line=1,col=1::"), out)
        out, err, status = run("lock", *every, cwd=folder)
        check("written: lock", status == 0 and "locked: 2 of 3 queries" in out and out.count(": note: ") == 2, (status, out, err))
        out, err, status = run("b.sql", "c.sql", cwd=folder)
        check("written: locked", status == 0 and "2 queries: 2 deterministic" in out and "stale" not in out, (status, out))
        put(folder, {"schema.sql": shop.replace("order_id     bigint PRIMARY KEY", "order_id     bigint PRIMARY KEY DEFERRABLE")})
        out, err, status = run("b.sql", "c.sql", cwd=folder)
        check("written: a key that is deferrable is none", status == 1 and "b.sql:1:1: lost its certificate" in out and "DEFERRABLE keys" in out, (status, out))
        put(folder, {"schema.sql": shop + "ALTER TABLE orders DROP CONSTRAINT orders_pkey;\n"})
        out, err, status = run("--format", "json", "a.sql", "b.sql", cwd=folder)
        kinds = [json.loads(line)["finding"] for line in out.splitlines()]
        check("written: refused once", status == 2 and kinds == ["not read"], (status, out))
        put(folder, {"schema.sql": "CREATE TABLE a.t (x date);\nCREATE TABLE b.t (x date);\n"})
        out, err, status = run("a.sql", cwd=folder)
        check("written: two tables of one name", status == 2 and out.startswith("schema.sql: not read: ") and "[301]" in out.split("\n")[0], (status, out))
        put(folder, {"schema.sql": shop, "d/schema.sql": SCHEMA, "d/q.sql": ONE})
        out, err, status = run("--show-respelled", *every, "d", cwd=folder)
        check("written: each schema", status == 0 and out.count("-- ") == 2 and out.index("-- schema.sql") < out.index("-- d/schema.sql") and SCHEMA in out and err.count(": note: ") == 2, (status, out, err))
        out, err, status = run("--show-respelled", "none.sql", cwd=folder)
        check("written: no such path", (status, out) == (3, "") and "there is no such file" in err, (status, out, err))
        out, err, status = run("--show-respelled", cwd=folder)
        check("written: no path", status == 3, (status, out, err))


def the_queries_written():
    """Queries as analysts wrote them, over schemas as they wrote these: what is found, or the word that no equation is for."""
    for path, wanted in lines_of("written.txt"):
        name, file = path.split("/")
        with tempfile.TemporaryDirectory() as folder:
            put(folder, {"schema.sql": held(f"{TOP}/tests/report/written/{name}.sql"), "q.sql": held(f"{TOP}/tests/report/written/{path}")})
            out, _, status = run("q.sql", cwd=folder)
            if wanted.startswith("at "):
                lines = out.splitlines()
                at = next((n for n, line in enumerate(lines) if re.fullmatch(r" +\| +\^+", line)), 0)
                word = lines[at - 1][lines[at].find("^"):][: lines[at].count("^")] if at else ""
                check(f"written: {path}: {wanted}", status == 2 and word.upper() == wanted[3:], (status, out))
            else:
                check(f"written: {path}: {wanted}", status == {"deterministic": 0, "depend": 1, "may tie": 1}[wanted] and f" 1 {wanted}" in out, (status, out))


HOSTILE = "SELECT g AS \"</pre><script>alert(1)</script>\", '<b>&\"\u202e' AS \"it's\", ROW_NUMBER() OVER (ORDER BY v) AS n FROM t"


# Of 26 rows and more, in which each row of the answer has the first row's id.
ALL_DIFFER = "SELECT f FROM (SELECT FIRST_VALUE(id) OVER (ORDER BY v ROWS BETWEEN UNBOUNDED PRECEDING AND UNBOUNDED FOLLOWING) AS f, COUNT(*) OVER () AS n FROM t) AS s WHERE n >= 26"


def the_page():
    """The page: one file, in which what comes from an input stands escaped."""
    with tempfile.TemporaryDirectory() as folder:
        put(folder, {"schema.sql": SCHEMA, "a/<i>.sql": HOSTILE, "b.sql": ONE, "c.sql": "SELECT x FROM t", "d.sql": f"{TIED};\n{MAY_TIE}"})
        out, err, status = run("--html", "page.html", "a", "b.sql", "c.sql", "d.sql", cwd=folder)
        check("page: status", (status, err) == (2, ""), (status, out, err))
        page = held(f"{folder}/page.html")
        check("page: whole", page.lower().startswith("<!doctype html>") and page.rstrip().endswith("</html>"), page[:200])
        check("page: no script", "<script" not in page and "</pre><script" not in page and "javascript:" not in page, page[:200])
        check("page: nothing from elsewhere", not re.search(r"(src|href)=['\"](?!#)", page) and "@import" not in page and "url(" not in page, page[:200])
        for text in ("&lt;i&gt;.sql", "&lt;script&gt;alert(1)", "U+202E", "it&#39;s", "ORDER BY v", "5 queries: 1 deterministic", "INSERT INTO", "402"):
            check(f"page: {text}", text in page, page[-3000:])
        check("page: no mark of direction", "\u202e" not in page, "")
        check("page: links", len(re.findall(r"<a href='#q\d+'>", page)) == 5 and len(re.findall(r" id='q\d+'", page)) == 5, page[:3000])
        for tag in ("table", "section", "div", "pre", "details"):
            check(f"page: {tag} ends", len(re.findall(rf"<{tag}[ >]", page)) == page.count(f"</{tag}>"), tag)
        run("--html", "page.html", "b.sql", cwd=folder)
        again = held(f"{folder}/page.html")
        check("page: written anew", "1 query: 1 deterministic" in again and "alert" not in again, again[-500:])
        put(folder, {"e.sql": ALL_DIFFER})
        run("--html", "page.html", "e.sql", cwd=folder)
        again = held(f"{folder}/page.html")
        check("page: long answers that share no row", "1 query: 0 deterministic, 1 depend" in again and "Another answer" in again and "and the rows that both" not in again, again[-500:])
        out, err, status = run("--html", "none/page.html", "b.sql", cwd=folder)
        check("page: no such folder", status == 3 and "the page can't be written" in err, (status, out, err))


def the_spelled():
    """Conditions and select lists in the plan of a page."""
    schema = f'{SCHEMA}CREATE TABLE u (id BIGINT, "Two words" TEXT);\n'
    for text, wanted in lines_of("spelled.txt"):
        with tempfile.TemporaryDirectory() as folder:
            put(folder, {"schema.sql": schema, "q.sql": text})
            _, err, _ = run("--html", "page.html", "q.sql", cwd=folder)
            shown = [html.unescape(it) for it in re.findall(r"<code>(.*?)</code>", held(f"{folder}/page.html"), re.S)]
            check(f"spelled: {text[:100]}", wanted in shown, (shown, err))


PROGRAM = os.path.abspath(sys.argv[1])
the_folders()
small_cases()
the_formats()
the_fixes()
the_screen()
the_schema()
the_remedies()
the_places()
the_ties()
the_marks()
the_simpler()
the_respelled()
the_extreme()
the_further()
the_excuses()
the_written()
the_written_judged()
the_queries_written()
the_baselines()
the_outputs()
the_locks()
the_page()
the_spelled()
print(f"{sum(results)} passed, {len(results) - sum(results)} failed")
sys.exit(results.count(False) > 0)
