#!/usr/bin/env python3
"""Runs the cases of tests/verdicts/cases.txt through the built program.

    python3 tests/verdicts.py PROGRAM

The head of that file says how a case is written. Each line under a query is compared with what the program shows; a certificate
that `check` prints must be accepted by `verify`, a witness refuted by `refute`, a refusal must be `explain`'s too, and `explain`
must end with the verdict's word. An answer of `run` is compared as a multiset: its lines in any order (no value has a line
feed). The last line is 'N passed, M failed'.
"""

import json
import os
import re
import subprocess
import sys
import tempfile

TOP = os.path.dirname(os.path.dirname(os.path.abspath(__file__)))
CASES = f"{TOP}/tests/verdicts/cases.txt"
# Over a query that may show anything, one that shows nothing: no witness is found, so that `check` gives all reasons.
SHOWS_NOTHING = b"SELECT 1 AS one FROM (%s) AS s WHERE FALSE"


class Unexpected(Exception):
    """What the program did that no case expects."""


def repeated(text, opening, closing):
    """The text with each group between such brackets as often as the number before it says."""
    group = rf"\\(\d+){re.escape(opening)}([^{re.escape(opening + closing)}]*){re.escape(closing)}"
    return re.sub(group, lambda it: "".join(it[2].replace(r"\#", str(number)) for number in range(int(it[1]))), text)


def unescaped(text):
    """The bytes that a text stands for."""
    text = repeated(repeated(text, "[", "]"), "{", "}")
    parts = re.split(r"\\(n|x[0-9A-F]{2})", text)
    for place in range(1, len(parts), 2):
        parts[place] = b"\n" if parts[place] == "n" else bytes.fromhex(parts[place][1:])
    return b"".join(it if isinstance(it, bytes) else it.encode() for it in parts)


def last_first(table):
    """The data with its records last to first behind the header."""
    header, *records = table.split(b"\n")[:-1]
    return b"\n".join([header, *reversed(records), b""])


def times(number, what):
    return f"{number} {what}{'s' * (number != 1)}"


class Query:
    """A query over a schema and data, in a folder of its own."""

    def __init__(self, program, folder, schema, query, data):
        self.program, self.folder, self.query, self.data, self.answers = program, folder, query, data, {}
        self.write("schema.sql", schema)
        self.write("query.sql", query)

    def write(self, name, text):
        with open(f"{self.folder}/{name}", "wb") as file:
            file.write(text)

    def said(self, command, *words, query="query.sql"):
        """The status of a command, and its lines: those of standard output, or the one of standard error."""
        key = command, words, query
        if key not in self.answers or words:
            line = [self.program, command, "schema.sql", query, *words]
            ran = subprocess.run(line, cwd=self.folder, stdin=subprocess.DEVNULL, capture_output=True, timeout=300)
            printed = (ran.stdout or ran.stderr).decode()
            if ran.stdout and ran.stderr or not printed.endswith("\n"):
                raise Unexpected(f"{command}: status {ran.returncode}, {ran.stdout[:300]!r}, standard error {ran.stderr[:300]!r}")
            self.answers[key] = ran.returncode, printed.split("\n")[:-1]
        return self.answers[key]

    def expect(self, status, lines, command, *words):
        if self.said(command, *words) != (status, lines):
            raise Unexpected(f"{command}: {self.said(command, *words)}")

    def check(self):
        status, (word, *lines) = self.said("check")
        if (status, word, len(lines)) == (0, "DETERMINISTIC", 1):
            self.write("certificate.json", lines[0].encode())
            self.expect(0, ["ACCEPTED"], "verify", "certificate.json")
            names_columns_once(json.loads(lines[0]))
            return word
        if (status, word, len(lines)) == (1, "DEPENDS", 1):
            self.write("witness.json", lines[0].encode())
            self.expect(1, ["REFUTED"], "refute", "witness.json")
            return f"{word} {lines[0]}"
        if (status, word) == (2, "UNKNOWN"):
            return f"{word} {'; '.join(lines)}"
        if (status, lines) == (3, []):
            self.expect(3, [word], "explain")
            return word
        raise Unexpected(f"check: status {status}, {[word, *lines]}")

    def nodes(self):
        """The lines of `explain` for the plan, without the verdict's word."""
        status, lines = self.said("explain")
        if (status, lines[-1]) != (self.said("check")[0], self.said("check")[1][0]):
            raise Unexpected(f"explain: status {status}, last line {lines[-1]!r}")
        return lines[:-1]

    def plan(self):
        numbered = [line for line in self.nodes() if not line.startswith(" ")]
        width = re.match(r"\d+ (?:Scan \S+|\w+) (\d+)", numbered[-1])[1]
        return f"{times(len(numbered), 'node')}, {times(int(width), 'column')}"

    def rules(self):
        found = []
        for line in self.nodes():
            call = re.fullmatch(r"  (call \d+) \w+ class \d+ (\w+)", line)
            if call:
                found.append(f"node {node} {call[1]}: {call[2]}")
                continue
            node = line.split()[0]
            limit = re.fullmatch(r"\d+ Limit \d+ (\w+)", line)
            if limit:
                found.append(f"node {node} limit: {limit[1]}")
        return "; ".join(found) or "none"

    def keeps(self):
        found = []
        for number, node in enumerate(json.loads(self.said("check")[1][1])["nodes"]):
            kept = [f"{numbers(node['traces'][it['trace']]['from'])}>{numbers(it['to'])}" for it in node["keep"]]
            found.append(" ".join([f"{number}:", *kept]))
        return " | ".join(found)

    def lacks(self):
        self.write("nothing.sql", SHOWS_NOTHING % self.query)
        status, (word, *reasons) = self.said("check", query="nothing.sql")
        if (status, word) != (2, "UNKNOWN"):
            raise Unexpected(f"check of a query over this one that shows nothing: status {status}, {[word, *reasons]}")
        return "; ".join(reasons)

    def run(self):
        answers = [self.run_over(in_order) for in_order in (bytes, last_first)]
        if answers[0] != answers[1]:
            return "several answers"
        status, lines = answers[0]
        return times(len(lines) - 1, "row") if status == 0 else lines[0]

    def run_over(self, in_order):
        """The status and the lines of the answer over the data with its records in an order, the header first."""
        for name, text in self.data.items():
            self.write(f"{name}.csv", in_order(text))
        status, (header, *rows) = self.said("run", *(f"{name}={name}.csv" for name in self.data))
        return status, [header, *sorted(rows)]


def names_columns_once(certificate):
    """No trace of the certificate has a column twice."""
    for trace in (trace for node in certificate["nodes"] for trace in node["traces"]):
        if len(set(trace["from"])) < len(trace["from"]):
            raise Unexpected(f"check: a column stands twice in a trace, {trace}")


def numbers(them):
    return ",".join(map(str, them))


SHOWN = {"check": Query.check, "plan": Query.plan, "rules": Query.rules, "keeps": Query.keeps, "lacks": Query.lacks, "run": Query.run}


def cases(text):
    """Each query with its schema and its data, and what must be shown of it: the number of the line, the word, the text."""
    schema, data, found = b"", {}, []
    for number, line in enumerate(text.split("\n"), 1):
        word, _, rest = line.strip().partition(" ")
        if not word or word.startswith("#"):
            continue
        if line.startswith("  ") and word in SHOWN and found:
            found[-1][-1].append((number, word, rest))
        elif word == "schema":
            schema, data = unescaped(rest), {}
        elif word == "data":
            name, _, table = rest.partition(" ")
            data = data | {name: unescaped(table)}
        elif word == "query":
            found.append((schema, unescaped(rest), data, []))
        else:
            raise SystemExit(f"{CASES}:{number}: no such line")
    return found


def wrong_line(query, word, wanted):
    """What is wrong with what the program shows of a query, or None."""
    if word == "keeps":
        wanted = " ".join(unescaped(wanted).decode().split())
    try:
        shown = SHOWN[word](query)
    except (Unexpected, LookupError, ValueError) as error:
        shown = f"{type(error).__name__}: {error}"
    return None if shown == wanted else f"{word} {shown[:600]}"


def main():
    program, passed, failed = os.path.abspath(sys.argv[1]), 0, 0
    with open(CASES, encoding="utf-8") as file:
        found = cases(file.read())
    for schema, query, data, wanted in found:
        with tempfile.TemporaryDirectory() as folder:
            tried = Query(program, folder, schema, query, data)
            for number, word, text in wanted:
                wrong = wrong_line(tried, word, text)
                passed, failed = passed + (not wrong), failed + bool(wrong)
                if wrong:
                    print(f"FAIL tests/verdicts/cases.txt:{number}: {wrong}")
    print(f"{passed} passed, {failed} failed")
    return 1 if failed or not found else 0


if __name__ == "__main__":
    sys.exit(main())
