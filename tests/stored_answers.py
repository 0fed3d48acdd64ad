#!/usr/bin/env python3
"""Runs stored queries over stored tables and compares the answers.

    python3 tests/stored_answers.py PROGRAM

Each folder of examples/ has schema.sql, query.sql, a CSV file for each table and answer.csv, which `run` prints, and
check.txt: what `check` prints, but for the certificate, which may use other facts and which `verify` must accept. In a folder
other_order stand the same tables in another order, with the answer over them. Where there is list.txt, it is to `check --list` and
`verify --list` what check.txt is to these commands without the flag. Where there is explain.txt too, `explain` prints it, where
there is certificate.json, `verify` accepts it, and where there is witness.json, `refute` does. A folder with refusal.txt has a
query that is not read, and the line that `check` and `explain` say of it in place of all these. tests/frames has one schema and one table and many queries, each
beside its answer: each function of a window in each mode of frame with each exclusion; those answers are PostgreSQL 15's. In
tests/selected stand likewise select lists with NULL, those that read few of the tables that are joined, and aggregates of groups, over two
tables and their pairs, with SQLite 3.40's answers. Each run must end with the status of its answer, print exactly what is stored and
nothing on standard error. A missing answer is a failure, and so is a folder without queries. The last line is 'N passed, M failed'.
"""

import glob
import os
import subprocess
import sys
import tempfile

TOP = os.path.dirname(os.path.dirname(os.path.abspath(__file__)))


def folders(is_refused):
    """The folders of the examples with a query that is read, or that is refused."""
    found = (folder.rstrip("/") for folder in sorted(glob.glob(f"{TOP}/examples/*/")))
    return [folder for folder in found if os.path.exists(f"{folder}/refusal.txt") == is_refused]


def examples():
    """The schema, the query, the tables and the answer of each example."""
    for folder in folders(False):
        for data in (folder, f"{folder}/other_order"):
            if os.path.isdir(data):
                tables = sorted(set(glob.glob(f"{data}/*.csv")) - {f"{data}/answer.csv"})
                yield f"{folder}/schema.sql", f"{folder}/query.sql", tables, f"{data}/answer.csv"


def queries(name, *tables):
    """The same for each query of a folder of tests/, over the tables there."""
    folder = f"{TOP}/tests/{name}"
    for query in sorted(set(glob.glob(f"{folder}/*.sql")) - {f"{folder}/schema.sql"}):
        yield f"{folder}/schema.sql", query, [f"{folder}/{table}.csv" for table in tables], query.removesuffix(".sql") + ".csv"


def frames():
    return queries("frames", "t")


def selected():
    return queries("selected", "t", "u")


STATUSES = {"DETERMINISTIC": 0, "LISTED": 0, "DEPENDS": 1, "LIST OPEN": 2, "UNKNOWN": 2}


def complaint(words, status, wanted, said=b""):
    """What is wrong with what the program prints for these words, or None."""
    ran = subprocess.run(words, stdin=subprocess.DEVNULL, capture_output=True, timeout=300)
    if (ran.returncode, ran.stderr) != (status, said):
        return f"status {ran.returncode}, standard error {ran.stderr[:300]!r}"
    return None if ran.stdout == wanted else f"{ran.stdout[:300]!r} is not the stored answer {wanted[:300]!r}"


def stored(file):
    with open(file, "rb") as text:
        return text.read()


def wrong_answer(program, schema, query, tables, answer):
    """What is wrong with the answer of `run`, or None."""
    if not os.path.isfile(answer):
        return f"there is no {os.path.basename(answer)}"
    words = [f"{os.path.basename(table).removesuffix('.csv')}={table}" for table in tables]
    return complaint([program, "run", schema, query, *words], 0, stored(answer))


def wrong_verdict(program, folder, file, *flags):
    """What is wrong with what `check` says of an example, or None."""
    words = [program, "check", *flags, f"{folder}/schema.sql", f"{folder}/query.sql"]
    wanted = stored(f"{folder}/{file}")
    word = wanted.decode().splitlines()[0]
    if wanted != f"{word}\n".encode():
        return complaint(words, STATUSES[word], wanted)
    ran = subprocess.run(words, stdin=subprocess.DEVNULL, capture_output=True, timeout=300)
    lines = ran.stdout.split(b"\n")
    if (ran.returncode, ran.stderr, len(lines), lines[0], lines[-1]) != (0, b"", 3, word.encode(), b""):
        return f"status {ran.returncode}, {ran.stdout[:300]!r}, standard error {ran.stderr[:300]!r}"
    with tempfile.NamedTemporaryFile() as certificate:
        certificate.write(lines[1])
        certificate.flush()
        return wrong_certificate(program, folder, certificate.name, *flags)


def wrong_explanation(program, folder):
    """What is wrong with what `explain` says of an example, or None."""
    wanted = stored(f"{folder}/explain.txt")
    word = wanted.decode().splitlines()[-1]
    return complaint([program, "explain", f"{folder}/schema.sql", f"{folder}/query.sql"], STATUSES[word], wanted)


def wrong_certificate(program, folder, certificate, *flags):
    """What is wrong where the program does not accept a certificate for an example, or None."""
    return complaint([program, "verify", *flags, f"{folder}/schema.sql", f"{folder}/query.sql", certificate], 0, b"ACCEPTED\n")


def wrong_witness(program, folder):
    """What is wrong where the program does not accept an example's witness, or None."""
    return complaint([program, "refute", f"{folder}/schema.sql", f"{folder}/query.sql", f"{folder}/witness.json"], 1, b"REFUTED\n")


def wrong_refusal(program, folder):
    """What is wrong where the program does not refuse an example as it should, or None."""
    texts = [f"{folder}/schema.sql", f"{folder}/query.sql"]
    found = (complaint([program, command, *texts], 3, b"", stored(f"{folder}/refusal.txt")) for command in ("check", "explain"))
    return next(filter(None, found), None)


def trials(program):
    """Each file that is tried, with what is wrong with it."""
    for schema, query, tables, answer in [*examples(), *frames(), *selected()]:
        yield answer, wrong_answer(program, schema, query, tables, answer)
    for folder in folders(True):
        yield f"{folder}/refusal.txt", wrong_refusal(program, folder)
    for folder in folders(False):
        yield f"{folder}/check.txt", wrong_verdict(program, folder, "check.txt")
        if os.path.exists(f"{folder}/list.txt"):
            yield f"{folder}/list.txt", wrong_verdict(program, folder, "list.txt", "--list")
        if os.path.exists(f"{folder}/explain.txt"):
            yield f"{folder}/explain.txt", wrong_explanation(program, folder)
        if os.path.exists(f"{folder}/certificate.json"):
            yield f"{folder}/certificate.json", wrong_certificate(program, folder, f"{folder}/certificate.json")
        if os.path.exists(f"{folder}/witness.json"):
            yield f"{folder}/witness.json", wrong_witness(program, folder)


def main():
    program, passed, failed = os.path.abspath(sys.argv[1]), 0, 0
    failed += not list(examples())
    failed += not list(frames())
    failed += not list(selected())
    for file, wrong in trials(program):
        passed, failed = passed + (not wrong), failed + bool(wrong)
        if wrong:
            print(f"FAIL {os.path.relpath(file, TOP)}: {wrong}")
    print(f"{passed} passed, {failed} failed")
    return 1 if failed else 0


if __name__ == "__main__":
    sys.exit(main())
