#!/usr/bin/env python3
"""Tries every example of docs/REFUSALS.md against the program.

    python3 tests/refusals.py PROGRAM

An example is a row of a table with the columns 'Number' and 'Example': the program must end with status 3 (4 for a fault) and
print nothing but the answer that the row shows, on standard error. The page says how an example is written; what it leaves out
(schema, query, certificate, witness, data, the words of the command line) is the section's, from the code blocks that the page
has under its headings. Each number must stand in a row, and each row must have an answer. Where the answer names a place,
tools/place.py must find it in the example.

A row of a table with the column 'At the caret' is tried too: the example must be refused, tools/place.py must show a caret under
the words of the first cell (each of several takes the place of the first in the example), and the query that the last cell begins
with must be read. The last line is 'N passed, M failed'.
"""

import os
import re
import subprocess
import sys
import tempfile

TOP = os.path.dirname(os.path.dirname(os.path.abspath(__file__)))
PAGE = f"{TOP}/docs/REFUSALS.md"
# The numbers that a command of the program answers.
NUMBERS = {*range(101, 108), 201, 202, *range(301, 310), *range(401, 420), *range(501, 512), *range(601, 605), *range(701, 708), 802}
FAULTS = {"F1", "F2"}
FILES = {"schema": "schema.sql", "query": "query.sql", "certificate": "certificate.json", "witness": "witness.json", "data": "t.csv"}
# The command that a section's examples are tried with, what it reads, and the kind of an example without a name before it.
SECTIONS = {
    "Texts of schemas and queries": ("check", "query"),
    "Queries": ("check", "query"),
    "Schemas": ("check", "schema"),
    "Certificates": ("verify", "certificate"),
    "Certificates of lists": ("verify --list", "certificate"),
    "Witnesses": ("refute", "witness"),
    "Data": ("run", "data"),
    "Runs": ("run", "query"),
}
EMPTY_ENTRY = '{"calls":[],"keep":[],"limit":null,"traces":[]}'
ITEM = r"(?:[\d,]+ times )?(?:`[^`]+`|E\b|byte [0-9A-F]{2})"
PART = re.compile(rf"(?:(?P<kind>schema|query|certificate|witness|data|words) )?(?P<text>`[^`]+` becomes `[^`]+`|{ITEM}(?:, {ITEM})*)(?:; |$)")


def item_bytes(item):
    """The bytes that an item of an example stands for."""
    times, _, what = item.rpartition(" times ")
    if what == "E":
        text = EMPTY_ENTRY.encode()
    elif what.startswith("byte "):
        text = bytes.fromhex(what.removeprefix("byte "))
    else:
        text = what.strip("`").encode()
    return text * int(times.replace(",", "") or 1)


def part_bytes(text, kind, given):
    """The bytes of a part of an example: those of its items, or the section's with one text in place of another."""
    old, becomes, new = text.partition("` becomes `")
    if becomes:
        old, new = old.strip("`").encode(), new.strip("`").encode()
        if old not in given[kind]:
            raise ValueError(f"{old.decode()} does not stand in the section's {kind}")
        return given[kind].replace(old, new, 1)
    found = b"".join(item_bytes(item) for item in re.findall(ITEM, text))
    return found.replace(b" / ", b"\n") + b"\n" if kind == "data" else found


def inputs(cell, kind, given):
    """The texts and the words of an example."""
    found, at = dict(given), 0
    for part in PART.finditer(cell):
        if part.start() != at:
            break
        which = part["kind"] or kind
        found[which], at = part_bytes(part["text"], which, given), part.end()
    if at != len(cell):
        raise ValueError(f"this is no example: {cell[at:]}")
    return found


def run(program, command, texts):
    """What the program does with these texts, and the folder's files by what a refusal's line calls them."""
    with tempfile.TemporaryDirectory() as folder:
        for kind, name in FILES.items():
            with open(f"{folder}/{name}", "wb") as file:
                file.write(texts[kind])
        name, *flags = command.split()
        words = {"verify": ["certificate.json"], "refute": ["witness.json"], "run": texts["words"].decode().split()}.get(name, [])
        line = [program, name, *flags, "schema.sql", "query.sql", *words]
        return subprocess.run(line, cwd=folder, stdin=subprocess.DEVNULL, capture_output=True, timeout=300)


def wrong_place(answer, texts):
    """What is wrong where tools/place.py does not show the place that an answer names, or None."""
    if " at " not in answer:
        return None
    kind = answer.partition(":")[0].partition(" ")[0]
    with tempfile.TemporaryDirectory() as folder:
        path = f"{folder}/{FILES[kind]}"
        with open(path, "wb") as file:
            file.write(texts[kind])
        ran = subprocess.run([sys.executable, f"{TOP}/tools/place.py", answer, path], capture_output=True, text=True)
        return None if ran.returncode == 0 and ran.stdout.startswith(path) else f"no place was shown: {ran.stdout[:200]}{ran.stderr[:200]}"


def complaint(program, command, kind, given, row):
    """What is wrong with a row of the page, or None."""
    number, example, answer = row["Number"], row["Example"], row["Answer"].strip("`")
    try:
        texts = inputs(example, kind, given)
    except ValueError as error:
        return str(error)
    ran = run(program, command, texts)
    status = 4 if number in FAULTS else 3
    said = (ran.returncode, ran.stdout, ran.stderr.decode(errors="replace"))
    if said != (status, b"", f"{answer}\n"):
        return f"status {said[0]}, {said[1][:200]!r}, standard error {said[2][:200]!r} and not {answer!r}"
    named = re.search(r": refused (\d+)|^fault (F\d)", answer)
    if not named or number not in named.groups():
        return f"the answer is not one of {number}"
    return wrong_place(answer, texts)


def shown_word(line, path):
    """What stands over the caret that tools/place.py shows for a refusal's line."""
    ran = subprocess.run([sys.executable, f"{TOP}/tools/place.py", line, path], capture_output=True, text=True)
    shown = ran.stdout.split("\n")
    if ran.returncode or len(shown) < 3:
        return None
    return "".join(c for c, under in zip(shown[1], shown[2]) if under == "^")


def caret_complaint(program, given, row):
    """What is wrong with a row of a table by the word at the caret, or None."""
    words = re.findall(r"`([^`]+)`", row["At the caret"]) if row["At the caret"].startswith("`") else [None]
    example, instead = row["Example"].strip("`"), re.match(r"`([^`]+)`", row["Write in its place"])
    read = run(program, "check", given | {"query": instead[1].encode()}) if instead else None
    if not read or read.returncode > 2:
        return f"what to write in its place is not read: {read.stderr if read else row}"
    for word in words:
        query = example if word is None else example.replace(words[0], word, 1) if word != words[0] else example
        ran = run(program, "check", given | {"query": query.encode()})
        line = ran.stderr.decode(errors="replace").strip()
        with tempfile.TemporaryDirectory() as folder:
            path = f"{folder}/query.sql"
            with open(path, "w", encoding="utf-8") as file:
                file.write(query)
            shown = shown_word(line, path)
        if ran.returncode != 3 or not shown or word is not None and shown != word:
            return f"{query}: status {ran.returncode}, {line}, caret under {shown!r}"
    return None


def cells(line):
    return [cell.strip().replace("\\|", "|") for cell in re.split(r"(?<!\\)\|", line.strip())[1:-1]]


def rows(page):
    """Each row of a table with examples: its section, the texts given so far, and its cells by the names of the columns."""
    section, given, names, wanted, block = None, dict.fromkeys(FILES, b"") | {"words": b"t=t.csv"}, None, None, []
    for line in page.split("\n"):
        if line.startswith("    "):
            block.append(line[4:])
            continue
        if block and wanted:
            given[wanted] = "\n".join(block).encode() + b"\n" * (wanted == "data")
            wanted = None
        block = []
        head = re.match(r"The (schema|query|certificate|witness|data|words)\b.*:$", line)
        wanted = head[1] if head else wanted
        section = line[3:] if line.startswith("## ") else section
        if not line.startswith("|"):
            names = None
        elif names is None:
            names = cells(line)
        elif "Example" in names and not line.startswith("| ---"):
            yield section, dict(given), dict(zip(names, cells(line), strict=True))


def main():
    program, passed, failed = os.path.abspath(sys.argv[1]), 0, 0
    with open(PAGE, encoding="utf-8") as file:
        found = list(rows(file.read()))
    lost = {str(number) for number in NUMBERS} | FAULTS
    for section, given, row in found:
        name = row.get("Number") or row["At the caret"]
        lost.discard(name)
        command, kind = SECTIONS[section]
        wrong = complaint(program, command, kind, given, row) if "Number" in row else caret_complaint(program, given, row)
        passed, failed = passed + (not wrong), failed + bool(wrong)
        if wrong:
            print(f"FAIL {name}: {wrong}")
    for number in sorted(lost):
        failed += 1
        print(f"FAIL {number}: no row of the page has it")
    print(f"{passed} passed, {failed} failed")
    return 1 if failed else 0


if __name__ == "__main__":
    sys.exit(main())
