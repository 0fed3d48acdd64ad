#!/usr/bin/env python3
"""Shows the place in a file that a refusal names.

    tools/place.py 'query: refused 201 at 4' query.sql
    ./wdcheck check schema.sql query.sql 2>&1 | tools/place.py query.sql

Prints FILE:LINE:COLUMN, both from 1, then the line, and under it a caret for each character that is meant. Of 101 to 105 the
place counts bytes, of 201, 202 and 309 tokens, of 702 to 704 the records of a CSV text, and of 505 to 510 the nodes of a plan,
for which the entry of a certificate is printed. docs/REFUSALS.md has the numbers. Ends with status 1 where there is nothing to
show: no refusal's line, a refusal that names no place, or a place that the file doesn't have.
"""

import json
import re
import sys

REFUSAL = re.compile(r"^(schema|query|certificate|witness|data .*|run): refused (\d+)(?: at (\d+))?$", re.M)
BYTES, TOKENS, RECORDS, NODES = range(101, 106), (201, 202, 309), (702, 703, 704), range(505, 511)
MARK = b"\xef\xbb\xbf"
# A piece of a text, as crates/wd_lex/specs/Pieces.antt has it; of a block comment only its beginning.
PIECE = re.compile(
    rb"(?P<blanks>[ \t\n\f\r]+|--[^\n\r]*)|(?P<comment>/\*)|[A-Za-z_][A-Za-z0-9_$]*|[0-9]+"
    rb"|\"(?:[^\"]|\"\")+\"|'(?:[^']|'')*'|<>|!=|<=|>=|[(),.;*+\-/%=<>]"
)
COMMENT_PART = re.compile(rb"/\*|\*/|.", re.S)


def comment_end(text, at):
    """Where the block comment that begins at this byte ends."""
    depth = 0
    for part in COMMENT_PART.finditer(text, at):
        depth += (part[0] == b"/*") - (part[0] == b"*/")
        if not depth:
            return part.end()
    return len(text)


def tokens(text):
    """The spans of the tokens of a text, up to the first character with which none begins."""
    at, spans = len(MARK) if text.startswith(MARK) else 0, []
    while at < len(text):
        piece = PIECE.match(text, at)
        if not piece:
            break
        end = comment_end(text, at) if piece["comment"] else piece.end()
        if not piece["comment"] and not piece["blanks"]:
            spans.append((at, end))
        at = end
    return spans


def record_end(text, at):
    """Where the record that begins at this byte ends: at the end of its line, but for lines within quotes."""
    is_start, is_quoted = True, False
    while at < len(text):
        byte = text[at : at + 1]
        if is_quoted:
            if text[at : at + 2] == b'""':
                at += 1
            elif byte == b'"':
                is_quoted = False
        elif byte in (b"\n", b"\r"):
            break
        else:
            is_quoted = is_start and byte == b'"'
            is_start = byte == b","
        at += 1
    return at


def records(text):
    """The spans of the records of a CSV text, the header first; an empty line is none."""
    at, spans = len(MARK) if text.startswith(MARK) else 0, []
    while at < len(text):
        end = record_end(text, at)
        if end > at:
            spans.append((at, end))
        at = max(end, at + 1)
    return spans


def span_of(text, number, place):
    """The bytes that are meant, or None where the text hasn't such a place."""
    if number in BYTES:
        return (place, place + 1) if place < len(text) else None
    spans = tokens(text) if number in TOKENS else records(text)
    if place < len(spans):
        return spans[place]
    # The number of tokens is the place after the last one.
    end = spans[-1][1] if spans else 0
    return (end, end + 1) if place == len(spans) and number in TOKENS else None


def shown(path, text, span):
    """The place, the line and the carets."""
    start, end = span
    first = max(text.rfind(b"\n", 0, start), text.rfind(b"\r", 0, start)) + 1
    last = min([at for at in (text.find(b"\n", start), text.find(b"\r", start)) if at >= 0], default=len(text))
    line = len(re.findall(rb"\r\n|\n|\r", text[:first])) + 1
    before, meant = text[first:start].decode(errors="replace").removeprefix("\ufeff"), text[start : min(end, last)].decode(errors="replace")
    whole = text[first:last].decode(errors="replace").removeprefix("\ufeff")
    carets = re.sub(r"[^\t]", " ", before) + "^" * max(1, len(meant))
    return f"{path}:{line}:{len(before) + 1}\n{whole}\n{carets}"


def entry(path, text, place):
    """The entry of a certificate for a node of the plan."""
    try:
        nodes = json.loads(text)["nodes"]
        return f'{path}: node {place}, as explain counts them: {json.dumps(nodes[place], separators=(",", ":"))}'
    except (ValueError, KeyError, TypeError, IndexError):
        return None


def told(line, path, text):
    """What is printed for a refusal's line and a file's bytes, and the exit status."""
    refusal = REFUSAL.search(line)
    if not refusal:
        return f"no line of a refusal: {line.strip()[:200]}", 1
    number = int(refusal[2])
    if refusal[3] is None:
        return f"{refusal[0]}: this refusal names no place; docs/REFUSALS.md says what it means", 1
    place = int(refusal[3])
    if number in NODES:
        found = entry(path, text, place)
    elif number in (*BYTES, *TOKENS, *RECORDS):
        span = span_of(text, number, place)
        found = span and shown(path, text, span)
    else:
        found = None
    return (found, 0) if found else (f"{path} has no place {place} of {number}: is it the file that the line is about?", 1)


def main(words):
    if len(words) not in (1, 2):
        print(__doc__.strip(), file=sys.stderr)
        return 1
    line = words[0] if len(words) == 2 else sys.stdin.read()
    try:
        with open(words[-1], "rb") as file:
            text = file.read()
    except OSError as error:
        print(f"cannot read {words[-1]}: {error.strerror}", file=sys.stderr)
        return 1
    found, status = told(line, words[-1], text)
    print(found, file=sys.stderr if status else sys.stdout)
    return status


if __name__ == "__main__":
    sys.exit(main(sys.argv[1:]))
