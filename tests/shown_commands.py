#!/usr/bin/env python3
"""Tries the command lines that the documents show, and compares what they print with what stands there.

    python3 tests/shown_commands.py PROGRAM

A shown command is a line '$ COMMAND' of an indented or fenced block of README.md or docs/*.md; the lines under it, up to the next
such line or the end of the block, are what it prints on standard output and standard error. '...' at the end of such a line
stands for the rest of it, and a line '...' for any lines. 'echo $?' gives the status of the command before it. The commands of a
block are run one after another at the top of the repository, with PROGRAM in the place of ./wdcheck. A line that begins with
./wdcheck or wdcheck without '$' is no command, and stands in a document only where nothing is shown of it. The last line is
'N passed, M failed'.
"""

import glob
import os
import re
import shlex
import subprocess
import sys
import textwrap

TOP = os.path.dirname(os.path.dirname(os.path.abspath(__file__)))
# Documents in which at least one command must be shown, so that a changed form of the blocks does not go unnoticed.
SHOWING = {"README.md", "docs/HEADLINE.md", "docs/VERDICTS.md", "docs/REFUSALS.md", "docs/DESIGN.md"}


def blocks(text):
    """The indented and the fenced blocks of a document, each as its lines."""
    block, is_fenced = [], False
    for line in [*text.split("\n"), ""]:
        is_fence = line.startswith("```")
        if is_fence:
            is_fenced = not is_fenced
        elif is_fenced or line.startswith("    "):
            block.append(line)
            continue
        if block:
            yield textwrap.dedent("\n".join(block)).split("\n")
        block = []


def commands(block):
    """The commands of a block, each with the lines that it prints."""
    found = []
    for line in block:
        if line.startswith("$ "):
            found.append((line[2:], []))
        elif found:
            found[-1][1].append(line)
    return found


def pattern_of(lines):
    """The text that is printed, as a pattern."""
    parts = []
    for line in lines:
        if line == "...":
            parts.append(r"(?:[^\n]*\n)*")
        elif line.endswith("..."):
            parts.append(re.escape(line[:-3]) + r"[^\n]*\n")
        else:
            parts.append(re.escape(line) + r"\n")
    return "".join(parts)


def complaint(program, command, lines, status):
    """What is wrong with what a command prints, or None, and its status."""
    if command == "echo $?":
        return (None if lines == [str(status)] else f"the status is {status}"), status
    words = re.sub(r"(?<!\S)\./wdcheck(?!\S)", lambda _: shlex.quote(program), command)
    environment = {**os.environ, "LC_ALL": "C.UTF-8"}
    ran = subprocess.run(["bash", "-c", words], cwd=TOP, env=environment, stdin=subprocess.DEVNULL,
                         stdout=subprocess.PIPE, stderr=subprocess.STDOUT, text=True, errors="replace", timeout=300)
    wrong = None if re.fullmatch(pattern_of(lines), ran.stdout) else f"it prints {ran.stdout[:600]!r}"
    return wrong, ran.returncode


def main():
    program, passed, failed = os.path.abspath(sys.argv[1]), 0, 0
    lost = set(SHOWING)
    for path in [f"{TOP}/README.md", *sorted(glob.glob(f"{TOP}/docs/*.md"))]:
        document = os.path.relpath(path, TOP)
        with open(path, encoding="utf-8") as file:
            text = file.read()
        for block in blocks(text):
            status = None
            for command, lines in commands(block):
                lost.discard(document)
                wrong, status = complaint(program, command, lines, status)
                passed, failed = passed + (not wrong), failed + bool(wrong)
                if wrong:
                    print(f"FAIL {document}: {command}: {wrong}")
    for document in sorted(lost):
        failed += 1
        print(f"FAIL {document}: it shows no command")
    print(f"{passed} passed, {failed} failed")
    return 1 if failed else 0


if __name__ == "__main__":
    sys.exit(main())
