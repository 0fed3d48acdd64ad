#!/usr/bin/env python3
"""Runs the built program with one request refused: the Nth for memory, the Kth read, the Kth write, each write to standard error.

    python3 tests/refusing.py PROGRAM [--cases PROGRAM] [--jobs N]

The runs are those that tests/cases/cases.json names in the cases each_growth_refused_in_turn, each_read_fails_in_turn and
each_write_fails_in_turn. Before the C library stands tests/refusing/refusing.c, built by the kit's compiler, which refuses what it
is asked for, and tells what it refused and each file that was opened.

Memory: N goes from 1 until a run meets no refusal; a run that meets one ends with its own output, line on standard error and status, or
with no output, `out of memory` and 5. Reads, K likewise: no output, `cannot read PATH` and 5, PATH being that of the file that was opened
last, and files are opened in the order of the words. Writes: a beginning of the run's own output, `cannot write` and 5. Where each write
to standard error fails, output and status are the run's own; where each read and write moves one byte, all is.

With --cases the program of cases answers those of library calls that add to what they are passed by a mutable reference (the subject
`growths`), with each request for memory refused in turn: no refused call may have changed anything.
The last line is 'N passed, M failed'.
"""

import argparse
import concurrent.futures
import itertools
import json
import os
import re
import subprocess
import sys
import tempfile

sys.dont_write_bytecode = True
TOP = os.path.dirname(os.path.dirname(os.path.abspath(__file__)))
sys.path[:0] = [f"{TOP}/tests/cases", f"{TOP}/tools"]
from rt_module import rt  # noqa: E402
from run_cases import command_words, compare, write_files  # noqa: E402

OUT_OF_MEMORY = (5, b"", b"out of memory\n")


def built(folder):
    """The library that refuses, built from its source."""
    made = f"{folder}/refusing.so"
    kit = f"{rt.rtlib.KIT}/toolchain"
    words = ["--target=x86_64-unknown-linux-gnu", f"--sysroot={kit}", "-O1", "-shared", "-fPIC", "-nostdlib", "-fuse-ld=lld"]
    subprocess.run([f"{kit}/bin/clang", *words, "-o", made, f"{TOP}/tests/refusing/refusing.c"], check=True)
    return made


class Run:
    """A case in a folder of its own, to be run over and over."""

    def __init__(self, program, library, folder, case):
        self.program, self.library, self.folder, self.case = program, library, folder, case
        write_files(folder, case)
        self.words = command_words(case)
        self.paths = [it.split("=", 1)[-1] for it in self.words[1:] if not it.startswith("-")]
        self.own, _ = self.result()

    def result(self, **asked):
        """Status, output and the text on standard error of one run, and the letters of what was refused and opened."""
        told, tell = os.pipe()
        words = {"LD_PRELOAD": self.library, "TELL": str(tell), **{name: str(value) for name, value in asked.items()}}
        try:
            done = subprocess.run(
                [self.program, *self.words], cwd=self.folder, stdin=subprocess.DEVNULL, capture_output=True, env=words, pass_fds=[tell],
                timeout=60)
        finally:
            os.close(tell)
            with os.fdopen(told, "rb") as file:
                letters = file.read().decode()
        return (done.returncode, done.stdout, done.stderr), letters

    def is_whole(self):
        """The run's own result is the case's, and each byte by itself makes no other."""
        yield "its own", compare(self.case, *self.own)
        status, out, err = self.result(SHORT=1)[0]
        yield "byte by byte", None if (status, out, err) == self.own else f"{status} {out} {err}"
        status, out, _ = self.result(FAIL_ERRORS=1)[0]
        yield "standard error fails", None if (status, out) == self.own[:2] else f"{status} {out}"

    def after_memory(self, result, letters):
        return result in (self.own, OUT_OF_MEMORY)

    def after_read(self, result, letters):
        path = self.paths[letters.count("o") - 1]
        return result == (5, b"", f"cannot read {path}\n".encode())

    def after_write(self, result, letters):
        status, out, err = result
        return (status, err) == (5, b"cannot write\n") and self.own[1].startswith(out)


def in_turn(pool, run, name, letter, is_lawful):
    """How many runs met their refusal, until one met none, and what was wrong in them."""
    met, step, wrong = 0, 64, []
    for first in itertools.count(1, step):
        numbers = range(first, first + step)
        for number, (result, letters) in zip(numbers, pool.map(lambda it: run.result(**{name: it}), numbers)):
            if letter not in letters:
                if result != run.own:
                    wrong.append(f"{name}={number} was not met, and gave {result}")
                return met, wrong
            met += 1
            if not is_lawful(result, letters):
                wrong.append(f"{name}={number}: {result}")


def refused_calls(pool, library, program):
    """How many library calls were refused, and what was wrong: the program of cases, with each of its requests refused in turn."""
    with open(f"{TOP}/crates/wd_cases_all/stdin", encoding="utf-8") as file:
        lines = file.read().split("\ncases growths\n", 1)[1].split("\ncases ", 1)[0]
    lines = f"cases growths\n{lines}"
    words = re.findall(r"(?m)^(\w+) \d+$", lines)

    def told(number):
        told, tell = os.pipe()
        asked = {"LD_PRELOAD": library, "TELL": str(tell), "REFUSE_MEMORY": str(number)}
        try:
            done = subprocess.run([program], input=lines.encode(), capture_output=True, env=asked, pass_fds=[tell], timeout=60)
        finally:
            os.close(tell)
            with os.fdopen(told, "rb") as file:
                met = file.read() != b""
        return met, done.returncode, re.findall(r"(?m)^(\w+) \d+ => \d+ done, (\d+) refused, (\d+) changed", done.stdout.decode())

    refused, wrong = dict.fromkeys(words, 0), []
    for first in itertools.count(1, 64):
        for number, (met, status, found) in zip(range(first, first + 64), pool.map(told, range(first, first + 64))):
            if status < 0 or any(int(changed) for _, _, changed in found):
                wrong.append(f"REFUSE_MEMORY={number}: {status} {found}")
            for word, times, _ in found:
                refused[word] += int(times)
            if not met:
                wrong += [f"{word} was never refused" for word in words if not refused[word]]
                return sum(refused.values()), wrong


def main():
    parser = argparse.ArgumentParser(description="Runs the built program with one request refused.")
    parser.add_argument("program")
    parser.add_argument("--cases", metavar="PROGRAM", help="the program of cases")
    parser.add_argument("--jobs", type=int, default=os.cpu_count() or 1, help="runs at a time")
    arguments = parser.parse_args()
    program = os.path.abspath(arguments.program)
    with open(f"{TOP}/tests/cases/cases.json", encoding="utf-8") as file:
        cases = {case["name"]: case for case in json.load(file)}
    kinds = [
        ("each_growth_refused_in_turn", "REFUSE_MEMORY", "m", Run.after_memory),
        ("each_read_fails_in_turn", "FAIL_READ", "r", Run.after_read),
        ("each_write_fails_in_turn", "FAIL_WRITE", "w", Run.after_write),
    ]
    passed, failed = 0, 0

    def count(name, complaint):
        nonlocal passed, failed
        passed, failed = passed + (not complaint), failed + bool(complaint)
        if complaint:
            print(f"FAIL {name}: {complaint}", flush=True)

    with tempfile.TemporaryDirectory() as folder, concurrent.futures.ThreadPoolExecutor(arguments.jobs) as pool:
        library, runs = built(folder), {}
        for kind, request, letter, is_lawful in kinds:
            told = 0
            for name in cases[kind]["arguments"]["cases"]:
                if name not in runs:
                    os.mkdir(f"{folder}/{name}")
                    runs[name] = Run(program, library, f"{folder}/{name}", cases[name])
                    for what, complaint in runs[name].is_whole():
                        count(f"{name}, {what}", complaint)
                run = runs[name]
                met, wrong = in_turn(pool, run, request, letter, lambda result, letters: is_lawful(run, result, letters))
                if not met:
                    wrong.append("no request was refused")
                count(f"{name}, {request}", f"{len(wrong)} of {met}; the first: {wrong[0]}" if wrong else None)
                told += met
            print(f"{kind}: {told} runs")
        if arguments.cases:
            refused, wrong = refused_calls(pool, library, os.path.abspath(arguments.cases))
            count("library calls", f"{len(wrong)}; the first: {wrong[0]}" if wrong else None)
            print(f"arguments_after_a_refused_call: {refused} refused calls")
    print(f"{passed} passed, {failed} failed")
    return 1 if failed or not passed else 0


if __name__ == "__main__":
    sys.exit(main())
