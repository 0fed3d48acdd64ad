#!/usr/bin/env python3
"""Proves a program and the crates below it where they are not proved yet, and builds it: crates/PROGRAM/out/PROGRAM.

    python3 tools/build_program.py [PROGRAM]

The program is wdcheck where none is named.

Proved is a crate whose library or program stands in its out/ beside a mark of the very files, kit and libraries below that it was
made of; what 'rt ci' passed of these on this machine, and kept (as some kits do), is put there first. The others are proved from nothing; what stands
above a library loads its statements alone, and no test is proved. Standard
error says at once about how long it will take, and then by a line for each crate how many functions are done of all. Ends with
status 1 where a crate isn't proved.
"""

import hashlib
import math
import os
import sys
import tempfile
import threading

from gate import sum_once
from rt_module import TOP, rt, sum_of

PROGRAM = sys.argv[1] if len(sys.argv) > 1 else "wdcheck"
# Processor seconds to prove a crate and each function of it: the 43 crates with their 1,649 functions took some 7,000 of them.
SECONDS_A_CRATE, SECONDS_A_FUNCTION = 20, 3.7
FUNCTION = rb"(?m)^ *(?:pub(?:\([a-z]+\))? )?(?:const )?fn \w"


class Made:
    """What stands in the crates' out/ folders, with the marks of what it was made of."""

    def __init__(self):
        with open(f"{rt.rtlib.KIT}/KIT-ID", encoding="utf-8") as file:
            self.kit = file.read()
        self.outputs = {}

    def output(self, crate):
        """The sum of the crate's library or program, and none where it isn't there."""
        if crate.name not in self.outputs:
            path = f"{crate.folder}/out/{crate.name}" if crate.is_program else crate.rlib
            files = [f"{at}/{name}" for at, _, names in os.walk(path) for name in names] if os.path.isdir(path) else [path]
            self.outputs[crate.name] = sum_of(files, crate.folder) if os.path.exists(path) else None
        return self.outputs[crate.name]

    def sources(self, crate):
        """The sum of all that the crate is made of: its files, the kit, the libraries below it by name and content."""
        below = sorted((it.name, self.output(it)) for it in crate.below())
        words = repr((self.kit, sorted(crate.of_kit), below, sum_of(rt.rtlib.files_of(crate.folder), crate.folder)))
        return hashlib.sha256(words.encode()).hexdigest()

    def is_current(self, crate):
        """Whether what stands there was made of the very files, kit and libraries below that stand there too."""
        return rt.rtlib.text_of(f"{crate.folder}/out/built") == f"{self.sources(crate)}\n{self.output(crate)}\n"

    def take_kept(self, crates):
        """Puts what 'rt ci' kept of the very same files, kit and libraries below into the crates' out/; the lowest come first."""
        if not hasattr(rt, "Kept"):
            return
        kept, has_said = rt.Kept(crates), False
        for crate in crates:
            if not all(self.is_current(below) for below in crate.below()):
                continue
            if not self.stands(crate):
                sources = self.sources(crate)
                if not kept.give(crate, False, kept.key(crate)):
                    continue
                self.note(crate, sources)
                if not has_said:
                    print("what 'rt ci' passed here is taken, once its files are compared: up to a minute", file=sys.stderr, flush=True)
                    has_said = True
            kept.is_built(crate)

    def left(self, crates):
        """The crates that are not proved yet, each with those above it; the lowest come first, as they are given."""
        left = []
        for crate in crates:
            if any(below in left for below in crate.below()) or not self.is_current(crate):
                left.append(crate)
        return left

    def stands(self, crate):
        """Whether the crate is proved already; else what stands there is taken away."""
        if self.is_current(crate):
            return True
        for name in ("built", "rlib", crate.name):
            rt.clear(f"{crate.folder}/out/{name}")
        self.outputs.pop(crate.name, None)
        return False

    def note(self, crate, sources):
        """Marks what has just been made of these sources."""
        self.outputs.pop(crate.name, None)
        with open(f"{crate.folder}/out/built", "w", encoding="utf-8") as file:
            file.write(f"{sources}\n{self.output(crate)}\n")


class Progress:
    """How many functions are done of all, on standard error."""

    def __init__(self, crates):
        self.of = {crate.name: crate.count(FUNCTION) for crate in crates}
        self.printing, self.done = threading.Lock(), 0

    def tell(self, crate, word, is_done=True, said=""):
        with self.printing:
            self.done += self.of[crate.name] * is_done
            print(f"{said}{self.done} of {sum(self.of.values())} functions: {crate.name} {word}", file=sys.stderr, flush=True)


def minutes(left, processors):
    """About how many minutes of processors these crates take, and how many by the clock: a crate waits for those below it."""
    seconds, chains = {}, {}
    for crate in left:
        seconds[crate.name] = SECONDS_A_CRATE + SECONDS_A_FUNCTION * crate.count(FUNCTION)
        waits = max((chains.get(below.name, 0) for below in crate.below()), default=0)
        chains[crate.name] = waits + seconds[crate.name]
    used = sum(seconds.values())
    return math.ceil(used / 60), math.ceil(max(used / processors, max(chains.values())) / 60)


def tell_time(left, crates, processors):
    """Says what is to be done, and about how long it takes."""
    of_left, of_all = (sum(crate.count(FUNCTION) for crate in those) for those in (left, crates))
    used, by_clock = minutes(left, processors)
    said = [
        f"{of_left} of {of_all} functions are to be proved: about {used} processor minutes, here some {by_clock} minutes by the clock",
        f"(processors: {processors}), more beside other work. To prove a function is to show that it does what its contract says, on every",
        "input; only then it is built. A line tells of each crate that is done: it stays done if this is stopped and begun again.",
    ]
    print("\n".join(said), file=sys.stderr, flush=True)


def prove(crate, given, jobs, made, progress):
    """Proves a crate where that is not done, and returns whether it is proved."""
    if not all(given[below.name, "proof"] for below in crate.below()):
        return False
    os.makedirs(f"{crate.folder}/out", exist_ok=True)
    if made.stands(crate):
        progress.tell(crate, "is proved already")
        return True
    sources = made.sources(crate)
    with tempfile.TemporaryFile("w+", errors="replace") as crate.out:
        status = crate.ci(["--jobs", str(jobs)], False)
        crate.out.seek(0)
        said = crate.out.read() if status else ""
    # What was changed meanwhile is proved again by the next run.
    if not status and made.sources(crate) == sources:
        made.note(crate, sources)
    progress.tell(crate, "NOT PROVED" if status else "proved", not status, said)
    return not status


def main():
    os.chdir(TOP)
    sum_once()
    rt.Crate.allowed = rt.handles_of(TOP)
    rt.Crate.cuts_libraries = True
    rt.rtlib.Crate = rt.Crate
    program = next((crate for crate in rt.rtlib.crates_below(TOP) if crate.name == PROGRAM and crate.is_program), None)
    if program is None:
        sys.exit(f"there is no program {PROGRAM}")
    crates = [*program.below(), program]
    held = rt.rtlib.lock(crates)
    made, progress = Made(), Progress(crates)
    made.take_kept(crates)
    left = made.left(crates)
    if left:
        tell_time(left, crates, rt.processors())
    tasks = {}
    for crate in crates:
        waits = [(below.name, "proof") for below in crate.below()]
        call = lambda given, jobs, it=crate: prove(it, given, jobs, made, progress)
        tasks[crate.name, "proof"] = waits, crate.count(rb"\n"), rt.need(crate), call
    given = rt.in_lanes(tasks)
    del held
    return 0 if all(given.values()) else 1


if __name__ == "__main__":
    try:
        sys.exit(main())
    except KeyboardInterrupt:
        sys.exit("stopped")
