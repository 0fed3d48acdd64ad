#!/usr/bin/env python3
"""Tries the wrong bodies of wrong-bodies/: the prover must refuse each of them, in the function that it changes.

    python3 tools/wrong_bodies.py [--after-gate] [--anew] [--logs FOLDER] [CRATE..]

A file wrong-bodies/CRATE/NAME.edit has the line 'fn: PATH' (the function, as the check names it in its crate) and then
'file: src/..' with pairs of lines 'old: TEXT' and 'new: TEXT'; each TEXT stands in that file exactly once. A further
'file: proofs/..' may put new names into the function's written proof, or change or take out the answer to a goal that the
edit leaves true. A line 'right:' stands first in an edit that changes nothing that a contract says: it must still be
proved. Such edits show that a refusal is no accident of the run.

All edits of a crate are put into one copy of it, and one check of the edited functions alone judges them. A further edit of
one function is made in a twin: a function beside it with the same contract, the edited body, and the same written proof
under its name. Where there is a written proof, a twin without a change stands beside such twins and must be proved: it
shows that the name refuses nothing. The functions that the edited ones call stand there by their contracts: their bodies
and their proofs, which the gate has checked, are left out of the copy (of functions in a cycle of calls all, or none where
one of them is edited).

An edit is refused where the check says of its own function that it 'did not prove' a goal of it, or that the written proof
of a goal of it no longer holds. That a function which it calls isn't proved is no refusal, nor is a written proof that
names what the edit took away. What a run leaves unclear goes into a further run with fewer edits. An edit that changes more
than the body and the written proof of its own function, as a constant or a definition (a file of specs/), stands in a run of
its own, so that no other edit is judged over what it changes; that of a definition is refused where the law that it names is
not proved any more.

That an edit was refused is kept in wrong-bodies/refused.txt, and is taken again where the edit, the crate, what it reads of the
libraries below, the kit and this runner are the same; tools/kept_verdicts.py says more. Each edit is still applied, and a right
one judged, in each run. With --anew all are judged.

With --after-gate the libraries are those that 'rt ci' left in a clean clone; else they are built where they changed.
The last line is 'N passed, M failed'; the one above it says how many edits were judged, and of how many a verdict was kept.
"""

import argparse
import collections
import os
import re
import resource
import shutil
import subprocess
import sys
import tempfile
import time

from kept_verdicts import Kept, basis_of, is_basis, key_of
from rt_module import TOP, rt
from sources import CYCLE, FUNCTION, cycles_in, homes_in, module_of, sources_of, span_of, spans_in, text_of

EDITS = f"{TOP}/wrong-bodies"
# An edit is judged in its own function, or in that function's twin of this number where it is not None.
Edit = collections.namedtuple("Edit", "crate name function right of_definition path cycle twin", defaults=[None, None])
Twin = collections.namedtuple("Twin", "path text proofs")


def read_edit(crate, path):
    """The edit of a file; its cycle is that of calls of several functions in which the edited one is, if there is one."""
    text = text_of(path)
    function = re.search(r"(?m)^fn: (\S+)$", text)
    name = os.path.basename(path).removesuffix(".edit")
    of_definition = re.search(r"(?m)^file: specs/", text) is not None
    cycle = function and cycles_in(f"{TOP}/crates/{crate}").get(function[1])
    return Edit(crate, name, function[1] if function else None, text.startswith("right:"), of_definition, path, cycle)


def judged_name(edit):
    return edit.function if edit.twin is None else f"{edit.function}_twin{edit.twin}"


def write(path, text):
    os.makedirs(os.path.dirname(path), exist_ok=True)
    with open(path, "w", encoding="utf-8") as file:
        file.write(text)


def copy_with(crate, edits, room):
    """Copies the crate into the folder with these edits in it, and returns those that can't be applied, with the reason."""
    for part in rt.rtlib.PARTS:
        if os.path.isdir(f"{crate.folder}/{part}"):
            shutil.copytree(f"{crate.folder}/{part}", f"{room}/{part}")
    bad = {}
    for edit in edits:
        texts, why = rt.read_edit(edit.path, room) if edit.twin is None else ({}, None)
        if why or not edit.function:
            bad[edit] = why or "it names no function"
            continue
        for path, text in texts.items():
            write(f"{room}/{path}", text)
    for edit in edits:
        if edit.twin is not None:
            write_twin(edit, twin_of(crate, edit), room)
    for edit in unchanged_twins(crate, edits):
        write_twin(edit, twin_of(crate, edit), room)
    return bad


def unchanged_twins(crate, edits):
    """A twin without a change for each function that has twins and a written proof."""
    functions = sorted({edit.function for edit in edits if edit.twin is not None})
    return [unchanged_twin(crate, it) for it in functions if os.path.isdir(f"{crate.folder}/{proof_folders(it)[0]}")]


def unchanged_twin(crate, function):
    return Edit(crate.name, "unchanged", function, True, False, None, None, 0)


def twin_of(crate, edit):
    """The edited function under another name, with its written proof; None where the edit can't be told of the function alone."""
    texts, why = rt.read_edit(edit.path, crate.folder) if edit.path else ({}, None)
    folder, _ = proof_folders(edit.function)
    path = source_of(crate, edit.function)
    if why or not path or any(it != path and not it.startswith(f"{folder}/") for it in texts):
        return None
    before = text_of(f"{crate.folder}/{path}")
    after = texts.get(path, before)
    homes = homes_in(crate.folder)
    old, new = (spans_in(text, module_of(path), homes).get(edit.function) for text in (before, after))
    if not new or old.cycle or old.generic or before[: old.opening] != after[: new.opening] or before[old.closing :] != after[new.closing :]:
        return None
    name, twin_name = (it.split("::")[-1] for it in (edit.function, judged_name(edit)))
    if calls_itself(edit.function, after[new.opening : new.closing]):
        # A twin would stand on the function in its own place, which an edit leaves unproved.
        return None
    text = re.sub(rf"\bfn {name}\b", f"fn {twin_name}", after[new.start : new.end], count=1)
    proofs = proofs_of_twin(crate, edit, folder, texts)
    return None if proofs is None else Twin(path, text, proofs)


def calls_itself(function, body):
    """Whether the body of a function, or of a type's method, can call it by name."""
    *_, above, name = ["", *function.split("::")]
    is_method = above[:1].isupper()
    own = rf"\.{name}\(|\b(?:Self|{above})::{name}\(" if is_method else rf"(?<![\w.:]){name}\("
    return re.search(own, body) is not None


def source_of(crate, function):
    """The file of a function that can stand by its contract alone."""
    sources, homes = sources_of(crate.folder), homes_in(crate.folder)
    return next((path for path in sources if function in spans_in(text_of(f"{crate.folder}/{path}"), module_of(path), homes)), None)


def proof_folders(function):
    """Where a function's written proof stands: as that of a function, or of one that calls itself."""
    *above, name = function.split("::")
    return "/".join(["proofs", *above, name]), "/".join(["proofs", *above, f"+{name}"])


def proofs_of_twin(crate, edit, folder, texts):
    """The texts of the function's written proof, which name the twin in its place; None where a lemma names the proof's parts."""
    dotted = edit.function.replace("::", ".")
    own = rf"\bRattle\.{crate.name}\.(proofs|specs\.contracts)\.{re.escape(dotted)}\b(?!-)"
    proofs = {}
    for file in rt.rtlib.files_of(crate.folder):
        path = os.path.relpath(file, crate.folder)
        if not path.startswith("proofs/") or not path.endswith(".antt"):
            continue
        is_own = path.startswith(f"{folder}/")
        text = texts.get(path) or text_of(file)
        if path == f"{folder}/Proof.antt" or not is_own and re.search(own, text):
            return None
        if is_own:
            text = re.sub(own, rf"Rattle.{crate.name}.\1.{judged_name(edit).replace('::', '.')}", text)
            if re.search(rf"\.{re.escape(dotted)}\.|\bfn\.", text):
                return None
            proofs[f"proofs/{judged_name(edit).replace('::', '/')}/{path.removeprefix(f'{folder}/')}"] = text
    return proofs


def write_twin(edit, twin, room):
    """Puts the twin behind its function, whose own text may be another edit's, and its proof beside that of the function."""
    text = text_of(f"{room}/{twin.path}")
    end = spans_in(text, module_of(twin.path), homes_in(room))[edit.function].end
    write(f"{room}/{twin.path}", f"{text[:end]}\n{twin.text}{text[end:]}")
    for path, proof in twin.proofs.items():
        write(f"{room}/{path}", proof)


OPEN_BODY = "loop {}"
OPEN_PROOF = """use Rattle.{crate}.proofs.{module}.Statement.{{statement}}

pub {name}_spec : {{M : Type 1}} → statement M
{name}_spec 𝓤 𝓛 𝓜 𝓡 w = ?
"""


def leave_bodies_out(crate, names, room):
    """Takes the body and the proof of each function that is not judged as open, so that the judged ones stand on its contract.
    Functions that call one another in a cycle are left out together, or all of them stay."""
    homes = homes_in(room)
    spans = {path: spans_in(text_of(f"{room}/{path}"), module_of(path), homes) for path in sources_of(room)}
    stays = {it[function].cycle for it in spans.values() for function in it if function in names} - {None}
    for path, found in spans.items():
        text = text_of(f"{room}/{path}")
        for function, span in reversed(found.items()):
            if function not in names and span.cycle not in stays:
                head = CYCLE.sub("", text[span.start : span.opening])
                text = f"{text[: span.start]}{head} {OPEN_BODY} {text[span.closing :]}"
                leave_proof_out(crate, function, span, stays, room)
        write(f"{room}/{path}", text)


def leave_proof_out(crate, function, span, stays, room):
    """Puts an open proof in the place of the function's own, or of its part in that of its cycle."""
    *above, name = function.split("::")
    folder, of_recursion = proof_folders(function)
    shutil.rmtree(f"{room}/{folder}", ignore_errors=True)
    if name not in stays:
        shutil.rmtree(f"{room}/{of_recursion}", ignore_errors=True)
    if span.cycle:
        shutil.rmtree("/".join([room, "proofs", *above, f"+{span.cycle}"]), ignore_errors=True)
    write(f"{room}/{folder}/Proof.antt", OPEN_PROOF.format(crate=crate.name, module=".".join([*above, name]), name=name))


def check(crate, edits, log):
    """Checks the edited functions in one copy of the crate; returns the lines that are said, and the edits that can't be applied."""
    with tempfile.TemporaryDirectory(prefix="wrong-bodies-") as room:
        copy = f"{room}/{crate.name}"
        os.mkdir(copy)
        bad = copy_with(crate, edits, copy)
        names = {judged_name(edit) for edit in edits if edit not in bad}
        names |= {judged_name(edit) for edit in unchanged_twins(crate, edits)}
        if not names:
            return [], bad
        leave_bodies_out(crate, names, copy)
        words = [rt.rtlib.RATTLE, "check", *crate.words(["--jobs", "1"], keeps=False), "--allow-holes"]
        for name in sorted(names):
            words += ["--only", f"{crate.name}::{name}"]
        said, times = run_without_offers(words, copy, room)
    if log:
        write(f"{log}.log", said)
        write(f"{log}.times", times)
    return said.splitlines(), bad


def run_without_offers(words, folder, room):
    """Runs a check in the folder, and returns what it says and how long its stages took. Once all is judged, a check would
    run the prover again to print what a written proof of each refused function could begin with, which takes up to half of
    its time: the folder of the prover's files is taken away before that."""
    times, files = f"{room}/times", f"{room}/files"
    os.mkdir(files)
    with open(f"{room}/said", "w+", encoding="utf-8", errors="replace") as said:
        ran = subprocess.Popen([*rt.rtlib.guarded(), *words, "--stage-times", times], cwd=folder, stdin=subprocess.DEVNULL,
                               stdout=said, stderr=subprocess.STDOUT, env={**os.environ, "TMPDIR": files})
        while ran.poll() is None:
            if os.path.isdir(files) and "stage guard " in text_of(times):
                os.rename(files, f"{room}/judged")
            time.sleep(0.02)
        said.seek(0)
        return said.read(), text_of(times)


# What a written proof is told where it names something that the edit took away.
LOST_NAME = re.compile(r"has no field|is not in scope|has no `|was not admitted")


def lost_goals(edit, lines):
    """The goals of the edit's function whose written proof no longer holds."""
    module, _, name = judged_name(edit).rpartition("::")
    folder = f"{module.replace('::', '/')}/" if module else ""
    own, cycle = (f"{folder}{name}/", f"{folder}+{name}/"), f"{folder}+"
    goals = []
    for line in lines:
        error = re.match(r"(?:\./)?proofs/(\S+?):\d+:\d+: error: `(\S+?)`: (.*)", line)
        if error and not LOST_NAME.search(error[3]):
            is_own = error[1].startswith(own) or error[1].startswith(cycle) and error[2].startswith(f"{name}-")
            goals += [f"`{error[2]}`"] * is_own
    return sorted(set(goals))


def is_of(edit, goals):
    """Whether one of the goals is the function's own: functions of a cycle share their goals, which begin with the names of
    the functions that they are of. (No twin is of a cycle.)"""
    return not edit.cycle or any(goal.startswith(f"{edit.function.split('::')[-1]}-") for goal in goals)


def verdict(edit, lines):
    """Whether the check refused the edit's own function, and what it said; None where that can't be told."""
    start = f"fn {edit.crate}::{judged_name(edit)}: "
    said = next((line.removeprefix(start) for line in lines if line.startswith(start)), None)
    if said and (said == "no holes" or said.startswith("depends on a hole in")):
        return False, "proved"
    if said and "did not prove" in said:
        named = re.search(r"did not prove (.*?)(; it calls|$)", said)[1]
        return True if is_of(edit, re.findall(r"`([^`]+)`", named)) else None, named
    told = next((line for line in lines if re.match(r"(\./)?(src|specs)/\S+: error|rattle: error", line)), None)
    if edit.of_definition and said and not told:
        return True, next((line for line in lines if re.match(r"(\./)?proofs/\S+: error", line)), said)
    goals = lost_goals(edit, lines)
    if said and goals and not told:
        return True, f"{', '.join(goals)}, by its written proof"
    return None, said or told or (lines[-1] if lines else "nothing was said")


def stands_by_itself(edit, lines):
    """Whether what the check says of the edit's function is that it's proved, or that others are not on which it stands."""
    refused, said = verdict(edit, lines)
    name = judged_name(edit)
    of_others = said.startswith(("not proved; it stands on ", "no proof: it calls ")) and f".{name.replace('::', '.')}." not in said
    has_error = any(re.match(rf"(?:\./)?proofs/{name.replace('::', '/')}/\S*: error", line) for line in lines)
    return refused is False or refused is None and of_others and not has_error


def is_within(text, changed, name):
    """Whether two texts of a file differ only in the body of one function, which has this name."""
    begin = len(os.path.commonprefix([text, changed]))
    after = len(os.path.commonprefix([text[begin:][::-1], changed[begin:][::-1]]))
    heads = list(FUNCTION.finditer(text[:begin]))
    if not heads or heads[-1]["name"] != name:
        return False
    span = span_of(text, heads[-1])
    return span.opening <= begin and len(text) - after <= span.closing


def changes_own_alone(crate, edit):
    """Whether the edit changes nothing but the body of its function and that function's written proof."""
    texts, why = rt.read_edit(edit.path, crate.folder)
    if why or not edit.function:
        return False
    name, folders = edit.function.split("::")[-1], proof_folders(edit.function)
    of_proof = {path for path in texts if path.startswith(tuple(f"{it}/" for it in folders))}
    return all(is_within(text_of(f"{crate.folder}/{it}"), texts[it], name) for it in texts.keys() - of_proof)


def rounds(crate, edits, with_twins=True):
    """The edits in groups. A group has one edit of a function in place, and further ones in its twins; an edit that changes
    more than its own function is a group."""
    groups, apart = [], {edit.path for edit in edits if not changes_own_alone(crate, edit)}
    for edit in edits:
        for group in groups:
            twin = edit._replace(twin=sum(edit.function == it.function for it in group) or None)
            if edit.path in apart or group[0].path in apart:
                continue
            if twin.twin is None or with_twins and twin_of(crate, twin) and twin_of(crate, unchanged_twin(crate, edit.function)):
                group.append(twin)
                break
        else:
            groups.append([edit._replace(twin=None)])
    return groups


def judge(crate, edits, logs, kept):
    """For each edit whether it is as it must be, and whether that was kept; it is said of each what the check said."""
    basis, texts = basis_of(crate), {edit.path: text_of(edit.path) for edit in edits}
    left, judged, verdicts = [], [], []
    for edit in edits:
        takes = is_applied(crate, edit) and not edit.right
        said = kept.taken(full_name(edit), key_of(basis, texts[edit.path])) if takes else None
        if said is None:
            left.append(edit)
        else:
            judged.append((True, True))
            print(f"{full_name(edit)}: refused, as was kept: {edit.function}: {said}", flush=True)
    for edit, refused, said in judge_anew(crate, left, logs):
        judged.append((refused is (not edit.right), False))
        # Of what was changed meanwhile it can't be told what was judged.
        if not edit.right and text_of(edit.path) == texts[edit.path]:
            verdicts.append((full_name(edit), key_of(basis, texts[edit.path]), said if refused else None))
    if verdicts and is_basis(basis, crate):
        kept.note(verdicts)
    return judged


def full_name(edit):
    return f"{edit.crate}/{edit.name}"


def is_applied(crate, edit):
    """Whether the edit names a function, and its old texts stand in the crate's files as they must."""
    return bool(edit.function) and not rt.read_edit(edit.path, crate.folder)[1]


def judge_anew(crate, edits, logs):
    """Each edit with whether the check refused it, None where that can't be told, and with what it said."""
    groups = rounds(crate, edits)
    judged, number = [], 0
    while groups:
        group, number = groups.pop(0), number + 1
        lines, bad = check(crate, group, logs and f"{logs}/{crate.name}.{number}")
        harmed = {it.function for it in unchanged_twins(crate, group) if not stands_by_itself(it, lines)}
        unclear = []
        for edit in group:
            refused, said = (None, bad[edit]) if edit in bad else verdict(edit, lines)
            is_unclear = refused is None or edit.twin is not None and edit.function in harmed
            if is_unclear and len(group) > 1:
                unclear.append(edit)
                continue
            word = {True: "refused", False: "NOT REFUSED" if not edit.right else "proved, as it must be", None: "UNCLEAR"}[refused]
            judged.append((edit, refused, said))
            print(f"{full_name(edit)}: {word}: {edit.function}: {said[:200]}", flush=True)
        alone = [[edit._replace(twin=None)] for edit in unclear]
        groups += rounds(crate, unclear, with_twins=False) if len(unclear) < len(group) else alone
    return judged


def provide_libraries(crates, after_gate):
    """Builds the libraries below these crates, but for those that the gate has just left."""
    below = []
    for crate in crates:
        below += [it for it in crate.below() if it not in below]
    left = [it for it in below if os.path.isdir(it.rlib) and not os.path.exists(f"{it.folder}/out/rlib/stamp")]
    if after_gate and len(left) == len(below):
        return True
    return not any(it.build_rlib(["--jobs", "1"], anew=False) for it in below)


def main():
    parser = argparse.ArgumentParser(description=__doc__.split("\n")[0])
    parser.add_argument("crates", nargs="*", metavar="CRATE")
    parser.add_argument("--after-gate", action="store_true", help="use the libraries that rt ci left")
    parser.add_argument("--anew", action="store_true", help="judge all edits, also those of which a verdict is kept")
    parser.add_argument("--logs", metavar="FOLDER", help="keep there what each check said")
    arguments = parser.parse_args()
    if arguments.logs:
        os.makedirs(arguments.logs, exist_ok=True)
    logs = arguments.logs and os.path.abspath(arguments.logs)
    kept = Kept(arguments.anew)
    os.chdir(TOP)
    known = {crate.name: crate for crate in rt.rtlib.crates_below(TOP)}
    edits = {}
    folders = sorted(it for it in os.listdir(EDITS) if os.path.isdir(f"{EDITS}/{it}"))
    for name in sorted(arguments.crates) or folders:
        files = sorted(os.listdir(f"{EDITS}/{name}"))
        edits[name] = [read_edit(name, f"{EDITS}/{name}/{file}") for file in files]
    lost = [name for name in edits if name not in known or not edits[name]]
    crates = [known[name] for name in edits if name in known]
    if lost or not provide_libraries(crates, arguments.after_gate):
        print(f"no crate or no edit: {', '.join(lost)}" if lost else "a library was not built")
        print("0 passed, 1 failed")
        return 1
    tasks = {}
    for crate in crates:
        size = crate.count(rb"\n") + 30 * len(edits[crate.name])
        tasks[crate.name, "edits"] = [], size, rt.need(crate), lambda _given, _jobs, it=crate: judge(it, edits[it.name], logs, kept)
    judged = [it for each in rt.in_lanes(tasks).values() for it in each]
    if not arguments.crates:
        kept.forget_all_but({full_name(edit) for of_crate in edits.values() for edit in of_crate})
    passed, of_kept = sum(well for well, _ in judged), sum(was_kept for _, was_kept in judged)
    used = resource.getrusage(resource.RUSAGE_CHILDREN)
    print(f"processor seconds: {used.ru_utime + used.ru_stime:.0f}")
    print(f"{len(judged) - of_kept} judged, {of_kept} kept")
    print(f"{passed} passed, {len(judged) - passed} failed")
    return 0 if judged and passed == len(judged) else 1


if __name__ == "__main__":
    sys.exit(main())
