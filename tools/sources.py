"""Where the functions of a crate stand in its sources, and what those above it read of them."""

import collections
import functools
import os
import re

from rt_module import rt

# Where a function stands in a file: its attributes and comments, its body between the braces, and its end; the name of the
# cycle of calls of several functions that it is in, if it is in one, and whether it is generic over a type.
Span = collections.namedtuple("Span", "start opening closing end cycle generic")

FUNCTION = re.compile(r"^(?P<indent> *)(?:pub(?:\([a-z]+\))? )?(?:const )?fn (?P<name>\w+)(?P<generic><[^(]*)?\(", re.M)
INHERENT = re.compile(r"^impl(?:<[^>]*>)? (?P<type>\w+)(?:<[^>]*>)? \{", re.M)
DECLARED = re.compile(r"^(?:pub(?:\([a-z]+\))? )?(?:struct|enum) (?P<type>\w+)", re.M)
# The written proof of one function.
OF_FUNCTION = re.compile(r"^proofs/.*/(Answers|Invariants)\.antt$")
COMMENT = re.compile(r"^ *//.*\n", re.M)
CYCLE = re.compile(r"^ *#\[cycle\((?P<name>\w+)\)\]\n", re.M)


def text_of(path):
    if not os.path.exists(path):
        return ""
    with open(path, encoding="utf-8") as file:
        return file.read()


def sources_of(folder):
    return [path for path in (os.path.relpath(file, folder) for file in rt.rtlib.files_of(folder)) if re.match(r"src/.*\.rt$", path)]


def module_of(path):
    """The path of the module that a file of src/ is."""
    return "::".join(part for part in path.removeprefix("src/").removesuffix(".rt").split("/") if part not in ("lib", "main", "mod"))


def homes_in(folder):
    """The module of each type that the crate declares under one name alone."""
    homes = collections.defaultdict(set)
    for path in sources_of(folder):
        for found in DECLARED.finditer(text_of(f"{folder}/{path}")):
            homes[found["type"]].add(module_of(path))
    return {name: modules.pop() for name, modules in homes.items() if len(modules) == 1}


def span_of(text, found):
    """Where the function stands whose head is found: from its comments and attributes on, to its closing brace. A function that
    an edit adds is one line without clauses."""
    indent, line = found["indent"], text[found.start() :].split("\n", 1)[0]
    start = re.search(r"(?:^ *(?:///?.*|#\[(?:[^\]\n]|\n(?! *\n))*\])\n)*\Z", text[: found.start()], re.M).start()
    cycle = CYCLE.search(text[start : found.start()])
    generic = found["generic"] is not None and not re.fullmatch(r"<('\w+,? ?)+>", found["generic"])
    how = cycle and cycle["name"], generic
    if line.endswith("}"):
        return Span(start, found.start() + line.index("{") + 1, found.start() + len(line) - 1, found.start() + len(line) + 1, *how)
    opening = re.compile(rf"^{indent}(?:(?! )\S.* )?\{{(?=\}}?$)", re.M).search(text, found.start()).end()
    closing = opening if text[opening] == "}" else text.index(f"\n{indent}}}\n", opening) + 1 + len(indent)
    return Span(start, opening, closing, closing + len("}\n"), *how)


def spans_in(text, module, homes):
    """The functions of a source file that can stand by their contracts alone: no method of a trait."""
    spans = {}
    for found in FUNCTION.finditer(text):
        owner = owner_of(text, found, module, homes)
        if owner is not None:
            spans["::".join(part for part in (*owner, found["name"]) if part)] = span_of(text, found)
    return spans


@functools.cache
def cycles_in(folder):
    """The cycle of each function that is in one with others."""
    homes = homes_in(folder)
    found = (spans_in(text_of(f"{folder}/{path}"), module_of(path), homes) for path in sources_of(folder))
    return {function: span.cycle for spans in found for function, span in spans.items() if span.cycle}


def owner_of(text, found, module, homes):
    """The module of a function, or that of the type whose method it is, and the type; None where it is a trait's method."""
    if not found["indent"]:
        return [module]
    owners = list(INHERENT.finditer(text[: found.start()]))
    if not owners or "\n}" in text[owners[-1].end() : found.start()]:
        return None
    name = owners[-1]["type"]
    return [homes[name], name] if name in homes else None


def statements_in(folder):
    """The crate's files as a crate above it reads them: without comments, without the bodies of functions, which stand there by
    their contracts, and without their written proofs. The lemmas stay whole."""
    homes, said = homes_in(folder), {}
    for file in sorted(rt.rtlib.files_of(folder)):
        path, text = os.path.relpath(file, folder), text_of(file)
        if OF_FUNCTION.search(path):
            continue
        if path.startswith("src/"):
            for span in sorted(spans_in(text, module_of(path), homes).values(), reverse=True):
                text = text[: span.opening] + text[span.closing :]
            text = COMMENT.sub("", text)
        said[path] = text
    return said
