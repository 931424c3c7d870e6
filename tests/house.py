#!/usr/bin/env python3
"""Measures the crates and refuses what is beyond a limit: their chain, edges, sizes and edits, the proofs that they cite, the names that types share.

    tests/house.py          prints the measures; exit status 1 where one is beyond its limit

It reads crates.txt and crates/, and changes nothing. What the limits are for stands in docs/GATE.md.
"""
import functools
import os
import re
import sys
from collections import Counter, defaultdict

CHAIN, EDGES, LINES, FUNCTIONS, EDITS, CITATIONS, PATHS = 13, 340, 1_500, 100, 30, 140, 12_000
BODY, PARAMETERS = 40, 6

# Functions that take more than PARAMETERS: as many as callers of the library were promised. This list may only shrink.
PROMISED = {"fv_validate validate_value", "fv_walk validate_value", "formd_words run_words"}

# The types whose name two libraries have, and how many have it: this list may only shrink.
SHARED = {"Part": 4, "Draft": 3, "Course": 2, "Failure": 2, "GroupDraft": 2, "Node": 2, "Place": 2, "Spot": 2, "Step": 2, "Use": 2}

FUNCTION = re.compile(r"^\s*(?:pub(?:\([^)]*\))?\s+)?(?:const\s+)?fn\s+\w+", re.M)
TYPE = re.compile(r"^\s*pub(?:\([^)]*\))?\s+(?:struct|enum|trait)\s+(\w+)", re.M)
CITED = re.compile(r"Rattle\.(\w+)\.proofs\.\w+")

ROOT = os.path.join(os.path.dirname(os.path.abspath(__file__)), "..")


def crates():
    """Each crate with those of the repository that it stands on."""
    with open(os.path.join(ROOT, "crates.txt"), encoding="utf-8") as file:
        lines = [line.split("#")[0].partition(":") for line in file if line.split("#")[0].strip()]
    listed = {name.split()[0]: below.split() for name, _, below in lines}
    return {name: [other for other in below if other in listed] for name, below in listed.items()}


def texts(crate, folder, ending):
    """The texts of a crate's files below a folder."""
    for at, _, names in os.walk(os.path.join(ROOT, "crates", crate, folder)):
        for name in names:
            if name.endswith(ending):
                with open(os.path.join(at, name), encoding="utf-8") as file:
                    yield file.read()


def lines_of(crate):
    return sum(text.count("\n") for text in texts(crate, "src", ".rt"))


def functions_of(crate):
    return sum(len(FUNCTION.findall(text)) for text in texts(crate, "src", ".rt"))


def long_functions(crate):
    """The functions of a library whose body has too many lines, or that take too many parameters: each with both numbers."""
    for text in texts(crate, "src", ".rt"):
        for match in FUNCTION.finditer(text):
            name = match.group().split()[-1]
            indent = re.match(r"\n*([ ]*)", match.group())[1]
            begin = text.index("(", match.end())
            begin = begin if "<" not in text[match.end() : begin] else text.index("(", generics_end(text, match.end()))
            parameters, end = count_parameters(text, begin)
            closing = re.compile(rf"^{indent}}}$", re.M).search(text, end)
            opening = re.compile(rf"(?:^{indent}|[^\n ] ){{$", re.M).search(text, end)
            lines = text.count("\n", opening.end(), closing.start()) - 1 if closing and opening and opening.start() < closing.start() else 0
            if (lines > BODY or parameters > PARAMETERS) and f"{crate} {name}" not in PROMISED:
                yield name, lines, parameters


def generics_end(text, at):
    """Where the generic parameters end that begin behind a function's name."""
    depth = 0
    for place in range(at, len(text)):
        depth += {"<": 1, ">": text[place - 1] != "-" and -1}.get(text[place], 0)
        if depth == 0:
            return place


def count_parameters(text, at):
    """How many parameters the parentheses that open there have, and where they close."""
    depth, commas, place = 0, 0, at
    for place in range(at, len(text)):
        depth += {"(": 1, "[": 1, "<": 1, ")": -1, "]": -1, ">": text[place - 1] != "-" and -1}.get(text[place], 0)
        commas += depth == 1 and text[place] == ","
        if depth == 0:
            break
    inside = text[at + 1 : place].strip()
    return commas + bool(inside) - inside.endswith(","), place


def edits_of(crate):
    return sum(1 for _ in texts(crate, "must-fail", ".edit"))


def depths(below):
    """How many crates stand one on another up to each, itself included."""

    @functools.lru_cache(None)
    def depth(crate):
        return 1 + max(map(depth, below[crate]), default=0)

    return {crate: depth(crate) for crate in below}


def most_paths(below):
    """The crate from which most paths of dependences lead down, and how many: the toolchain goes each of them."""

    @functools.lru_cache(None)
    def paths(crate):
        return 1 + sum(map(paths, below[crate]))

    return max((paths(crate), crate) for crate in below)


def citations(below):
    """How often crates cite the proofs of another that has dependences of its own: what is general stands in those without."""
    cited = Counter()
    for crate in below:
        for text in (text for folder in ("src", "specs", "proofs") for ending in (".rt", ".antt") for text in texts(crate, folder, ending)):
            cited.update(other for other in CITED.findall(text) if other != crate and below.get(other))
    return cited


def shared_types(below):
    """The types whose name more than one library has, with these libraries."""
    given = defaultdict(set)
    for crate in below:
        if not crate.startswith("test_"):
            for text in texts(crate, "src", ".rt"):
                for name in TYPE.findall(text):
                    given[name].add(crate)
    return {name: libraries for name, libraries in given.items() if len(libraries) > 1}


def beyond(below):
    """Prints the measures, and gives a line for each that is beyond its limit."""
    depth = depths(below)
    deepest, edits = max(depth.values()), sum(map(edits_of, below))
    paths, top = most_paths(below)
    cited, shared = citations(below), shared_types(below)
    edges = sum(map(len, below.values()))
    print(f"{len(below)} crates in a chain of {deepest}, {edges} edges between them, {paths} paths from {top}")
    print(f"{edits} edits in must-fail/, {cited.total()} citations of another crate's proofs, {len(shared)} names of types in more than one library")
    if deepest > CHAIN:
        yield f"a chain of {deepest} crates, at most {CHAIN}: up to {max(depth, key=depth.get)}"
    if edges > EDGES:
        yield f"{edges} edges between crates, at most {EDGES}"
    for crate in sorted(below):
        if lines_of(crate) > LINES:
            yield f"{crate}: {lines_of(crate)} lines, at most {LINES}"
        if functions_of(crate) > FUNCTIONS:
            yield f"{crate}: {functions_of(crate)} functions, at most {FUNCTIONS}"
        if not crate.startswith("test_"):
            for name, lines, parameters in long_functions(crate):
                yield f"{crate} {name}: {lines} lines and {parameters} parameters, at most {BODY} and {PARAMETERS}"
    if edits > EDITS:
        yield f"{edits} edits in must-fail/, at most {EDITS}"
    if cited.total() > CITATIONS:
        yield f"{cited.total()} citations of another crate's proofs, at most {CITATIONS}: of " + ", ".join(f"{crate} {count}" for crate, count in cited.most_common())
    for name in sorted(shared.keys() | SHARED.keys()):
        libraries = shared.get(name, ())
        if len(libraries) > SHARED.get(name, 1):
            yield f"{name}: a type of {', '.join(sorted(libraries))}, at most {SHARED.get(name, 1)} may have the name"
        elif len(libraries) < SHARED.get(name, 0):
            yield f"{name}: a type of {len(libraries)} libraries, where the list here has {SHARED[name]}: the list may only shrink"
    if paths > PATHS:
        yield f"{paths} paths of dependences from {top}, at most {PATHS}"


def main():
    passed = list(beyond(crates()))
    print("\n".join(passed + [f"house: {len(passed)} beyond a limit"]))
    sys.exit(bool(passed))


if __name__ == "__main__":
    main()
