#!/usr/bin/env python3
"""Counts the definitions that a reader of public calls' contracts needs, down to the ground.

    tests/definitions.py CRATE FUNCTION .. [--list]      as in: tests/definitions.py fv_engine serve open
    tests/definitions.py .. --given=MODULE               what a module's definitions stand on isn't counted: with fv_declare_judging.specs.Declares page one of docs/READING.md

It begins at the names in the calls' clauses and in the views of the crate's types, and follows each definition of the crates' specs/ to the
definitions that it names, through names that are handed on by `pub use`; the libraries of the toolchain
are the ground. It prints how many lines these definitions have, with the comments over them, and in how
many files they stand; with --list first the names in each file, with --print the definitions
themselves, file by file, behind what the file is about and its names of modules.
"""
import os
import re
import sys

ROOT = os.path.join(os.path.dirname(os.path.abspath(__file__)), "..", "crates")
IMPORT = re.compile(r"use Rattle\.([\w.]+?)(?:\.\{([^}]*)\}| as (\w+))")
BEGINS = re.compile(r"^(?:unfoldable |abbrev )?(?:pub )?(?:(record|data|module) )?([^\s:(]+)(?= .*(?::|$)|\s*:)")
MUTUAL = ("mutual", "abbrev mutual")
COMMENT = re.compile(r"--.*$", re.M)
WORD = re.compile(r"[^\s(){}\[\],;.]+(?:\.[^\s(){}\[\],;.]+)*")


def imports_of(text):
    """The names that a text imports: each with its module and its name there; a module by `as`."""
    names = {}
    for module, items, alias in IMPORT.findall(text):
        if alias:
            names[alias] = (module, None)
        for item in filter(None, (part.strip() for part in items.split(","))):
            name, _, local = item.partition(" as ")
            names[(local or name).strip()] = (module, name.strip())
    return names


def definitions_of(path):
    """A file's definitions: the name of each with its lines, comments over it included."""
    found, comments, name = {}, [], None
    with open(path, encoding="utf-8") as file:
        lines = file.read().split("\n")
    mutual = False
    for line in lines[1:]:
        # what stands in a mutual block is two columns further in
        mutual = line in MUTUAL or (mutual and (line.startswith("  ") or not line.strip()))
        if line.startswith("use ") or line.startswith("pub use ") or not line.strip() or line in MUTUAL:
            if not line.strip():
                comments = []
            continue
        line = line.removeprefix("  ") if mutual else line
        if line.startswith("-- "):
            comments.append(line)
            continue
        begins = BEGINS.match(line)
        if begins and not line.startswith(" ") and begins.group(2) not in found and " = " not in line.split(":")[0]:
            name = begins.group(2)
            found[name] = comments + [line]
            comments = []
        elif name:
            found[name] += comments + [line]
            comments = []
    return found


def modules():
    """The modules of specs/ by their names, each with its imports, its definitions, its path and what it hands on."""
    found = {}
    for crate in sorted(os.listdir(ROOT)):
        folder = os.path.join(ROOT, crate, "specs")
        for file in sorted(os.listdir(folder)) if os.path.isdir(folder) else []:
            path = os.path.join(folder, file)
            if file.endswith(".antt") and file != "Lib.antt":
                with open(path, encoding="utf-8") as file:
                    text = file.read()
                handed_on = imports_of("\n".join(line for line in text.split("\n") if line.startswith("pub use ")))
                found[f"{crate}.specs.{path.rsplit('/', 1)[1][:-5]}"] = imports_of(text), definitions_of(path), path, handed_on
    return found


def clauses_of(crate, function):
    """The clauses of a public function of that name, and what its file imports."""
    folder = os.path.join(ROOT, crate, "src")
    for file in sorted(os.listdir(folder)):
        with open(os.path.join(folder, file), encoding="utf-8") as text:
            source = text.read()
        for match in re.finditer(rf"pub fn {function}\b", source):
            head = source[match.start() :].split("\n    {\n")[0].split("\n{\n")[0]
            begin = re.search(r"^\s*(requires|ensures)", head, re.M)
            clauses = head[begin.start() :] if begin else ""
            before = source[: match.start()]
            inner = before[before.rfind("\nimpl") :] if "\nimpl" in before else ""
            return clauses, {**imports_of(before), **imports_of(inner)}
    sys.exit(f"no public function {function} in {crate}")


def views_of(crate):
    """What the crate's types stand for in contracts, and what their files import."""
    folder = os.path.join(ROOT, crate, "src")
    for file in sorted(os.listdir(folder)):
        with open(os.path.join(folder, file), encoding="utf-8") as text:
            source = text.read()
        for view in re.findall(r"ghost view = \{(.*?)\};", source, re.S):
            yield view, imports_of(source), None


def needed(crate, functions, given=()):
    """The definitions that the contracts need: module and name of each. Those of given modules are needed, and not looked into."""
    known = modules()
    seen, waiting = set(), [(*clauses_of(crate, function), None) for function in functions] + list(views_of(crate))
    while waiting:
        text, names, module = waiting.pop()
        own = known[module][1] if module else {}
        for word in WORD.findall(COMMENT.sub("", text)):
            parts = word.split(".")
            for target in (names.get(parts[0]), (module, parts[0]) if parts[0] in own else None):
                if not target:
                    continue
                found = stands_at(known, target[0], target[1] or (parts[1] if len(parts) > 1 else None))
                if found and found not in seen:
                    seen.add(found)
                    place, name = found
                    if place not in given:
                        waiting.append(("\n".join(known[place][1][name]), known[place][0], place))
    return seen, known


def stands_at(known, place, name):
    """The module and the definition in which a name of a module stands."""
    while place in known and name:
        _, definitions, _, handed_on = known[place]
        name_here = name if name in definitions else holder(definitions, name)
        if name_here:
            return place, name_here
        place, name = handed_on.get(name, (None, None))
    return None


def holder(definitions, name):
    """The definition that a constructor or a field stands in."""
    for owner, lines in definitions.items():
        if any(re.match(rf"\s+(pub )?{re.escape(name)} :", line) for line in lines):
            return owner
    return None


def heading_of(path):
    """What stands above a file's definitions: what it is about, and its names of modules."""
    with open(path, encoding="utf-8") as file:
        lines = file.read().split("\n")
    about = lines[: next(at for at, line in enumerate(lines) if not line.startswith("-- "))]
    return [*about, *(line for line in lines if re.fullmatch(r"use Rattle\S+ as \w+", line))]


def main():
    crate, *functions = (word for word in sys.argv[1:] if not word.startswith("--"))
    seen, known = needed(crate, functions, [word.removeprefix("--given=") for word in sys.argv if word.startswith("--given=")])
    names = {}
    for place, name in seen:
        names.setdefault(place, []).append(name)
    lines = {place: sum(len(known[place][1][name]) for name in own) for place, own in names.items()}
    for place, count in sorted(lines.items(), key=lambda it: -it[1]):
        if "--list" in sys.argv:
            print(f"{count:5} {place}: {', '.join(sorted(names[place]))}")
    if "--print" in sys.argv:
        for place in sorted(names):
            print(f"\n{os.path.relpath(known[place][2], os.path.dirname(ROOT))}\n")
            print("\n".join(heading_of(known[place][2])) + "\n")
            for name, text in known[place][1].items():
                if name in names[place]:
                    print("\n".join(text) + "\n")
    print(f"{crate} {', '.join(functions)}: {sum(lines.values())} lines of definitions in {len(lines)} files")


main()
