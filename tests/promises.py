#!/usr/bin/env python3
"""Compares what public functions promise at two commits, and prints the lines that differ.

    tests/promises.py OLD NEW [--all]      each a git revision or a folder; as in: tests/promises.py main HEAD

A promise is the head of a function and its clauses; of a type its public and ghost fields, and what it
stands for. What a crate gave out at OLD is looked for among all at NEW, public or not. Crates and
modules are folded away: which of them a name stands in is no promise. Behind that the definitions that
the clauses name are compared, each with the one that the clause names now, and those that they name,
down to the ground. Exit status 1 where a line differs.
"""
import io
import os
import re
import subprocess
import sys
import tarfile
from collections import defaultdict

# Where crates went whose names are gone: the crates in which their functions are looked for first.
WENT = {
    "fv_lines": "fv_engine_lines", "fv_command": "fv_engine_command", "fv_reply": "fv_engine_reply",
    "fv_pending": "fv_engine_pending", "fv_machine": "fv_engine_machine",
    "fv_judging": "fv_engine_pending fv_engine_machine", "fv_words": "formd_words",
    "fv_types": "fv_bundle", "fv_field": "fv_model", "fv_text": "fv_model", "fv_query": "fv_store",
    "fv_occurrence": "fv_constraint_tree", "fv_flatten": "fv_flatten fv_constraint fv_constraint_tree",
    "fv_constraint": "fv_constraint fv_flatten fv_declare_definition", "fv_definition": "fv_declare_definition fv_datum",
    "fv_draft": "fv_declare_draft", "fv_uses": "fv_declare_draft fv_declare_schema fv_declare",
    "fv_grouping": "fv_declare_groups fv_declare_schema", "fv_naming": "fv_declare_judging", "fv_wording": "fv_declare_judging",
    "fv_declare": "fv_declare fv_declare_judging fv_declare_schema", "fv_reach": "fv_local", "fv_property": "fv_walk",
    "fv_request": "fv_local", "fv_spot": "fv_local", "fv_turns": "fv_walk_traces",
    "fv_model_types": "fv_bundle", "fv_groups": "fv_declare_schema", "fv_walk_request": "fv_local", "fv_model_text": "fv_model",
    "fv_engine_judging": "fv_engine_pending", "fv_explain_places": "fv_explain_faults", "fv_tables": "fv_store_tables", "fv_upgrade": "fv_store_upgrade",
}
# Types that have another name now.
RENAMED = {("fv_flatten", "Place"): "Target", ("fv_draft", "Cascade"): "CascadeDraft"}

STRING = r'b?r(?P<hashes>#*)".*?"(?P=hashes)|b?"(?:\\.|[^"\\])*"|b?\'(?:\\.[^\']*|[^\'\\])\''
HIDDEN = re.compile(rf"(?P<comment>//[^\n]*|/\*.*?\*/)|{STRING}", re.S)
ITEM = re.compile(r"(?:(pub(?:\([^)]*\))?)\s+)?(?:(?:const|unsafe|extern)\s+)*\b(fn|struct|enum|trait|impl|ghost|use|mod|const|static|type)\b")
CLAUSE = re.compile(r"\b(requires|ensures)(?:\s+(\w+))?\s*$")
IMPORT = re.compile(r"use Rattle\.([\w.]+?)(?:\.\{([^}]*)\}| as (\w+));?$", re.M)
WORD = re.compile(r"[^\s(){}\[\],;.]+(?:\.[^\s(){}\[\],;.]+)*")
BEGINS = re.compile(r"\s*(?:unfoldable |abbrev )?(?:pub )?(?:(?:record|data) )?([^\s:(]+)(?= .*(?::|$)|\s*:)")


def sources(place):
    """The files of the crates at a place, a revision or a folder: texts by their paths."""
    found = {}
    if os.path.isdir(place):
        for at, _, names in os.walk(os.path.join(place, "crates")):
            for name in names:
                path = os.path.join(at, name)
                if re.search(r"crates/\w+/(src/.*\.rt|specs/\w+\.antt)$", path):
                    with open(path, encoding="utf-8") as file:
                        found[path[path.rindex("crates/") :]] = file.read()
        return found
    packed = subprocess.run(["git", "archive", place, "crates"], check=True, capture_output=True).stdout
    with tarfile.open(fileobj=io.BytesIO(packed)) as files:
        for file in files:
            if re.search(r"crates/\w+/(src/.*\.rt|specs/\w+\.antt)$", file.name):
                found[file.name] = files.extractfile(file).read().decode()
    return found


def end_of(plain, at):
    """The place behind the bracket that closes the one at a place."""
    depth = 0
    for at in range(at, len(plain)):
        depth += (plain[at] in "([{") - (plain[at] in ")]}")
        if not depth:
            return at + 1
    return len(plain)


class Item:
    """A function or a type: where it is, how it is named, and its promise as lines of (kind, text)."""

    def __init__(self, crate, path, owner, name, public):
        self.crate, self.path, self.owner, self.name, self.public = crate, path, owner, name, public
        self.lines, self.names, self.given = [], {}, False

    def __str__(self):
        return f"{self.crate} {self.owner + '::' if self.owner else ''}{self.name}"


class Crates:
    """All crates at a place: their functions and types, what they give out, their definitions."""

    def __init__(self, place):
        self.files = sources(place)
        self.own = {path.split("/")[1] for path in self.files}
        self.items, self.definitions, self.imports = [], {}, {}
        self.out = defaultdict(set)
        for path, text in sorted(self.files.items()):
            crate = path.split("/")[1]
            if path.endswith(".antt"):
                self.read_definitions(f"{crate}.specs.{path.split('/')[-1][:-5]}", text)
            else:
                text = HIDDEN.sub(lambda m: re.sub(r"[^\n]", " ", m[0]) if m["comment"] else m[0], text)
                plain = HIDDEN.sub(lambda m: re.sub(r"[^\n]", " ", m[0]), text)
                self.read_items(crate, path, text, plain, 0, len(plain), "", imports_of(text))
                if path.endswith("src/lib.rt"):
                    for names in re.findall(r"pub use (?!fv_)\w+(?:::\w+)*::(\{[^}]*\}|\w+);", text):
                        self.out[crate].update(re.findall(r"\w+", names))
        for item in self.items:
            item.given = item.public and (item.owner.split(" ")[0] or item.name) in self.out[item.crate]

    def read_items(self, crate, path, text, plain, at, end, owner, names):
        """The items between two places; `owner` is the type or trait around them."""
        while found := ITEM.search(plain, at, end):
            word, at = found[2], found.end()
            if word in ("use", "mod", "const", "static", "type"):
                at = self.semicolon(plain, at, end)
            elif word == "ghost":
                stop = self.semicolon(plain, at, end)
                held = text[at:stop].strip()
                if owner and not held.startswith("use "):
                    self.add_line(crate, path, owner, "ghost", held, names)
                at = stop
            elif word in ("impl", "trait"):
                body = plain.index("{", at)
                head, stop = text[at:body], end_of(plain, body)
                inner = owner_of(head) if word == "impl" else re.match(r"\s*(\w+)", head)[1]
                self.read_items(crate, path, text, plain, body + 1, stop - 1, inner, {**names, **imports_of(text[body:stop])})
                at = stop
            elif word in ("struct", "enum"):
                name = re.match(r"\s*(\w+)", plain[at:])[1]
                stop = re.compile(r"[;{(]").search(plain, at).start()
                stop = end_of(plain, stop) if plain[stop] != ";" else stop
                item = self.item(crate, path, "", name, bool(found[1]), names)
                for part in parts_of(text, plain, at, stop, word):
                    item.lines.append((word, part))
                at = stop
            else:
                at = self.read_function(crate, path, text, plain, found, owner, names)

    def semicolon(self, plain, at, end):
        """The place behind the next semicolon that stands in no brackets."""
        while at < end and plain[at] != ";":
            at = end_of(plain, at) if plain[at] in "([{" else at + 1
        return at + 1

    def read_function(self, crate, path, text, plain, found, owner, names):
        """A function's head and clauses; gives the place behind it."""
        name, begin, at = re.match(r"\s*(\w+)", plain[found.end() :])[1], found.start(2), found.end()
        public = found[1] == "pub" or " " in owner or self.is_trait(plain, owner)
        item, first = self.item(crate, path, owner, name, public, names), None
        while plain[at] not in ";":
            if plain[at] in "([":
                at = end_of(plain, at)
            elif plain[at] == "{":
                clause = CLAUSE.search(plain, begin, at)
                stop = end_of(plain, at)
                first = first or (clause.start() if clause else at)
                if not clause:
                    at = stop - 1
                    break
                item.lines.append((f"{clause[1]} {clause[2] or ''}".strip(), text[at + 1 : stop - 1]))
                at = stop
            else:
                at += 1
        item.lines.insert(0, ("fn", text[begin : first or at]))
        return at + 1

    def is_trait(self, plain, owner):
        return bool(owner) and re.search(rf"\btrait {owner}\b", plain) is not None

    def item(self, crate, path, owner, name, public, names):
        item = Item(crate, path, owner, name, public)
        item.names = names
        self.items.append(item)
        return item

    def add_line(self, crate, path, owner, kind, text, names):
        """Something ghost that a type or a trait says, as an item of its own."""
        name = re.match(r"\w+", text)[0]
        item = self.item(crate, path, owner, f"ghost {name}", True, names)
        item.lines.append((kind, text))

    def read_definitions(self, module, text):
        """The definitions of a module by their names, and what it imports."""
        self.imports[module] = imports_of(text)
        name, mutual = None, False
        for line in text.split("\n"):
            line = re.sub(r"(^|\s)--( .*|$)", "", line)
            if re.match(r"(\w+ )?mutual", line):
                mutual = True
            if not line.strip() or re.match(r"(pub )?use |(\w+ )?mutual", line):
                continue
            mutual = mutual and line.startswith(" ")
            inside = line.startswith("   " if mutual else " ")
            begins = None if inside else BEGINS.match(line)
            if begins and (module, begins[1]) not in self.definitions and " = " not in line.split(" : ")[0]:
                name = begins[1]
                self.definitions[module, name] = ""
            if name:
                self.definitions[module, name] += line + "\n"

    def resolve(self, word, names, module=None):
        """The definition that a word names: its module and its name, where it is one of these crates."""
        parts = word.split(".")
        if parts[0] in names:
            place, name = names[parts[0]]
            name = name or (parts[1] if len(parts) > 1 else None)
        else:
            place, name = module, parts[0]
        for _ in range(4):
            if (place, name) in self.definitions:
                return place, name
            if place not in self.imports or name not in self.imports[place]:
                return None
            place, name = self.imports[place][name][0], self.imports[place][name][1] or name
        return None

    def folded(self, text, names):
        """A text without crates and modules, its words by their own names."""
        text = re.sub(rf"\b(?:crate|{'|'.join(self.own)})::(?:[a-z]\w*::)*", "", text)

        def fold(found):
            first, *rest = found[0].split(".")
            module, name = names.get(first, ("", None))
            if module.split(".")[0] in self.own and (name or rest):
                return ".".join(([name] if name else []) + rest)
            return found[0]

        text = re.sub(r"\s+", " ", WORD.sub(fold, text)).strip()
        return re.sub(r",? ?([)\]}>])", r"\1", re.sub(r"([(\[{<]) ", r"\1", text))


def imports_of(text):
    """The names that a text imports: each with its module and its name there; a module by `as`."""
    names = {}
    for module, listed, alias in IMPORT.findall(text):
        if alias:
            names[alias] = (module, None)
        for part in filter(None, (part.strip() for part in listed.split(","))):
            name, _, local = part.partition(" as ")
            names[(local or name).strip()] = (module, name.strip())
    return names


def owner_of(head):
    """The type of an `impl`, with the trait behind it if there is one."""
    head = head.strip()
    if head.startswith("<"):
        depth = 0
        for at, letter in enumerate(head):
            depth += (letter == "<") - (letter == ">" and head[at - 1] != "-")
            if not depth:
                head = head[at + 1 :].strip()
                break
    trait, _, of = head.partition(" for ")
    name = re.match(r"&?(?:'\w+ )?(?:\w+::)*(\w+)", of or trait)
    return (name[1] if name else head) + (f" as {' '.join(trait.split())}" if of else "")


def parts_of(text, plain, at, stop, word):
    """The public and the ghost fields of a struct, the variants of an enum."""
    body = re.compile(r"[;{(]").search(plain, at).start()
    parts, begin, here = [], body + 1, body + 1
    while here < stop:
        here = end_of(plain, here) if plain[here] in "([{" else here
        if here >= stop - 1 or plain[here] == ",":
            parts.append(text[begin : min(here, stop - 1)])
            begin = here + 1
        here += 1
    parts = [" ".join(re.sub(r"#\[[^\]]*\]", "", part).split()) for part in parts]
    return [part for part in parts if part and (word == "enum" or part.startswith(("pub ", "ghost ")))]


def promise(crates, item):
    """The lines of an item's promise, folded."""
    return [f"{kind} {crates.folded(text, item.names)}" for kind, text in item.lines]


def counterpart(old, new, item):
    """The item at NEW that an item at OLD is now: by its name, in the crate where its crate went if it is there."""
    owner = RENAMED.get((item.crate, item.owner), item.owner)
    name = RENAMED.get((item.crate, item.name), item.name) if not item.owner else item.name
    alike = [it for it in new.by_name[owner, name] if ("fn" in dict(it.lines)) == ("fn" in dict(item.lines))]
    wanted = promise(old, item)
    went = WENT.get(item.crate, item.crate).split()
    alike.sort(key=lambda it: (it.crate not in went, len(set(wanted) ^ set(promise(new, it)))))
    return alike[0] if alike else None


def cited(old, new, one, other, pairs):
    """Adds the pairs of definitions that two texts name: word by word, or by name where words are more or fewer."""
    (text, names, module), (then, those, there) = one, other
    before = [old.resolve(word, names, module) for word in WORD.findall(text)]
    after = [new.resolve(word, those, there) for word in WORD.findall(then)]
    if len(before) != len(after):
        by_name = {found[1]: found for found in after if found}
        after = [found and by_name.get(found[1]) for found in before]
    pairs.update((pair, None) for pair in zip(before, after) if pair[0] and pair[1] and pair not in pairs)


def numbered(item):
    """The lines of a promise by their kinds, those of one kind by their order."""
    seen, found = defaultdict(int), {}
    for kind, text in item.lines:
        found[kind, seen[kind]] = (text, item.names, None)
        seen[kind] += 1
    return found


def main():
    places = [word for word in sys.argv[1:] if not word.startswith("--")]
    old, new = map(Crates, places)
    new.by_name = defaultdict(list)
    for item in new.items:
        new.by_name[item.owner, item.name].append(item)
    differing, pairs, met, same = 0, {}, set(), 0
    for item in (it for it in old.items if it.given):
        now = counterpart(old, new, item)
        if not now:
            differing += 1
            print(f"{item}: not there any more")
            continue
        met.add(id(now))
        before, after = promise(old, item), promise(new, now)
        lines = numbered(now)
        for key, line in numbered(item).items():
            if key in lines:
                cited(old, new, line, lines[key], pairs)
        lines = [f"  - {line}" for line in before if line not in after] + [f"  + {line}" for line in after if line not in before]
        notes = [] if now.given else ["not given out any more"]
        if lines or notes or "--all" in sys.argv:
            differing += bool(lines)
            print("\n".join([f"{item}, now {now}{': ' if notes else ''}{', '.join(notes)}"] + lines))
        same += not lines
    for item in new.items:
        if item.given and id(item) not in met:
            print(f"{item}: new, or given out only now")
            print("\n".join(f"  + {line}" for line in promise(new, item)))
    differing += compare_definitions(old, new, pairs)
    print(f"{same} promises are the same; {differing} promises and definitions differ")
    sys.exit(differing > 0)


def compare_definitions(old, new, pairs):
    """Compares the definitions of the pairs, and those that they name; gives how many differ."""
    differing, waiting = 0, list(pairs)
    while waiting:
        before, after = waiting.pop()
        one, other = old.definitions[before], new.definitions[after]
        names, those = old.imports[before[0]], new.imports[after[0]]
        if old.folded(one, names) != new.folded(other, those):
            differing += 1
            print(f"{'.'.join(before)}, now {'.'.join(after)}")
            print(f"  - {old.folded(one, names)}\n  + {new.folded(other, those)}")
        more = {}
        cited(old, new, (one, names, before[0]), (other, those, after[0]), more)
        for pair in more:
            if pair not in pairs:
                pairs[pair] = None
                waiting.append(pair)
    print(f"{len(pairs)} definitions compared")
    return differing


main()
