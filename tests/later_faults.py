#!/usr/bin/env python3
"""The faults of imports, names and types that folders of sources have: a plain enumeration of docs/LANGUAGE.md, "Imports", "Names" and
"Types", over folders that are made by chance. `later_faults.py SEED COUNT FOLDER` makes so many folders there, and beside each a file
FOLDER.wanted with a line for each fault of the first of these passes that has one, as `FILE:LINE:COLUMN: KIND`, in their order."""
import os
import random
import sys

PACKAGES = ["", "", "a", "a.b", "b", "a.b.c"]
NAMES = ["A", "B", "C", "a", "b", "E"]
FIELDS = ["x", "y", "B", "c"]
SPELLED = ["A", "B", "C", "a", "b", "E", "S", "x", "a.A", "a.b.A", "b.B", "A.B", "B.A", "A.x", "a.b.c.C", ".A", ".a.A", ".a.b.B", ".b.E", "b.c.A", ".a"]


def joined(scope, name):
    return f"{scope}.{name}" if scope else name


class Source:
    """The text of a source, with what it imports, declares and names, each with its place."""

    def __init__(self, dice, name, package, others, names, types):
        self.dice, self.name, self.package, self.names, self.types = dice, name, package, names, types
        self.text, self.imports, self.declared, self.references = "", [], [], []
        self.put('syntax = "proto3";\n')
        for path, is_public in others:
            self.put("import public " if is_public else "import ")
            self.imports.append((path, is_public, self.put(f'"{path}"')))
            self.put(";\n")
        self.package_place = None
        if package:
            self.put("package ")
            self.package_place = self.put(package)
            self.put(";\n")
        for _ in range(dice.randint(0, 3)):
            self.item(package, 0)

    def put(self, text):
        self.text += text
        return len(self.text) - len(text)

    def can_be(self, full):
        """Whether this full name may be declared: where names are to differ, each only once."""
        if self.names is not None:
            if full in self.names:
                return False
            self.names.add(full)
        return True

    def declare(self, scope, name, kind):
        self.declared.append((joined(scope, name), self.put(name), kind))
        if kind in ("message", "enum"):
            self.types.append(joined(scope, name))

    def spelled(self):
        """The name of a type, of which most are the last parts of one that is declared."""
        if not self.types or self.dice.random() < 0.3:
            return self.dice.choice(SPELLED)
        parts = self.dice.choice(self.types).split(".")
        start = self.dice.randint(-1, len(parts) - 1)
        return ".".join(parts[start:]) if start >= 0 else "." + ".".join(parts)

    def name_type(self, scope, is_message):
        spelled = self.spelled()
        self.references.append([scope, spelled, self.put(spelled), is_message, None])

    def item(self, scope, depth):
        name = self.dice.choice(NAMES)
        if not self.can_be(joined(scope, name)):
            return
        kind = self.dice.choice(["message", "message", "message", "enum", "service"] if depth == 0 else ["message", "message", "enum"])
        self.put(f"{kind} ")
        self.declare(scope, name, kind)
        self.put(" {\n")
        {"message": self.message, "enum": self.enum, "service": self.service}[kind](scope, joined(scope, name), depth)
        self.put("}\n")

    def message(self, _, scope, depth):
        for number, name in enumerate(self.dice.sample(FIELDS, self.dice.randint(0, 3)), 1):
            if not self.can_be(joined(scope, name)):
                continue
            is_repeated = self.dice.random() < 0.3
            self.put("repeated " if is_repeated else "")
            self.name_type(scope, False)
            self.put(" ")
            self.declare(scope, name, "field")
            self.put(f" = {number}")
            if is_repeated and self.dice.random() < 0.5:
                self.put(" [")
                self.references[-1][4] = self.put("packed = true")
                self.put("]")
            self.put(";\n")
        if depth < 2 and self.dice.random() < 0.6:
            self.item(scope, depth + 1)

    def enum(self, around, _, depth):
        named = [name for name in self.dice.sample(["Z", "A", "x", "B"], 2) if self.can_be(joined(around, name))]
        if not named:
            self.names.add(joined(around, f"V{len(self.text)}"))
            named = [f"V{len(self.text)}"]
        for number, name in enumerate(named):
            self.declare(around, name, "value")
            self.put(f" = {number};\n")

    def service(self, _, scope, depth):
        for name in self.dice.sample(["R", "A"], self.dice.randint(0, 2)):
            if not self.can_be(joined(scope, name)):
                continue
            self.put("rpc ")
            self.declare(scope, name, "method")
            self.put("(")
            self.name_type(scope, True)
            self.put(") returns (")
            self.name_type(scope, True)
            self.put(");\n")


def prefixes(package):
    parts = package.split(".") if package else []
    return [".".join(parts[:count]) for count in range(1, len(parts) + 1)]


def import_faults(files):
    """An import is missing where no file has its name, and is in a circle where the file that has it reaches the importer."""
    found = {file.name: at for at, file in enumerate(files)}
    reached = [{at} | {found[path] for path, _, _ in file.imports if path in found} for at, file in enumerate(files)]
    for _ in files:
        reached = [set().union(*(reached[b] for b in each)) for each in reached]
    for at, file in enumerate(files):
        for path, _, place in file.imports:
            if path not in found:
                yield at, place, "ImportMissing"
            elif at in reached[found[path]]:
                yield at, place, "ImportCycle"


def occurrences(files):
    for at, file in enumerate(files):
        for prefix in prefixes(file.package):
            yield prefix, at, file.package_place, "package"
        for name, place, kind in file.declared:
            yield name, at, place, kind


def name_faults(files):
    """A name is there twice where another one of its name comes no later, and not both are packages."""
    every = list(occurrences(files))
    for b, (name, at, place, kind) in enumerate(every):
        for a, (other, there, before, what) in enumerate(every):
            if a != b and other == name and (there, before) <= (at, place) and (kind, what) != ("package", "package"):
                yield at, place, "NameTwice"


def seen_by(files, at):
    """A file sees itself, what it imports, and what the files that it sees, but itself, import publicly."""
    found = {file.name: number for number, file in enumerate(files)}
    seen = {at} | {found[path] for path, _, _ in files[at].imports}
    while True:
        more = {found[path] for b in seen - {at} for path, is_public, _ in files[b].imports if is_public} - seen
        if not more:
            return seen
        seen |= more


def kind_of(every, seen, scope, spelled):
    """What a spelled name is in a scope: a message, an enum, or nothing."""

    def visible(name, kinds):
        return any(other == name and kind in kinds and at in seen for other, at, _, kind in every)

    if spelled[0] == ".":
        full = spelled[1:]
    else:
        parts, first = scope.split(".") if scope else [], spelled.split(".")[0]
        for count in range(len(parts), -1, -1):
            around = ".".join(parts[:count])
            kinds = {"message", "enum"} if first == spelled else {"message", "enum", "service", "package"}
            if visible(joined(around, first), kinds):
                full = joined(around, spelled)
                break
        else:
            return None
    return "message" if visible(full, {"message"}) else "enum" if visible(full, {"enum"}) else None


def type_faults(files):
    every = list(occurrences(files))
    for at, file in enumerate(files):
        seen = seen_by(files, at)
        for scope, spelled, place, is_message, packed in file.references:
            kind = kind_of(every, seen, scope, spelled)
            if kind is None:
                yield at, place, "TypeNotFound"
            elif kind == "enum" and is_message:
                yield at, place, "TypeNotMessage"
            elif kind == "message" and packed is not None:
                yield at, packed, "PackedOnMessage"


def made(dice):
    """A few sources, of which by turns imports, names or types are wrong."""
    first_wrong = dice.choice(["imports", "names", "types", "types"])
    names = [f"{folder}{number}.proto" for number, folder in enumerate(dice.sample(["", "z/", "m", "B-", ""], dice.randint(1, 5)))]
    packages = [dice.choice(PACKAGES) for _ in names]
    taken = None if first_wrong != "types" else {prefix for package in packages for prefix in prefixes(package)}
    files, types = [], []
    for number, (name, package) in enumerate(zip(names, packages)):
        among = [*names, "none.proto", "z/none.proto"] if first_wrong == "imports" else names[:number]
        others = dice.sample(among, min(len(among), dice.randint(0, 3)))
        files.append(Source(dice, name, package, [(path, dice.random() < 0.4) for path in others], taken, types))
    return sorted(files, key=lambda file: file.name.encode())


def write(files, folder):
    for file in files:
        path = os.path.join(folder, file.name)
        os.makedirs(os.path.dirname(path), exist_ok=True)
        with open(path, "w") as it:
            it.write(file.text)
    for pass_over in (import_faults, name_faults, type_faults):
        faults = sorted(set(pass_over(files)))
        if faults:
            break
    with open(f"{folder}.wanted", "w") as it:
        for at, place, kind in faults:
            text = files[at].text
            line, start = text.count("\n", 0, place) + 1, text.rfind("\n", 0, place)
            it.write(f"{files[at].name}:{line}:{place - start}: {kind}\n")


dice = random.Random(int(sys.argv[1]))
for number in range(int(sys.argv[2])):
    write(made(dice), os.path.join(sys.argv[3], f"{number:04}"))
