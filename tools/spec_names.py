#!/usr/bin/env python3
"""The names of all definitions in specs/ and proofs/, with their places, and what is wrong with them.

    tools/spec_names.py [--check]     checks the names of specs/; status 1 where something is wrong, a line for each fault
    tools/spec_names.py --list        lists the name, kind and place of each definition
    tools/spec_names.py --uncited F.. of these lemma files (all of proofs/ where none is given), the lemmas that nobody cites

A fault is a name that stands for two things in specs/, two names there that differ only in case or in underscores, a
definition that no text uses, or an exception that nothing needs. Exceptions stand in tools/spec_names.allowed, one a
line: `NAME: reason`, or for two that look alike `NAME OTHER: reason`.
"""

import re
import sys
from collections import defaultdict
from pathlib import Path

TOP = Path(__file__).resolve().parent.parent
ALLOWED = TOP / "tools" / "spec_names.allowed"

WORD = re.compile(r"[^\s.(){}\[\];,«»\"λ×→@]+")
HEAD = re.compile(r"(?:(?:pub|abbrev|unfoldable)\s+)*(?:(record|data)\s+(\S+)|([^\s:(){}]+)\s*:(?=\s|$))")
IMPORT = re.compile(r"^\s*(?:pub\s+)?(?:ghost\s+)?use\s+Rattle\.([^\s{};]+?)(?:\.\{([^}]*)\}|\s+as\s+(\S+?))?\s*;?\s*$")
PATH = re.compile(r"\b(?:crate|\w+)::(?:proofs|specs)::[^\s,()]+")
# Heads of a line that define nothing.
NO_HEAD = {"use", "mod", "ruleset", "axiom", "open", "module", "syntax", "infix", "infixl", "infixr", "unfolding", "--", "{", "}"}


class Definition:
    def __init__(self, name, kind, module, path, line):
        self.name, self.kind, self.module = name, kind, module
        self.path, self.line = path, line
        self.is_used = False

    def place(self):
        return f"{self.path.relative_to(TOP)}:{self.line}"


class Text:
    """One file: its module, what it imports, and the words of each of its definitions."""

    def __init__(self, path):
        self.path = path
        self.module = module_of(path)
        self.definitions = []
        self.imports = defaultdict(list)  # the module: pairs of the name there and here
        self.aliases = {}  # what a whole module is called here: the module
        self.blocks = [(None, set())]  # the definition in which the words stand
        self.cited = set()  # module and name of what a function's tactics name by a path
        if path.suffix == ".antt":
            self.read_antt()
        else:
            self.read_rust()

    def read_import(self, line):
        match = IMPORT.match(line)
        if match is None:
            return False
        module, names, alias = match.groups()
        if names is None:
            self.aliases[alias or module.split(".")[-1]] = module
            return True
        for item in filter(None, (part.strip() for part in names.split(","))):
            name, _, here = item.partition(" as ")
            self.imports[module].append((name.strip(), (here or name).strip()))
        return True

    def read_antt(self):
        in_module = False
        for number, line in enumerate(self.path.read_text(encoding="utf-8").splitlines(), 1):
            if line.strip() and not line[0].isspace():
                in_module = line.startswith("module ")
            elif in_module and line.startswith("  "):
                line = line[2:]
            line = without_comment(line)
            if not line.strip() or self.read_import(line):
                continue
            if not line[0].isspace():
                self.begin_block(line, number)
            self.blocks[-1][1].update(WORD.findall(line))

    def begin_block(self, line, number):
        words = line.split()
        if words[0] in NO_HEAD or words[:2] == ["pub", "mod"]:
            self.blocks.append((None, set()))
            return
        match = HEAD.match(line)
        if match is None:
            return
        kind = match.group(1) or next((word for word in words if word in ("abbrev", "unfoldable")), "plain")
        name = match.group(2) or match.group(3)
        if match.group(1) is None and any(d.name == name for d in self.definitions):
            return
        definition = Definition(name, kind, self.module, self.path, number)
        self.definitions.append(definition)
        self.blocks.append((definition, set()))

    def read_rust(self):
        for line in self.path.read_text(encoding="utf-8").splitlines():
            if line.lstrip().startswith("//") or self.read_import(line):
                continue
            self.blocks[-1][1].update(WORD.findall(line))
            for path in PATH.findall(line):
                crate, *rest, name = path.split("::")
                crate = self.module.split(".")[0] if crate == "crate" else crate
                self.cited.add((".".join([crate, *rest]), name))

    def words_outside(self, definition):
        return (words for inside, words in self.blocks if inside is not definition)


def without_comment(line):
    return "" if line.startswith("--") else line.split(" -- ")[0]


def module_of(path):
    crate, *rest = path.relative_to(TOP / "crates").with_suffix("").parts
    return ".".join([crate, *rest])


def texts():
    for kind in ("antt", "rt"):
        for path in sorted((TOP / "crates").glob(f"*/**/*.{kind}")):
            if "out" not in path.relative_to(TOP / "crates").parts:
                yield Text(path)


def mark_used(all_texts):
    """A definition is used where its own file has its word elsewhere, or a file that imports it has the word."""
    by_module = defaultdict(dict)
    for text in all_texts:
        for definition in text.definitions:
            by_module[text.module][definition.name] = definition
    for text in all_texts:
        for definition in text.definitions:
            if any(definition.name in words for words in text.words_outside(definition)):
                definition.is_used = True
        every = set().union(*(words for _, words in text.blocks))
        for module, pairs in text.imports.items():
            for name, here in pairs:
                if name in by_module[module] and (here in every or text.path.name == "Lib.antt"):
                    by_module[module][name].is_used = True
        for module, name in text.cited:
            if name in by_module[module]:
                by_module[module][name].is_used = True
        for alias, module in text.aliases.items():
            if alias in every:
                for name, definition in by_module[module].items():
                    definition.is_used = definition.is_used or name in every


def allowed():
    exceptions = {}
    if ALLOWED.exists():
        for line in ALLOWED.read_text(encoding="utf-8").splitlines():
            if line.strip() and not line.startswith("#"):
                names, _, reason = line.partition(":")
                exceptions[tuple(sorted(names.split()))] = reason.strip()
    return exceptions


def faults(specs):
    """Each fault with the names that an exception for it must have."""
    by_name = defaultdict(list)
    for definition in specs:
        by_name[definition.name].append(definition)
    for name, places in sorted(by_name.items()):
        if len(places) > 1:
            yield (name,), f"two meanings: {name}: " + ", ".join(d.place() for d in places)
    alike = defaultdict(set)
    for name in by_name:
        alike[re.sub("[_-]", "", name).lower()].add(name)
    for names in sorted(sorted(names) for names in alike.values() if len(names) > 1):
        yield tuple(names), "alike: " + ", ".join(f"{name} ({by_name[name][0].place()})" for name in names)
    for definition in specs:
        if not definition.is_used:
            yield (definition.name,), f"no text uses it: {definition.name}: {definition.place()}"


def check(specs):
    exceptions = allowed()
    needed = set()
    wrong = 0
    for names, fault in faults(specs):
        needed.add(names)
        if not exceptions.get(names):
            print(fault)
            wrong += 1
    for names in exceptions:
        if names not in needed:
            print(f"an exception that nothing needs: {' '.join(names)}")
            wrong += 1
    print(f"names of specs: {len(specs)} definitions, {wrong} faults")
    return 1 if wrong else 0


def main(arguments):
    all_texts = list(texts())
    mark_used(all_texts)
    if arguments[:1] == ["--uncited"]:
        chosen = {Path(name).resolve() for name in arguments[1:]}
        for text in all_texts:
            if "proofs" in text.path.parts and (text.path in chosen or not chosen):
                for definition in text.definitions:
                    if not definition.is_used and text.path.name not in ("Answers.antt", "Invariants.antt", "Proof.antt"):
                        print(f"{definition.place()}: {definition.name}")
        return 0
    if arguments == ["--list"]:
        for text in all_texts:
            for definition in text.definitions:
                print(f"{definition.name}\t{definition.kind}\t{definition.place()}")
        return 0
    if arguments not in ([], ["--check"]):
        print(__doc__)
        return 2
    return check([d for text in all_texts if text.module.split(".")[1] == "specs" for d in text.definitions])


if __name__ == "__main__":
    sys.exit(main(sys.argv[1:]))
