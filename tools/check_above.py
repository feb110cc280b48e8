#!/usr/bin/env python3
"""check_above.py CRATE [--stated] [--alone FUNCTION,..] [--whole STEM,..] [other flags of rattle check]

Checks one crate over the contracts of the crates below it, none of which has to be proved first: in a copy, their functions have no
bodies and their proofs of functions are left out, and definitions and laws stay.

--stated   of the crates below, lemmas are read as statements alone, so a large crate is loaded in a minute
--alone    only these functions of the crate keep their bodies and answers, each other one has its contract, and of the crate's own lemma
           files those that --whole names are read whole, all others as statements: a dozen functions take a few minutes

With --stated or --alone the statements are holes, so --allow-holes goes with them; what counts are the goals and errors of the functions
and lemma files that are read whole; without that flag what cites a statement is left unchecked. Goals that a function leaves to `search` are not
tried while a function that it calls has no proof, so this says nothing of them. It helps whoever changes a crate high in the picture on a machine where nothing is proved yet. It is
no verdict: only `rt ci` is.
"""
import argparse
import re
import shutil
import subprocess
import sys
import tempfile
from pathlib import Path

TOP = Path(__file__).resolve().parent.parent
FUNCTION = re.compile(r"\s*(pub(\([a-z]+\))? )?(const )?(unsafe )?fn (\w+)")
SIGNATURE = re.compile(r"\s*(pub )?([A-Za-z_«][\w\-'»«]*) : ")
PROOFS_OF_FUNCTIONS = {"Answers.antt", "Invariants.antt", "Proof.antt"}


def crates_listed(top=TOP):
    """The repository's crates by name, each with what it stands on."""
    listed = {}
    for line in (top / "crates.txt").read_text().splitlines():
        head, colon, below = line.split("#")[0].partition(":")
        if colon:
            listed[head.split()[0]] = below.split()
    return listed


def crates_below(crate, listed, found):
    """All the repository's crates that this one stands on, lowest first."""
    for name in listed[crate]:
        if name in listed and name not in found:
            crates_below(name, listed, found)
            found.append(name)
    return found


def indent_of(line):
    return line[: len(line) - len(line.lstrip())]


def body_begins(lines, at):
    """The line on which the body of the function at this line opens, if it has one that the next lines hold."""
    for place in range(at, len(lines)):
        line = lines[place].strip()
        if line.endswith((";", "{}")):
            return None
        if indent_of(lines[place]) == indent_of(lines[at]) and line.endswith("{"):
            return place
    return None


def without_bodies(text, kept_functions=()):
    """The text of a source file whose functions have no bodies, but for those of these names."""
    lines, kept, at = text.split("\n"), [], 0
    while at < len(lines):
        found = FUNCTION.match(lines[at])
        if not found:
            if kept_functions or not re.match(r"\s*#\[(cycle|tactic)\b", lines[at]):
                kept.append(lines[at])
            at += 1
            continue
        opens = body_begins(lines, at)
        if opens is None or found.group(5) in kept_functions:
            kept.append(lines[at])
            at += 1
            continue
        indent = indent_of(lines[at])
        closes = lines.index(indent + "}", opens)
        kept += lines[at : opens + 1] + [indent + "    unreachable!()", indent + "}"]
        at = closes + 1
    return "\n".join(kept)


def leave_out_bodies(folder, kept_functions=()):
    for source in folder.glob("src/**/*.rt"):
        source.write_text(without_bodies(source.read_text(), kept_functions))
    for proof in folder.glob("proofs/**/*.antt"):
        if proof.name in PROOFS_OF_FUNCTIONS and proof.parent != folder / "proofs" and proof.parent.name not in kept_functions:
            proof.unlink()


def block_ends(lines, at, indent):
    """The first line from here on that is no deeper than this, blank lines aside."""
    while at < len(lines) and (not lines[at].strip() or len(indent_of(lines[at])) > indent):
        at += 1
    return at


def clauses_end(lines, at, indent, name):
    """The line behind the clauses of this lemma, and whether it has any."""
    clause, any_found = re.compile(re.escape(name) + r"(?!\s*:)(\s|$)"), False
    while at < len(lines):
        line = lines[at]
        depth = len(indent_of(line))
        closes = any_found and depth == indent and line.strip()[:1] in ("}", ")", "]")
        begins = depth == indent and clause.match(line.strip()) is not None
        if not line.strip():
            following = block_ends(lines, at, 10**6)
            if not any_found or following == len(lines) or len(indent_of(lines[following])) <= indent:
                break
        elif not (closes or begins or (any_found and depth > indent)):
            break
        any_found = any_found or begins
        at += 1
    return at, any_found


def statements(text):
    """The text of a lemma file whose lemmas are stated and not shown; definitions stay."""
    lines, kept, at = [re.sub(r"^\s*--.*$", "", line) for line in text.split("\n")], [], 0
    while at < len(lines):
        found = SIGNATURE.match(lines[at])
        kept.append(lines[at])
        indent = len(indent_of(lines[at]))
        at += 1
        if not found:
            continue
        while at < len(lines) and lines[at].strip() and len(indent_of(lines[at])) > indent:
            kept.append(lines[at])
            at += 1
        at, any_found = clauses_end(lines, at, indent, found.group(2))
        if any_found:
            kept += [" " * indent + found.group(2) + " = ?", ""]
    return "\n".join(kept)


def state_lemmas(folder, whole=()):
    for proof in folder.glob("proofs/*.antt"):
        if proof.stem != "Lib" and proof.stem not in whole:
            proof.write_text(statements(proof.read_text()))


def functions_of(folder, names):
    """The crate's own functions of these names, as --only names them."""
    where = {}
    for source in folder.glob("src/**/*.rt"):
        for found in re.finditer(r"^pub(?:\([a-z]+\))? (?:struct|enum) (\w+)", source.read_text(), re.M):
            where[found.group(1)] = source.stem
    paths = []
    for source in sorted(folder.glob("src/**/*.rt")):
        kind = None
        for line in source.read_text().split("\n"):
            begins = re.match(r"impl(?:<.*?>)? (\w+)(?:<.*>)? \{", line)
            kind = begins.group(1) if begins else None if line == "}" else kind
            found = FUNCTION.match(line)
            if found and found.group(5) in names:
                of = kind if indent_of(line) else None
                module = where.get(of, source.stem)
                paths.append("::".join(([] if module == "lib" else [module]) + ([of] if of else []) + [found.group(5)]))
    return paths


def command(kit, root, crate, below, listed, flags):
    """What checks the crate, with the crates below it read as sources."""
    outside = sorted({name for one in [*below, crate] for name in listed[one] if name not in listed} | {"core", "std"})
    folder = root / "crates" / crate
    main_file = "main" if (folder / "src/main.rt").exists() else "lib"
    words = [f"{kit}/bin/rattle", "check", "--crate-name", crate, f"src/{main_file}.rt", "-L", f"dependency={kit}/rlibs"]
    for name in outside:
        words += ["--extern", f"{name}={kit}/rlibs/{name}.rlib"]
    for name in below:
        uses = ",".join(dict.fromkeys(["core", "std", *listed[name]]))
        words += ["--lib", f"{name}:{uses}={root}/crates/{name}/src/lib.rt"]
    words += ["--antt-project", f"{kit}/rattle/logic/antt-project.json", "--logic-built", f"{kit}/logic_built"]
    return [*words, *flags], folder


def check(crate, words, top=TOP):
    """Checks the crate of the tree at `top` in a copy, and gives the status."""
    listed = crates_listed(top)
    if crate not in listed:
        sys.exit(f"check_above: crates.txt lists no crate {crate}")
    rt = shutil.which("rt")
    if rt is None:
        sys.exit("check_above: the kit's command rt is not on the path")
    below = crates_below(crate, listed, [])
    alone = set(words.alone.split(",")) if words.alone else set()
    with tempfile.TemporaryDirectory() as place:
        root = Path(place)
        for name in [*below, crate]:
            shutil.copytree(top / "crates" / name, root / "crates" / name, ignore=shutil.ignore_patterns("out"))
        for name in below:
            leave_out_bodies(root / "crates" / name)
            if words.stated or alone:
                state_lemmas(root / "crates" / name)
        flags = list(words.flags)
        if alone:
            folder = root / "crates" / crate
            flags += [word for path in functions_of(folder, alone) for word in ("--only", path)]
            leave_out_bodies(folder, alone)
            state_lemmas(folder, set(words.whole.split(",")))
        line, folder = command(Path(rt).resolve().parent.parent, root, crate, below, listed, flags)
        return subprocess.run(line, cwd=folder).returncode


def words_of(arguments):
    reader = argparse.ArgumentParser(prog="check_above", usage=__doc__, add_help=False, allow_abbrev=False)
    reader.add_argument("crate")
    reader.add_argument("--stated", action="store_true")
    reader.add_argument("--alone", default="")
    reader.add_argument("--whole", default="")
    words, words.flags = reader.parse_known_args(arguments)
    return words


def main():
    if len(sys.argv) < 2 or sys.argv[1].startswith("-"):
        sys.exit(__doc__)
    words = words_of(sys.argv[1:])
    sys.exit(check(words.crate, words))


if __name__ == "__main__":
    main()
