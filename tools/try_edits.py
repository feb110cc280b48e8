#!/usr/bin/env python3
"""try_edits.py CRATE [ROUND [flags of rattle check]]: tries the must-fail edits of a crate together, over the contracts of the crates below it.

Edits that touch different functions are refused each by itself, so one check of one copy tries all edits of a round. Without ROUND the rounds are
listed, a line an edit, with the functions that it touches. With it (1, 2, ..) the edits of that round are applied to a copy, of which those functions
alone are checked, as `check_above.py --alone` does. A function that the check does not name as refused was proved: its edit is no good. It is no
verdict: only `rt ci` is.
"""
import argparse
import re
import shutil
import sys
import tempfile
from pathlib import Path

import check_above

TOP = check_above.TOP


def changes(edit):
    """What an edit changes: the file, the old text and the new one."""
    place, old = None, None
    for line in edit.read_text().split("\n"):
        if line.startswith("file: "):
            place = line[6:].strip()
        elif line.startswith("old: "):
            old = line[5:]
        elif line.startswith("new: "):
            yield place, old, line[5:]


def function_around(text, at):
    """The name of the function that holds this place of the text."""
    for line in reversed(text[:at].split("\n")):
        found = re.match(r"\s*(pub(\([a-z]+\))? )?(const )?fn (\w+)", line)
        if found:
            return found.group(4)
    return None


def touched_by(folder, edit):
    """The functions that an edit touches."""
    for place, old, _ in changes(edit):
        text = (folder / place).read_text()
        if text.count(old) == 1:
            yield function_around(text, text.index(old))


def rounds_of(folder):
    """The edits in rounds, each with the functions that it touches; no two of a round touch one function."""
    rounds = []
    for edit in sorted((folder / "must-fail").glob("*.edit")):
        touched = set(touched_by(folder, edit)) - {None}
        free = next((one for one in rounds if all(touched.isdisjoint(other) for _, other in one)), None)
        if free is None:
            free = []
            rounds.append(free)
        free.append((edit, touched))
    return rounds


def try_round(crate, edits, flags):
    with tempfile.TemporaryDirectory() as place:
        root = Path(place)
        shutil.copytree(TOP / "crates", root / "crates", ignore=shutil.ignore_patterns("out"))
        shutil.copy(TOP / "crates.txt", root / "crates.txt")
        for edit, touched in edits:
            print(edit.stem, *sorted(touched), flush=True)
            for source, old, new in changes(edit):
                at = root / "crates" / crate / source
                at.write_text(at.read_text().replace(old, new))
        functions = ",".join(sorted(set().union(*(touched for _, touched in edits))))
        words = argparse.Namespace(alone=functions, whole="", stated=True, flags=["--allow-holes", "--short-goals", *flags])
        return check_above.check(crate, words, root)


def main():
    if len(sys.argv) < 2 or sys.argv[1].startswith("-"):
        sys.exit(__doc__)
    crate, rounds = sys.argv[1], rounds_of(TOP / "crates" / sys.argv[1])
    if len(sys.argv) > 2:
        sys.exit(try_round(crate, rounds[int(sys.argv[2]) - 1], sys.argv[3:]))
    for number, edits in enumerate(rounds, 1):
        for edit, touched in edits:
            print(number, edit.stem, *sorted(touched))


if __name__ == "__main__":
    main()
