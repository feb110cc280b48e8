#!/usr/bin/env python3
"""Says of each must-fail edit, also of those that are only read (.md), whether it can be applied: its old text stands just once in its file.

    tools/edits.py            lists the crates that have edits, with how many are tried and how many only read, and what can't be applied
    tools/edits.py --check    status 1 where one can't be applied

It proves nothing: that the prover refuses an edit shows when `rt ci` or `rt must-fail CRATE` tries it, which both pass over one that can't be applied.
"""

import sys
from pathlib import Path

TOP = Path(__file__).resolve().parent.parent


def fault(edit):
    """Why the edit can't be applied to its crate, or None."""
    crate = edit.parent.parent
    path, old, pairs, texts = None, None, 0, {}
    for line in edit.read_text(encoding="utf-8").split("\n"):
        if line.startswith("file: "):
            path = line.removeprefix("file: ").strip()
            if not (crate / path).is_file():
                return f"there is no file {path}"
            texts.setdefault(path, (crate / path).read_text(encoding="utf-8"))
        elif line.startswith("old: "):
            old = line.removeprefix("old: ")
        elif line.startswith("new:"):
            if path is None or old is None:
                return "a new text stands before any file or old text"
            found = texts[path].count(old)
            if found != 1:
                return f"its old text stands {found} times in {path}: {old.strip()}"
            texts[path] = texts[path].replace(old, line.removeprefix("new:").removeprefix(" "))
            old, pairs = None, pairs + 1
    return None if pairs else "it has no pair of an old and a new text"


def main(arguments):
    edits = sorted(TOP.glob("crates/*/must-fail/*"))
    faults = [(edit, why) for edit in edits for why in [fault(edit)] if why]
    if "--check" not in arguments:
        for crate in sorted({edit.parent.parent for edit in edits}):
            names = [edit.suffix for edit in edits if edit.parent.parent == crate]
            print(f"{crate.name}: {names.count('.edit')} tried, {names.count('.md')} only read")
    for edit, why in faults:
        print(f"{edit.relative_to(TOP)}: {why}")
    tried = sum(edit.suffix == ".edit" for edit in edits)
    print(f"must-fail edits: {tried} tried, {len(edits) - tried} only read, {len(faults)} can't be applied")
    return 1 if faults else 0


if __name__ == "__main__":
    sys.exit(main(sys.argv[1:]))
