#!/usr/bin/env python3
"""The files and names that README.md, docs/ and bench/ mention in backquotes are there.

    tools/doc_names.py [--check]    status 1 where one is gone, a line for each

A path is seen from the top of the repository, from crates/, from a crate or its specs/, or from where the page says that a word stands, as "`I`
stands for `DIR`"; `.antt` and `.edit` may be left out. Of names those are looked up that have an underscore or a capital within. NAME stands for any name.
"""

import re
import subprocess
import sys
from pathlib import Path

TOP = Path(__file__).resolve().parent.parent
PAGES = [TOP / "README.md", *sorted(TOP.glob("docs/*.md")), *sorted(TOP.glob("bench/*.md"))]
PATH = re.compile(r"[A-Za-z]\w*/[\w/.\-]*")
NAME = re.compile(r"[A-Za-z]\w*(?:::\w+)*")
WORD = re.compile(r"\w[\w\-]*")
# Where a path is looked for, and which ending it may lack.
PLACES = ["", "crates/", "crates/*/", "crates/*/specs/"]
ENDINGS = ["", ".antt", ".edit"]


def words_of_the_repository():
    listed = subprocess.run(["git", "ls-files"], cwd=TOP, capture_output=True, text=True, check=True).stdout.split()
    words = set()
    for name in listed:
        words.update(WORD.findall(name))
        path = TOP / name
        if path.suffix in (".antt", ".rt", ".py", ".sh", ".json", ".txt", "") and path.is_file():
            words.update(WORD.findall(path.read_text(encoding="utf-8", errors="ignore")))
    return words


def is_there(path, prefixes):
    first, _, rest = path.partition("/")
    path = f"{prefixes[first]}/{rest}" if first in prefixes else path
    path = path.rstrip("/")
    return any(any(TOP.glob(f"{place}{path}{ending}")) for place in PLACES for ending in ENDINGS)


def is_looked_up(name):
    return len(name) > 4 and ("_" in name or re.search(r"[a-z][A-Z]", name) is not None)


def faults(page, words):
    text = page.read_text(encoding="utf-8")
    prefixes = dict(re.findall(r"`(\w)` (?:stands )?for\s+`([\w/]+)`", text))
    for number, line in enumerate(text.splitlines(), 1):
        for said in re.findall(r"`([^`]+)`", line):
            if "NAME" in said or any(letter in said for letter in "*<> "):
                continue
            if PATH.fullmatch(said):
                if not is_there(said, prefixes) and re.search(r"[a-z]", said) and not re.fullmatch(r"\w+/\d+", said):
                    yield number, said
            elif NAME.fullmatch(said) and is_looked_up(said):
                if said.split("::")[-1] not in words:
                    yield number, said


def main(arguments):
    if arguments not in ([], ["--check"]):
        print(__doc__)
        return 2
    words = words_of_the_repository()
    wrong = 0
    for page in PAGES:
        for number, said in faults(page, words):
            print(f"{page.relative_to(TOP)}:{number}: there is no {said}")
            wrong += 1
    print(f"names in documents: {wrong} are gone")
    return 1 if wrong else 0


if __name__ == "__main__":
    sys.exit(main(sys.argv[1:]))
