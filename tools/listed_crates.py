#!/usr/bin/env python3
"""listed_crates.py [--check]

Says of which libraries crates.txt has too many: those that a crate lists and names nowhere in its sources, definitions and proofs.

The gate sums up the files below a crate along every path that crates.txt has from it, before and after it proves the crate. So a library that is
listed and not named costs minutes at the top, where the paths are many. With --check the status is 1 where one is found; without it the reads of a whole gate are
printed too.
"""
import re
import sys
from functools import lru_cache
from pathlib import Path

TOP = Path(__file__).resolve().parent.parent
READ = (".rt", ".antt")


def crates_listed():
    """Each crate of crates.txt with the libraries that it lists."""
    listed = {}
    for line in (TOP / "crates.txt").read_text().splitlines():
        head, colon, below = line.split("#")[0].partition(":")
        if colon:
            listed[head.split()[0]] = below.split()
    return listed


def files_of(crate):
    """The crate's own files, without those that rt makes."""
    folder = TOP / "crates" / crate
    return [file for file in folder.rglob("*") if file.is_file() and "out" not in file.relative_to(folder).parts[:1]]


def unnamed(crate, libraries):
    """The libraries among these that no file of the crate names."""
    texts = "\n".join(file.read_text() for file in files_of(crate) if file.suffix in READ and "must-fail" not in file.parts)
    return [name for name in libraries if not re.search(rf"\b{name}\b", texts)]


def gigabytes_read(listed):
    """What a gate reads to sum up the libraries, each twice, along all paths."""
    sizes = {crate: sum(file.stat().st_size for file in files_of(crate)) for crate in listed}

    @lru_cache(None)
    def along_paths(crate):
        return sizes[crate] + sum(along_paths(below) for below in listed[crate] if below in listed)

    libraries = [crate for crate in listed if not (TOP / "crates" / crate / "src" / "main.rt").exists()]
    return 2 * sum(map(along_paths, libraries)) / 1e9


def main():
    if sys.argv[1:] not in ([], ["--check"]):
        sys.exit(__doc__)
    listed = crates_listed()
    faults = [(crate, name) for crate in listed for name in unnamed(crate, listed[crate])]
    for crate, name in faults:
        print(f"crates.txt: {crate} lists {name}, which it names nowhere")
    if not sys.argv[1:]:
        print(f"a gate sums up {gigabytes_read(listed):.0f} GB of files")
    print(f"libraries listed: {sum(map(len, listed.values()))}, {len(faults)} named nowhere")
    sys.exit(1 if faults else 0)


if __name__ == "__main__":
    main()
