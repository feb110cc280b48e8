#!/usr/bin/env python3
"""Draws the repository's crates, each above those on which it stands, as docs/crates.svg from crates.txt.

    tools/crate_picture.py            draws the picture
    tools/crate_picture.py --check    status 1 where docs/crates.svg is not the picture of crates.txt
"""

import sys
from pathlib import Path

TOP = Path(__file__).resolve().parent.parent
PICTURE = TOP / "docs" / "crates.svg"
BOX = (128, 26)
GAP = (18, 46)
MARGIN = 20


def stands_on():
    """Each crate of the repository with those of the repository on which its line says that it stands."""
    crates = {}
    for line in (TOP / "crates.txt").read_text(encoding="utf-8").splitlines():
        head, colon, below = line.split("#")[0].partition(":")
        if colon:
            crates[head.split()[0]] = below.split()
    return {name: [b for b in below if b in crates] for name, below in crates.items()}


def reached(crates, name):
    """All crates below this one."""
    found = set()
    for below in crates[name]:
        found |= {below} | reached(crates, below)
    return found


def direct(crates):
    """Without the lines that follow from others."""
    return {
        name: [b for b in below if not any(b in reached(crates, other) for other in below if other != b)]
        for name, below in crates.items()
    }


def levels(crates):
    """How many crates stand below one another under each."""
    level = {}

    def of(name):
        if name not in level:
            level[name] = 1 + max((of(b) for b in crates[name]), default=-1)
        return level[name]

    for name in crates:
        of(name)
    return level


def rows_of(crates):
    """The crates of each level, the lowest level first, each row ordered by where the crates below stand."""
    level = levels(crates)
    rows = [sorted(n for n in crates if level[n] == i) for i in range(max(level.values()) + 1)]
    place = {}
    for row in rows:
        row.sort(key=lambda n: (sum(place[b] for b in crates[n]) / max(len(crates[n]), 1), n))
        for i, name in enumerate(row):
            place[name] = (i + 0.5) / len(row)
    return rows


def picture(crates):
    crates = direct(crates)
    rows = rows_of(crates)
    width = max(len(row) for row in rows) * (BOX[0] + GAP[0]) - GAP[0] + 2 * MARGIN
    height = len(rows) * (BOX[1] + GAP[1]) - GAP[1] + 2 * MARGIN
    at = {}
    for i, row in enumerate(rows):
        step = width / len(row)
        for j, name in enumerate(row):
            at[name] = (step * (j + 0.5), height - MARGIN - BOX[1] / 2 - i * (BOX[1] + GAP[1]))
    out = [
        f'<svg xmlns="http://www.w3.org/2000/svg" width="{width}" height="{height}" viewBox="0 0 {width} {height}" '
        'font-family="sans-serif" font-size="12">',
        f'<rect width="{width}" height="{height}" fill="white"/>',
    ]
    for name in sorted(crates):
        x, y = at[name]
        for below in crates[name]:
            bx, by = at[below]
            top, bottom = y + BOX[1] / 2, by - BOX[1] / 2
            middle = (top + bottom) / 2
            out.append(
                f'<path d="M{x:.0f} {top:.0f} C{x:.0f} {middle:.0f} {bx:.0f} {middle:.0f} {bx:.0f} {bottom:.0f}" '
                'fill="none" stroke="#9aa5b1"/>'
            )
    for name in sorted(crates):
        x, y = at[name]
        out.append(
            f'<rect x="{x - BOX[0] / 2:.0f}" y="{y - BOX[1] / 2:.0f}" width="{BOX[0]}" height="{BOX[1]}" rx="5" '
            'fill="#eef3f8" stroke="#52606d"/>'
        )
        out.append(f'<text x="{x:.0f}" y="{y + 4:.0f}" text-anchor="middle">{name}</text>')
    out.append("</svg>")
    return "\n".join(out) + "\n"


def main():
    drawn = picture(stands_on())
    if sys.argv[1:] == ["--check"]:
        if not PICTURE.is_file() or PICTURE.read_text(encoding="utf-8") != drawn:
            print("docs/crates.svg is not the picture of crates.txt: run tools/crate_picture.py")
            return 1
        return 0
    PICTURE.write_text(drawn, encoding="utf-8")
    return 0


if __name__ == "__main__":
    sys.exit(main())
