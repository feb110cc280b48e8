#!/usr/bin/env python3
"""Draws a journal as a sequence chart: actors as columns, messages and replies as arrows, commits marked.

    ./pcommit run < examples/first-commit.json | tools/sequence_chart.py > chart.svg
"""

import sys
from xml.sax.saxutils import escape

COLUMN = 330
ROW = 22
TOP = 60
LEFT = 220
# Keeps a text readable where a line crosses it.
HALO = 'stroke="white" stroke-width="4" paint-order="stroke"'


def read(lines):
    """The actors of a journal, and its entries as lists of words: step, actor, kind and the rest."""
    if not lines or lines[0] != "journal 1":
        raise ValueError("the first line is not 'journal 1'")
    ranges = int(lines[1].split()[1])
    sessions, recoverers = (int(n) for n in lines[2].split()[1:3])
    actors = [f"s{i + 1}" for i in range(sessions)] + [f"r{i}" for i in range(ranges)]
    actors += [f"v{i + 1}" for i in range(recoverers)]
    entries = []
    for line in lines[3:]:
        if line == "report":
            break
        entries.append(line.split(" ", 3))
    return actors, entries


def cut(text, most=46):
    return escape(text if len(text) <= most else text[: most - 1] + "…")


def arrow(x1, y1, x2, y2, text):
    middle = (x1 + x2) / 2
    return (
        f'<line x1="{x1}" y1="{y1}" x2="{x2}" y2="{y2}" stroke="#334e68" marker-end="url(#tip)"/>'
        f'<text x="{middle}" y="{(y1 + y2) / 2 - 2}" text-anchor="middle" {HALO}>{cut(text)}</text>'
    )


def chart(lines):
    actors, entries = read(lines)
    x = {actor: LEFT + i * COLUMN for i, actor in enumerate(actors)}
    width = LEFT + len(actors) * COLUMN - COLUMN + 60
    height = TOP + ROW * (len(entries) + 1)
    out = [
        f'<svg xmlns="http://www.w3.org/2000/svg" width="{width}" height="{height}" font-family="sans-serif" font-size="11">',
        '<defs><marker id="tip" markerWidth="8" markerHeight="8" refX="7" refY="3" orient="auto">'
        '<path d="M0 0 L7 3 L0 6 z" fill="#334e68"/></marker></defs>',
        f'<rect width="{width}" height="{height}" fill="white"/>',
    ]
    for actor in actors:
        out.append(f'<line x1="{x[actor]}" y1="{TOP - 20}" x2="{x[actor]}" y2="{height}" stroke="#bcccdc"/>')
        out.append(f'<text x="{x[actor]}" y="{TOP - 28}" text-anchor="middle" font-weight="bold">{actor}</text>')
    sent, evaluated = {}, {}
    for i, (step, actor, kind, rest) in enumerate(entries):
        y = TOP + i * ROW
        out.append(f'<text x="8" y="{y + 4}" fill="#829ab1">{step}</text>')
        words = rest.split(" ")
        if kind == "send":
            sent[actor, words[0]] = (y, " ".join(words[2:]))
        elif kind == "eval":
            from_y, text = sent[words[0], words[1]]
            out.append(arrow(x[words[0]], from_y, x[actor], y, text))
            evaluated[step] = (y, actor, " ".join(words[2:]))
        elif kind == "hear":
            from_y, range_, text = evaluated[words[1]]
            out.append(arrow(x[range_], from_y, x[actor], y, text))
        else:
            committed = kind == "tell" and words[0] == "committed"
            colour = "#0c6b58" if committed else "#102a43"
            weight = "bold" if committed else "normal"
            mark = "★ " if committed else ""
            out.append(
                f'<text x="{x[actor] - 6}" y="{y + 4}" text-anchor="end" fill="{colour}" font-weight="{weight}">'
                f"{mark}{cut(kind + ' ' + rest, 28)}</text>"
            )
    out.append("</svg>")
    return "\n".join(out)


def main():
    try:
        print(chart(sys.stdin.read().splitlines()))
    except (ValueError, IndexError, KeyError) as fault:
        print(f"sequence_chart: no journal: {fault}", file=sys.stderr)
        return 1
    return 0


if __name__ == "__main__":
    sys.exit(main())
