#!/usr/bin/env python3
"""Draws entries of a run on threads: who takes which number from the shared word, and which notes go with messages and replies.

    ./pcommit run < WORKLOAD | tools/threads_picture.py FIRST LAST > picture.svg

The journal is one of two sessions over two ranges; the entries are those from step FIRST to step LAST.
"""

import sys
from xml.sax.saxutils import escape

from sequence_chart import read

COLUMNS = {"s1": (110, "thread of session 1"), "r0": (340, "range 0"), "word": (530, "the word"), "r1": (720, "range 1"), "s2": (950, "thread of session 2")}
WIDTH = 1060
ROW = 36
TOP = 70
LINE = "#334e68"
HALO = 'stroke="white" stroke-width="5" paint-order="stroke"'


def label(actor, kind, rest):
    """What the entry is, in few words."""
    words = rest.split(" ")
    if kind == "ask":
        return "ask " + rest.split(" @")[0]
    if kind == "send":
        return f"send {words[0]} to {words[1]}: {words[2]}"
    if kind == "eval":
        return f"eval: {words[2]}"
    return f"{kind} {rest}" if kind == "tell" else kind


def note(start, end, text):
    """A dashed arrow from one place to a lower one."""
    (x1, y1), (x2, y2) = start, end
    return (
        f'<path d="M{x1} {y1 + 9} C{x1} {(y1 + y2) / 2} {x2} {(y1 + y2) / 2} {x2} {y2 - 10}" fill="none" stroke="#b44d12" '
        'stroke-dasharray="5 3" marker-end="url(#note)"/>'
        f'<text x="{(x1 + x2) / 2}" y="{(y1 + y2) / 2 - 3}" text-anchor="middle" fill="#b44d12" {HALO}>{escape(text)}</text>'
    )


def notes(entries, at):
    """What goes with each message and each reply among the entries."""
    sent = {}
    for step, actor, kind, rest in entries:
        words = rest.split(" ")
        if kind == "send":
            sent[actor, words[0]] = step
        elif kind == "eval" and (words[0], words[1]) in sent:
            origin = sent[words[0], words[1]]
            yield note(at[origin], at[step], f"the message, with a note of {origin}")
        elif kind == "hear" and words[1] in at:
            yield note(at[words[1]], at[step], f"a note of {words[1]}")


def picture(entries):
    at = {step: (COLUMNS[actor][0], TOP + ROW * place) for place, (step, actor, _, _) in enumerate(entries)}
    height = TOP + ROW * len(entries)
    word = COLUMNS["word"][0]
    out = [
        f'<svg xmlns="http://www.w3.org/2000/svg" width="{WIDTH}" height="{height}" viewBox="0 0 {WIDTH} {height}" font-family="sans-serif" font-size="12">',
        '<defs><marker id="note" markerWidth="8" markerHeight="8" refX="7" refY="3" orient="auto"><path d="M0 0 L7 3 L0 6 z" fill="#b44d12"/></marker></defs>',
        f'<rect width="{WIDTH}" height="{height}" fill="white"/>',
    ]
    for x, name in COLUMNS.values():
        out.append(f'<text x="{x}" y="{TOP - 40}" text-anchor="middle" font-weight="bold">{name}</text>')
        out.append(f'<line x1="{x}" y1="{TOP - 30}" x2="{x}" y2="{height - 10}" stroke="#d9e2ec"/>')
    for step, (x, y) in at.items():
        out.append(f'<line x1="{x}" y1="{y}" x2="{word}" y2="{y}" stroke="#9fb3c8"/>')
    out += notes(entries, at)
    for step, actor, kind, rest in entries:
        x, y = at[step]
        out.append(f'<text x="{x}" y="{y + 4}" text-anchor="middle" {HALO}>{escape(label(actor, kind, rest))}</text>')
        out.append(f'<circle cx="{word}" cy="{y}" r="13" fill="#eef3f8" stroke="{LINE}"/>')
        out.append(f'<text x="{word}" y="{y + 4}" text-anchor="middle">{step}</text>')
    out.append("</svg>")
    return "\n".join(out)


def main():
    if len(sys.argv) != 3:
        print(__doc__, file=sys.stderr)
        return 2
    first, last = int(sys.argv[1]), int(sys.argv[2])
    actors, entries = read(sys.stdin.read().splitlines())
    if actors != ["s1", "s2", "r0", "r1"]:
        print("the journal is not one of two sessions over two ranges", file=sys.stderr)
        return 1
    print(picture([entry for entry in entries if first <= int(entry[0]) <= last]))
    return 0


if __name__ == "__main__":
    sys.exit(main())
