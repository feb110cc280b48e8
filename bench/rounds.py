#!/usr/bin/env python3
"""Counts the round trips and messages of a transaction of n writes on m ranges, with pipelining and without, from the journals of a built program:

    python3 bench/rounds.py crates/pc_program/out/pc_program

A round trip is a wave that the session waits for: replies that it hears one after another, with no entry of its own between them. The table shows those of the
whole transaction up to its answer, those of the commit alone, and those of the job behind the answer, each with its messages; and in how many entries of the
journal, counted from the commit's ask, the answer comes.
"""
import json
import subprocess
import sys

CASES = [(1, 1), (2, 2), (8, 1), (8, 4), (8, 8), (32, 4), (64, 16), (100, 4)]


def workload(writes, ranges, pipelining):
    """One transaction that puts so many keys, spread over so many ranges in turn, and commits."""
    keys = ["%02d/%03d" % (i % ranges, i) for i in range(writes)]
    return {
        "version": 1,
        "pipelining": pipelining,
        "splits": ["%02d" % i for i in range(1, ranges)],
        "sessions": [{"clock": {"start": 10, "step": 1}, "script": [{"do": [{"put": [key, "x"]} for key in keys]}]}],
        "turns": [],
    }


def own_entries(binary, work):
    """The kinds of the session's own entries, in order, each with the rest of its line."""
    done = subprocess.run([binary, "run"], input=json.dumps(work).encode(), stdout=subprocess.PIPE, check=True)
    lines = done.stdout.decode().split("\n")
    entries = [line.split(" ", 3) for line in lines[3:lines.index("report")]]
    return [(kind, rest) for _, actor, kind, rest in entries if actor == "s1"]


def trips(entries):
    """How many waves were heard: hearings that follow no other hearing."""
    heard = [kind == "hear" for kind, _ in entries]
    return sum(1 for place, is_heard in enumerate(heard) if is_heard and not (place and heard[place - 1]))


def messages(entries):
    return sum(1 for kind, _ in entries if kind == "send")


def counts(binary, writes, ranges, pipelining):
    """Round trips and messages up to the answer, of the commit alone, and of its job."""
    own = own_entries(binary, workload(writes, ranges, pipelining))
    asked = next(place for place, (kind, rest) in enumerate(own) if kind == "ask" and rest.startswith("commit"))
    told = next(place for place, (kind, rest) in enumerate(own) if kind == "tell" and rest.startswith("committed"))
    parts = own[:told], own[asked:told], own[told:]
    return [count(part) for part in parts for count in (trips, messages)]


def main():
    binary = sys.argv[1]
    print("| Writes | Ranges | Pipelined | Round trips up to the answer | Messages | Of these, the commit's round trips | Messages | Behind the answer, round trips | Messages |")
    print("|---|---|---|---|---|---|---|---|---|")
    for writes, ranges in CASES:
        for pipelining in (True, False):
            cells = [writes, ranges, "yes" if pipelining else "no"] + counts(binary, writes, ranges, pipelining)
            print("| " + " | ".join(str(cell) for cell in cells) + " |")


if __name__ == "__main__":
    main()
