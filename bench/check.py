#!/usr/bin/env python3
"""check.py BINARY [MEGABYTES..]: the speed and the peak memory of `BINARY check` on journals of about so many megabytes (1, 10 and 100, where none are given).

The journals are outputs of `BINARY run` on generated workloads of two shapes. Each line that is printed: the shape, the megabytes of its journal
with the report, its entries, the median of the processor seconds of three checks, the megabytes in a second, the peak memory in MiB and how many times the
journal that is, and, from the second size on, the exponent of the seconds between this size and the one before.
"""
import json
import math
import os
import statistics
import subprocess
import sys
import tempfile

CHECKS = 3
KEYS = 4000
PUTS = 40
MOST_TRANSACTIONS = 100_000 // (PUTS + 3)


def key_of(number, length):
    return ("k%06d" % number).ljust(min(length, 64), "x")


def value_of(number, length):
    return ("v%06d" % number).ljust(length, "x")


def transaction(first, length):
    """A read, and puts on keys from this one on."""
    keys = [(first + 7 * n) % KEYS for n in range(PUTS)]
    do = [{"get": key_of(keys[0], length)}]
    do += [{"put": [key_of(key, length), value_of(key, length)]} for key in keys]
    return {"do": do}


def one_session(transactions, length):
    """One session."""
    script = [transaction(11 * t, length) for t in range(transactions)]
    return {"version": 1, "pipelining": False, "turns": [], "sessions": [{"clock": {"start": 10, "step": 1}, "script": script}]}


def eight_sessions(transactions, length):
    """Eight sessions in turns over four ranges, each on keys of its own."""
    sessions = []
    for s in range(8):
        own = KEYS // 8
        script = [transaction(s * own + 11 * t % (own - 7 * PUTS), length) for t in range(transactions // 8)]
        sessions.append({"clock": {"start": 10 + s, "step": 1}, "script": script})
    splits = [key_of(KEYS * part // 4, length) for part in (1, 2, 3)]
    turns = [word % (s + 1) for _ in range((PUTS + 4) * transactions // 8) for s in range(8) for word in ("s%d", "b%d")]
    return {"version": 1, "pipelining": False, "splits": splits, "turns": turns, "sessions": sessions}


SHAPES = [("one session", one_session), ("eight sessions", eight_sessions)]


def used(binary, word, source, sink):
    """The processor seconds and the peak memory, in MiB, of one call."""
    with open(source, "rb") as data:
        child = subprocess.Popen([binary, word], stdin=data, stdout=sink)
        _, status, usage = os.wait4(child.pid, 0)
        child.returncode = os.waitstatus_to_exitcode(status)
    if child.returncode != 0:
        raise RuntimeError("%s: status %d" % (word, child.returncode))
    return usage.ru_utime + usage.ru_stime, usage.ru_maxrss / 1024


def journal(binary, made, transactions, length, folder):
    """Writes the journal of such a workload into the folder, and gives its place."""
    work, out = os.path.join(folder, "work.json"), os.path.join(folder, "journal")
    with open(work, "w") as file:
        json.dump(made(transactions, length), file)
    with open(out, "wb") as sink:
        used(binary, "run", work, sink)
    return out


def journal_of(binary, made, megabytes, folder):
    """A journal of about so many megabytes, as far as a workload may have so many statements. A small one says how much a transaction writes."""
    for length in (8, 16, 32, 64):
        each = os.path.getsize(journal(binary, made, 80, length, folder)) / 80
        transactions = max(8, round(megabytes * 1_000_000 / each / 8) * 8)
        if transactions <= MOST_TRANSACTIONS:
            break
    return journal(binary, made, min(transactions, MOST_TRANSACTIONS // 8 * 8), length, folder)


def main():
    if len(sys.argv) < 2:
        print(__doc__, file=sys.stderr)
        return 2
    binary = os.path.abspath(sys.argv[1])
    sizes = [float(word) for word in sys.argv[2:]] or [1, 10, 100]
    for name, made in SHAPES:
        before = None
        for size in sizes:
            with tempfile.TemporaryDirectory() as folder:
                place = journal_of(binary, made, size, folder)
                length = os.path.getsize(place)
                with open(place, "rb") as file:
                    entries = sum(line[:1].isdigit() for line in file)
                with open(os.devnull, "wb") as sink:
                    calls = [used(binary, "check", place, sink) for _ in range(CHECKS)]
            seconds = statistics.median(call[0] for call in calls)
            peak = max(call[1] for call in calls)
            line = "%-16s %7.1f MB %9d entries %8.2f s %7.1f MB/s %7.0f MiB, %.1f times" % (
                name, length / 1e6, entries, seconds, length / 1e6 / seconds, peak, peak * 2**20 / length)
            if before:
                line += "   exponent %.2f" % (math.log(seconds / before[1]) / math.log(length / before[0]))
            print(line, flush=True)
            before = length, seconds
    return 0


if __name__ == "__main__":
    sys.exit(main())
