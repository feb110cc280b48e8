#!/usr/bin/env python3
"""long.py BINARY [N [RUNS]]: how the time of `BINARY check` grows with one long transaction, by what its rules ask of what it did before.

Each journal is the output of `BINARY run` on a workload with N/4, N/2 and N statements in one transaction (N is 20000 where it is not given), checked RUNS times
each (three where that is not given). Each line that is printed: the shape, the medians of the processor seconds at the three sizes, the exponent
between the first and the last of them, and that of the entries between the same two.
"""
import json
import math
import os
import statistics
import subprocess
import sys
import tempfile

PARTS = (4, 2, 1)
LATE = 1_000_000_000


def key(number):
    return "k%06d" % number


def session(start, *script):
    return {"clock": {"start": start, "step": 1}, "script": [{"do": do} for do in script]}


def workload(pipelining, turns, *sessions):
    return {"version": 1, "pipelining": pipelining, "turns": turns, "sessions": list(sessions)}


def refreshed(n):
    """It reads n keys, and puts one that another session has read later, so its commit refreshes n spans."""
    reads = [{"get": key(k)} for k in range(n)] + [{"put": ["z", "v"]}]
    return workload(False, ["s1"] * (n // 2) + ["s2"] * 4, session(10, reads), session(LATE, [{"get": "z"}]))


def behind_a_stage(n):
    """A write of its stage stands above it and what it read has changed, so it restarts and puts n keys again behind that stage."""
    writes = [{"get": "a"}] + [{"put": [key(k), "v"]} for k in range(n)] + [{"put": ["z", "v"]}]
    others = session(LATE, [{"put": ["a", "w"]}], [{"get": "z"}])
    return workload(True, ["s1"] * (n // 2) + ["s2"] * 8, session(10, writes), others)


def sent_again(n):
    """It puts n keys at which another transaction has intents, so each put goes out again once that one is aborted and the intent is settled."""
    script = [{"put": [key(k), "v"]} for k in range(n)]
    work = workload(False, ["s2"] * (n + 1) + ["s1"] * (n + 1), session(20, script), session(10, script))
    work["sessions"][0]["script"][0]["priority"] = "high"
    return work


SHAPES = [("refreshed", refreshed), ("behind a stage", behind_a_stage), ("sent again", sent_again)]


def seconds(binary, word, source, sink):
    """The processor seconds of one call."""
    child = subprocess.Popen([binary, word], stdin=source, stdout=sink)
    _, status, usage = os.wait4(child.pid, 0)
    child.returncode = os.waitstatus_to_exitcode(status)
    if child.returncode != 0:
        raise RuntimeError("%s ends with status %d" % (word, child.returncode))
    return usage.ru_utime + usage.ru_stime


def checked(binary, work, runs):
    """The median of the seconds of a check, and the entries."""
    with tempfile.TemporaryFile() as file, tempfile.TemporaryFile() as journal, open(os.devnull, "wb") as sink:
        file.write(json.dumps(work).encode())
        file.seek(0)
        seconds(binary, "run", file, journal)
        journal.seek(0)
        entries = sum(1 for line in iter(journal.readline, b"report\n")) - 3
        times = []
        for _ in range(runs):
            journal.seek(0)
            times.append(seconds(binary, "check", journal, sink))
        return statistics.median(times), entries


def exponent(counts):
    return math.log(counts[-1] / counts[0], PARTS[0] / PARTS[-1])


def main():
    if len(sys.argv) not in (2, 3, 4):
        print(__doc__, file=sys.stderr)
        return 2
    size = int(sys.argv[2]) if len(sys.argv) > 2 else 20000
    runs = int(sys.argv[3]) if len(sys.argv) > 3 else 3
    for name, made in SHAPES:
        times, entries = zip(*(checked(sys.argv[1], made(size // part), runs) for part in PARTS))
        print("%-16s %s   exponent %.2f, of entries %.2f" % (name, " ".join("%8.3f" % time for time in times), exponent(times), exponent(entries)), flush=True)
    return 0


if __name__ == "__main__":
    sys.exit(main())
