#!/usr/bin/env python3
"""threads.py BINARY [PUTS]: entries per second of `BINARY run` on threads, beside the same workload in turns.

The workload puts so many keys (40,000 where no number is given) in transactions of 100, each session keys of its own. Each line that is printed: how many sessions
share them, over how many ranges, and how they go: in turns, one session after another, or on threads, one thread a session, on one processor or on four; then the
entries, the medians of the seconds and of the processor seconds of five runs, and the entries in a second. Each output on threads is checked once by `BINARY check`.
"""
import json
import os
import statistics
import subprocess
import sys
import tempfile
import time

RUNS = 5
PUTS_OF_A_TRANSACTION = 100
PROCESSORS = 4
CASES = [(1, 1), (4, 4), (4, 1), (8, 8), (8, 1)]


def key_of(session, number):
    return "k%d/%05d" % (session, number)


def session_of(number, puts):
    keys = [key_of(number, n) for n in range(puts)]
    groups = [keys[n : n + PUTS_OF_A_TRANSACTION] for n in range(0, puts, PUTS_OF_A_TRANSACTION)]
    script = [{"do": [{"put": [key, "v"]} for key in group]} for group in groups]
    return {"clock": {"start": 10 + number, "step": 1}, "script": script}


def workload(sessions, ranges, puts, in_turns):
    """So many sessions, which share the puts; with more than one range each has its keys in a range of its own."""
    work = {"version": 1, "pipelining": False, "sessions": [session_of(s, puts // sessions) for s in range(sessions)]}
    if ranges > 1:
        work["splits"] = [key_of(s, 0) for s in range(1, ranges)]
    if in_turns:
        work["turns"] = []
    return work


def run(binary, source, sink, processors):
    """The seconds and the processor seconds of one run on these processors."""
    with open(source, "rb") as data:
        start = time.monotonic()
        child = subprocess.Popen(
            [binary, "run"], stdin=data, stdout=sink, preexec_fn=lambda: os.sched_setaffinity(0, processors))
        _, status, usage = os.wait4(child.pid, 0)
        seconds = time.monotonic() - start
        child.returncode = os.waitstatus_to_exitcode(status)
    if child.returncode != 0:
        raise RuntimeError("run: status %d" % child.returncode)
    return seconds, usage.ru_utime + usage.ru_stime


def entries_of(binary, source, processors, checks):
    """How many entries a run of the workload has. Its output is checked where that is asked for."""
    with tempfile.TemporaryFile() as sink:
        run(binary, source, sink, processors)
        sink.seek(0)
        text = sink.read()
    if checks and subprocess.run([binary, "check"], input=text, stdout=subprocess.PIPE).stdout != b"run\n":
        raise RuntimeError("what was run on threads is no run")
    return text[: text.index(b"\nreport\n")].count(b"\n") - 2


def measured(binary, work, processors):
    """The entries, the seconds and the processor seconds."""
    with tempfile.NamedTemporaryFile("w", suffix=".json") as source, open(os.devnull, "wb") as sink:
        json.dump(work, source)
        source.flush()
        entries = entries_of(binary, source.name, processors, "turns" not in work)
        runs = [run(binary, source.name, sink, processors) for _ in range(RUNS)]
    return entries, statistics.median(one[0] for one in runs), statistics.median(one[1] for one in runs)


def main():
    if len(sys.argv) not in (2, 3):
        print(__doc__, file=sys.stderr)
        return 2
    binary = os.path.abspath(sys.argv[1])
    puts = int(sys.argv[2]) if len(sys.argv) > 2 else 40_000
    there = sorted(os.sched_getaffinity(0))
    ways = [("in turns", True, there[:1]), ("on threads, one processor", False, there[:1])]
    if len(there) >= PROCESSORS:
        ways.append(("on threads, four processors", False, there[:PROCESSORS]))
    for sessions, ranges in CASES:
        for way, in_turns, processors in ways:
            work = workload(sessions, ranges, puts, in_turns)
            entries, seconds, processor_seconds = measured(binary, work, set(processors))
            print("%d sessions, %d ranges, %-28s %8d entries %8.2f s %8.2f processor s %10.0f entries/s" % (
                sessions, ranges, way, entries, seconds, processor_seconds, entries / seconds), flush=True)
    return 0


if __name__ == "__main__":
    sys.exit(main())
