#!/usr/bin/env python3
"""database.py BINARY: entries per second and peak memory of `BINARY run` on two workloads, each with pipelined writes and without.

Each line that is printed: the workload, its entries, seconds, entries per second, and the peak memory in MiB.
"""
import json
import os
import subprocess
import sys
import time


def clock(start):
    return {"start": start, "step": 1}


def one_session(pipelining):
    """20,000 puts on distinct keys, in 200 transactions of one session."""
    script = [{"do": [{"put": ["k%05d" % (100 * t + n), "v"]} for n in range(100)]} for t in range(200)]
    return {"version": 1, "pipelining": pipelining, "turns": [], "sessions": [{"clock": clock(10), "script": script}]}


def eight_sessions(pipelining):
    """2,000 transactions of eight sessions on sixteen shared keys, in turns, one call of each session after another."""
    sessions = []
    for s in range(8):
        script = []
        for t in range(250):
            first, second = (7 * t + s) % 16, (11 * t + 3 * s) % 16
            if t % 4 == 3:
                do = [{"get": "a%02d" % first}, {"scan": ["a%02d" % min(first, second), "b"]}]
            else:
                do = [{"put": ["a%02d" % first, "%d.%d" % (s, t)]}, {"put": ["a%02d" % second, "%d.%d" % (s, t)]}]
            script.append({"priority": ["low", "normal", "high"][(s + t) % 3], "do": do})
        sessions.append({"clock": clock(10 + s), "script": script})
    turns = []
    for _ in range(1000):
        for s in range(8):
            turns += ["s%d" % (s + 1), "b%d" % (s + 1)]
    return {"version": 1, "pipelining": pipelining, "splits": ["a04", "a08", "a12"], "turns": turns, "sessions": sessions}


def measure(binary, name, work):
    data = json.dumps(work).encode()
    start = time.monotonic()
    child = subprocess.Popen([binary, "run"], stdin=subprocess.PIPE, stdout=subprocess.PIPE)
    output = child.communicate(data)[0]
    seconds = time.monotonic() - start
    if child.returncode != 0:
        print("%s: status %d" % (name, child.returncode))
        return False
    entries = output.split(b"\nreport\n")[0].count(b"\n") - 2
    print("%-42s %8d entries %8.2f s %10.0f entries/s" % (name, entries, seconds, entries / seconds), end="")
    return True


def main():
    if len(sys.argv) != 2:
        print(__doc__, file=sys.stderr)
        return 2
    shapes = (("one session, 20,000 puts", one_session), ("eight sessions, shared keys", eight_sessions))
    for name, work in [(name + how, shape(p)) for name, shape in shapes for p, how in ((True, ", pipelined"), (False, ""))]:
        # Each in a child of its own, so that the peak of one run is not that of the other.
        pid = os.fork()
        if pid == 0:
            import resource
            good = measure(sys.argv[1], name, work)
            print(" %8.1f MiB" % (resource.getrusage(resource.RUSAGE_CHILDREN).ru_maxrss / 1024))
            sys.stdout.flush()
            os._exit(0 if good else 1)
        if os.waitpid(pid, 0)[1] != 0:
            return 1
    return 0


sys.exit(main())
