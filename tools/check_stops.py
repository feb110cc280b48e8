#!/usr/bin/env python3
"""check_stops.py [PROGRAM]: stops a session after each number of entries, with a recoverer behind it, and looks at what is left.

A session's list ends after 1, 2, .. entries, to the end of its script, and a recoverer of high level makes one round behind it. Of each journal: `check`
says that it is a run; the session has just as many entries as are stated; and each record of the session that was there when the round began is gone
at the end, with the intents of the keys that it listed. The last line counts: 'N passed, M failed'.
"""
import json
import os
import subprocess
import sys

TOP = os.path.join(os.path.dirname(os.path.abspath(__file__)), "..")
PROGRAM = os.path.join(TOP, "crates", "pc_program", "out", "pc_program")
# The second transaction of each script writes where the first one did; readings step by more than a heartbeat's second, or not at all.
SCRIPT = [
    {"do": [{"put": ["a", "x"]}, {"put": ["n", "y"]}, {"get": "a"}]},
    {"do": [{"put": ["b", "z"]}, {"delete": "a"}], "end": "rollback"},
    {"do": [{"put": ["n", "w"]}]},
]
STEPS = [0, 1200000000]
MOST = 200


def workload(step, stop):
    session = {"clock": {"start": 10, "step": step}, "script": SCRIPT}
    if stop is not None:
        session["stop"] = stop
    recoverer = {"clock": {"start": 20, "step": 1}, "level": "high", "rounds": 1}
    return {"version": 1, "pipelining": False, "splits": ["m"], "sessions": [session], "recoverers": [recoverer], "turns": []}


def call(program, word, data):
    done = subprocess.run([program, word], input=data, stdout=subprocess.PIPE, stderr=subprocess.PIPE, timeout=60)
    return done.returncode, done.stdout.decode(), done.stderr.decode().strip()


class State:
    """What the ranges have after some entries: records with the keys that they list, and intents."""

    def __init__(self):
        self.records = {}
        self.marks = set()
        self.intents = set()
        self.requests = {}

    def add(self, words):
        if words[2] == "send":
            self.requests[words[1], words[3]] = words[5:]
        elif words[2] == "eval":
            self.evaluate(self.requests[words[3], words[4]], words[5:])

    def evaluate(self, request, reply):
        kind, name = request[0], request[1].split(":")[0] if len(request) > 1 else ""
        if kind == "put" and reply[0] == "written":
            self.intents.add((name, request[4]))
        elif kind == "resolve" and request[3] != "pending":
            self.intents.discard((name, request[2]))
        elif kind == "remove" and reply == ["removed"]:
            self.records.pop(name, None)
            self.marks.add(name)
        elif reply[0] == "status" and reply[1] != "none" and name not in self.marks:
            locks = reply[-1] if reply[1] in ("committed", "aborted") else "-"
            self.records[name] = [] if locks == "-" else locks.split(",")


def faults(out, stop):
    entries = [line.split(" ") for line in out.split("\nreport\n")[0].splitlines()[3:]]
    stopped = sum(1 for words in entries if words[1] == "s1")
    if stop is not None and stopped != stop:
        yield "the session has %d entries" % stopped
    state, at_round = State(), None
    for words in entries:
        if words[1] == "v1" and words[2] == "ask":
            at_round = {name: list(locks) for name, locks in state.records.items()}
        state.add(words)
    if at_round is None:
        yield "no round was made"
        return
    for name, locks in at_round.items():
        if name in state.records:
            yield "the record of %s is left" % name
        for key in locks:
            if (name, key) in state.intents:
                yield "the intent of %s at %s is left" % (name, key)


def main():
    program = sys.argv[1] if len(sys.argv) > 1 else PROGRAM
    passed = failed = 0
    for step in STEPS:
        _, whole, _ = call(program, "run", json.dumps(workload(step, None)).encode())
        length = sum(1 for line in whole.splitlines() if line.split(" ")[1:2] == ["s1"])
        for stop in range(1, min(length, MOST) + 1):
            status, out, line = call(program, "run", json.dumps(workload(step, stop)).encode())
            found = list(faults(out, stop)) if status == 0 else ["status %d: %s" % (status, line)]
            if status == 0 and call(program, "check", out.encode())[1] != "run\n":
                found.append("the journal is not a run")
            if found:
                failed += 1
                print("stops: step %d, stop %d: %s" % (step, stop, "; ".join(found)))
            else:
                passed += 1
    if passed + failed == 0:
        failed = 1
        print("stops: no workload was run")
    print("%d passed, %d failed" % (passed, failed))
    return failed != 0


sys.exit(main())
