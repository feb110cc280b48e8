#!/usr/bin/env python3
"""check_memory.py [PROGRAM]: runs and checks under small limits of address space, and looks at how each call ends.

The limits go in 345 equal steps from the least at which the program prints its usage, below which it does not begin, to the least at which the run of
1,500 puts (or the check of its journal) ends whole. A call ends whole (status 0), or for want of memory: then with status 8, and its line is on
standard error. The last line counts: 'N passed, M failed'.
"""
import collections
import json
import os
import resource
import subprocess
import sys

TOP = os.path.join(os.path.dirname(os.path.abspath(__file__)), "..")
PROGRAM = os.path.join(TOP, "crates", "pc_program", "out", "pc_program")
LINE = b"pcommit: out of memory\n"
PAGE = 4 << 10
RUNS = 345
PUTS = 1500


def call(program, words, data, limit=None):
    def limited():
        resource.setrlimit(resource.RLIMIT_CORE, (0, 0))
        if limit is not None:
            resource.setrlimit(resource.RLIMIT_AS, (limit, limit))

    try:
        done = subprocess.run([program, *words], input=data, capture_output=True, preexec_fn=limited, timeout=60)
    except (OSError, subprocess.SubprocessError):
        return None
    return done.returncode, done.stdout, done.stderr


def ending(found, whole):
    """How a call ended, in words; a good one begins with 'whole' or 'status 8 with its line'."""
    status, output, errors = found
    if status == 0:
        return "whole" if (output, errors) == whole[1:] else "status 0 with another output"
    if status == 8:
        return "status 8 with its line" if errors == LINE else "status 8 without its line" if not errors else "status 8 with another line"
    return "status %d" % status


def workload():
    puts = [{"put": ["k%06d" % k, "v"]} for k in range(PUTS)]
    script = [{"do": puts[i : i + 100]} for i in range(0, PUTS, 100)]
    return {"version": 1, "pipelining": False, "turns": [], "sessions": [{"clock": {"start": 10, "step": 1}, "script": script}]}


def least(program, words, data):
    """The least limit, to the page, under which a call ends as without one; more memory is taken to serve as well."""
    wanted = call(program, words, data)
    low, high = 0, 1 << 20
    while call(program, words, data, high) != wanted:
        low, high = high, 2 * high
    while high - low > PAGE:
        middle = (low + high) // 2 // PAGE * PAGE
        if call(program, words, data, middle) == wanted:
            high = middle
        else:
            low = middle
    return high


def main():
    program = os.path.abspath(sys.argv[1]) if len(sys.argv) > 1 else PROGRAM
    data = json.dumps(workload()).encode()
    first = least(program, [], b"")
    ends = collections.Counter()
    for word in ("run", "check"):
        whole = call(program, [word], data)
        step = (least(program, [word], data) - first) / RUNS
        for n in range(RUNS):
            ends[word + ": " + ending(call(program, [word], data, int(first + n * step)), whole)] += 1
        data = whole[1]
    for end, count in sorted(ends.items()):
        print("%5d %s" % (count, end))
    passed = sum(count for end, count in ends.items() if end.endswith((": whole", ": status 8 with its line")))
    print("%d passed, %d failed" % (passed, ends.total() - passed))
    return int(passed != ends.total())


if __name__ == "__main__":
    sys.exit(main())
