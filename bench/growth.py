#!/usr/bin/env python3
"""growth.py BINARY [N [PLAIN [RUNS]]]: how the time of `BINARY run` grows with the workload, and how it stands to a plain program's.

Each case runs with N/8, N/4, N/2 and N statements (N is 4000 where it is not given), RUNS times each (five where that is not given), every run in a
process of its own. Each line that is printed: the case, the medians of the processor seconds at the four sizes, the exponent between the first and the last of them, that of
the entries in the journal between the same two, and, where PLAIN is given, the same of PLAIN, which runs in turn with BINARY so that both meet
the same other work, and how many times its seconds BINARY takes at the two larger sizes. PLAIN must write the same bytes. The cases with pipelined
writes come last, and without PLAIN.
"""
import json
import math
import os
import statistics
import subprocess
import sys
import tempfile

PARTS = (8, 4, 2, 1)


def session(items, start=10):
    return {"clock": {"start": start, "step": 1}, "script": [{"do": do} for do in items]}


def workload(sessions, **more):
    return {"version": 1, "pipelining": False, "turns": [], "sessions": sessions, **more}


def puts(keys):
    return [{"put": ["k%06d" % k, "v"]} for k in keys]


def parts(items, size):
    return [items[i : i + size] for i in range(0, len(items), size)]


def written(n):
    """Transactions that write n keys."""
    return parts(puts(range(n)), 100)


def one_transaction(n):
    return workload([session([puts(range(n))])])


def one_transaction_falling(n):
    return workload([session([puts(reversed(range(n)))])])


def transactions_of_100(n):
    return workload([session(written(n))])


def transactions_of_one(n):
    return workload([session(parts(puts(range(n // 3)), 1))])


def gets(n):
    reads = [{"get": "k%06d" % (7 * i % 100)} for i in range(n)]
    return workload([session(written(100) + parts(reads, 100))])


def one_key(n):
    """One transaction that puts one key and reads it, in turn."""
    return workload([session([[{"put": ["a", "v"]}, {"get": "a"}] * (n // 2)])])


def one_key_deleted(n):
    return workload([session([[{"delete": "a"}] * n])])


def scans(n):
    return workload([session(written(n) + [[{"scan": ["", ""]}] for _ in range(5)])])


def scans_of_deleted(n):
    gone = parts([{"delete": "k%06d" % k} for k in range(n // 2)], 100)
    return workload([session(written(n // 2) + gone + [[{"scan": ["", ""]}] for _ in range(200)])])


def shared(count):
    """Transactions of two puts on shared keys, the sessions in turns."""

    def made(n):
        each = max(1, n // (4 * count))
        sessions = [
            session([puts([(7 * t + s) % 64, (11 * t + 3 * s) % 64]) for t in range(each)], 10 + s) for s in range(count)
        ]
        turns = [turn % (s + 1) for _ in range(4 * each) for s in range(count) for turn in ("s%d", "b%d")]
        return {**workload(sessions, splits=["k000016", "k000032", "k000048"]), "turns": turns}

    return made


CASES = [
    ("one transaction, keys rise", one_transaction),
    ("one transaction, keys fall", one_transaction_falling),
    ("transactions of 100 puts", transactions_of_100),
    ("transactions of one put", transactions_of_one),
    ("gets", gets),
    ("keys and 5 scans", scans),
    ("deleted keys and 200 scans", scans_of_deleted),
    ("8 sessions, shared keys", shared(8)),
    ("64 sessions, shared keys", shared(64)),
    ("one key, put and read", one_key),
    ("one key, deleted", one_key_deleted),
]


def pipelined(made):
    return lambda n: {**made(n), "pipelining": True}


# The plain program waits for each put's reply.
PIPELINED = [
    ("pipelined: %s" % name, pipelined(made)) for name, made in CASES if name not in ("gets", "keys and 5 scans", "deleted keys and 200 scans")
]


def seconds(binary, path, sink):
    """The processor seconds of one run."""
    with open(path, "rb") as data:
        child = subprocess.Popen([binary, "run"], stdin=data, stdout=sink)
        _, status, usage = os.wait4(child.pid, 0)
        child.returncode = os.waitstatus_to_exitcode(status)
    if child.returncode != 0:
        raise RuntimeError("status %d" % child.returncode)
    return usage.ru_utime + usage.ru_stime


def output(binary, path):
    with tempfile.TemporaryFile() as sink:
        seconds(binary, path, sink)
        sink.seek(0)
        return sink.read()


def medians(binaries, path, runs):
    """The median of each program's seconds in so many runs; they run in turn."""
    with open(os.devnull, "wb") as sink:
        times = [[seconds(binary, path, sink) for binary in binaries] for _ in range(runs)]
    return [statistics.median(own) for own in zip(*times)]


def measured(binaries, work, runs):
    """The seconds of each program, and the entries."""
    with tempfile.NamedTemporaryFile("w", suffix=".json") as file:
        json.dump(work, file)
        file.flush()
        written = output(binaries[0], file.name)
        entries = written[: written.index(b"report\n")].count(b"\n") - 3
        for plain in binaries[1:]:
            if output(plain, file.name) != written:
                raise RuntimeError("the plain program writes something else")
        return medians(binaries, file.name, runs), entries


def exponent(counts):
    """By which power of the statements this grew, from the first size to the last."""
    return math.log(counts[-1] / counts[0], PARTS[0] / PARTS[-1])


def grown(times):
    return "%s   exponent %.2f" % (" ".join("%7.3f" % time for time in times), exponent(times))


def main():
    if len(sys.argv) not in (2, 3, 4, 5):
        print(__doc__, file=sys.stderr)
        return 2
    size = int(sys.argv[2]) if len(sys.argv) > 2 else 4000
    binaries = [os.path.abspath(word) for word in sys.argv[1:2] + sys.argv[3:4]]
    runs = int(sys.argv[4]) if len(sys.argv) > 4 else 5
    for name, made in CASES + PIPELINED:
        against = binaries if (name, made) in CASES else binaries[:1]
        rows = [measured(against, made(size // part), runs) for part in PARTS]
        own, *plain = zip(*(times for times, _ in rows))
        line = "%-38s %s, of entries %.2f" % (name, grown(own), exponent([entries for _, entries in rows]))
        for other in plain:
            line += "   plain %s   times %.2f %.2f" % (grown(other), own[-2] / other[-2], own[-1] / other[-1])
        print(line, flush=True)
    return 0


if __name__ == "__main__":
    sys.exit(main())
