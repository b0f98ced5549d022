#!/usr/bin/env python3
"""Times questions of the proved program over documents of 20 fields, beside two other ways to answer them.

    bench/queries.py            50,000 documents, each question the best of five runs
    bench/queries.py --quick    5,000 documents, one run

Times are of the processor. A question's is that of a script with the question forty times, less that of the script without
it, by forty. Beside it stand sqlite3's json_extract over the same texts in memory, where Python has it, and plain loops of
Python over documents that were read before. The scripts are made when this runs, in a temporary folder, and are gone
afterwards.
"""
import argparse
import json
import os
import random
import resource
import subprocess
import sys
import tempfile
import time

TOP = os.path.dirname(os.path.dirname(os.path.abspath(__file__)))
PROGRAM = os.path.join(TOP, "crates", "sinew_cli", "out", "sinew_cli")
TIMES = 40
LEVELS = ["debug", "info", "warn", "error"]


def document(rng, number):
    """One event of 20 fields, about 350 bytes."""
    fields = {
        "id": number,
        "level": rng.choice(LEVELS),
        "service": "svc-%d" % rng.randrange(40),
        "message": "request %d took a while to finish" % number,
        "ok": rng.random() < 0.5,
        "elapsed": rng.randrange(1000),
        "user": "user-%03d" % rng.randrange(1000),
        "bytes": rng.randrange(1 << 40),
    }
    for place in range(12):
        fields["f%02d" % place] = rng.randrange(100000) if place % 2 else "value %d" % rng.randrange(100000)
    return fields


def questions():
    """The name of a question, the question, the same for sqlite3, and the same over read documents."""
    return [
        (
            "two names",
            "SELECT user, elapsed FROM events",
            "SELECT json_extract(d, '$.user'), json_extract(d, '$.elapsed') FROM events",
            lambda ds: [(d.get("user"), d.get("elapsed")) for d in ds],
        ),
        (
            "a test that keeps one row in a thousand",
            "SELECT id FROM events WHERE elapsed = 77",
            "SELECT json_extract(d, '$.id') FROM events WHERE json_extract(d, '$.elapsed') = 77",
            lambda ds: [(d.get("id"),) for d in ds if d.get("elapsed") == 77],
        ),
        (
            "ORDER BY with LIMIT 10",
            "SELECT message FROM events ORDER BY bytes LIMIT 10",
            "SELECT json_extract(d, '$.message') FROM events ORDER BY json_extract(d, '$.bytes') LIMIT 10",
            lambda ds: [(d.get("message"),) for d in sorted(ds, key=lambda d: d["bytes"])[:10]],
        ),
        (
            "DISTINCT of 1,000 values",
            "SELECT DISTINCT user FROM events",
            "SELECT DISTINCT json_extract(d, '$.user') FROM events",
            lambda ds: list(dict.fromkeys((d.get("user"),) for d in ds)),
        ),
        (
            "two names, LIMIT 10",
            "SELECT user, elapsed FROM events LIMIT 10",
            "SELECT json_extract(d, '$.user'), json_extract(d, '$.elapsed') FROM events LIMIT 10",
            lambda ds: [(d.get("user"), d.get("elapsed")) for d in ds[:10]],
        ),
        (
            "whole documents, LIMIT 10",
            "SELECT * FROM events LIMIT 10",
            "SELECT d FROM events LIMIT 10",
            lambda ds: [json.dumps(d) for d in ds[:10]],
        ),
    ]


def spent():
    """Seconds of processor of the programs that have ended."""
    usage = resource.getrusage(resource.RUSAGE_CHILDREN)
    return usage.ru_utime + usage.ru_stime


def run(path):
    """Seconds of processor of one run; the output is thrown away."""
    with open(path, "rb") as source:
        start = spent()
        status = subprocess.run([PROGRAM], stdin=source, stdout=subprocess.DEVNULL).returncode
        seconds = spent() - start
    if status != 0:
        sys.exit("the program ended with status %d" % status)
    return seconds


def spent_by(work):
    """Seconds of processor of this program's own work."""
    start = time.process_time()
    work()
    return time.process_time() - start


def least(times, others):
    return [min(pair) for pair in zip(times, others)]


def beside(ours, theirs):
    """Another's time and the ratio to it, in two cells of the table; times below 1 ms have no ratio."""
    if theirs == float("inf"):
        return " | |"
    if theirs < 0.001:
        return " below 1 | |"
    return " %.1f | %.2f |" % (theirs * 1000, ours / theirs)


def write_script(path, texts, question):
    with open(path, "w") as out:
        for at in range(0, len(texts), 1000):
            out.write("1 LOAD events [" + ",".join(texts[at : at + 1000]) + "]\n")
        if question:
            out.write(("1 " + question + "\n") * TIMES)


def main():
    words = argparse.ArgumentParser()
    words.add_argument("--quick", action="store_true")
    given = words.parse_args()
    if not os.path.exists(PROGRAM):
        sys.exit("no program: run ./sinew once first")
    count, runs = (5000, 1) if given.quick else (50000, 5)
    rng = random.Random(1)
    documents = [document(rng, number) for number in range(count)]
    texts = [json.dumps(d, separators=(",", ":")) for d in documents]
    try:
        import sqlite3

        base = sqlite3.connect(":memory:")
        base.execute("CREATE TABLE events (d TEXT)")
        base.executemany("INSERT INTO events VALUES (?)", [(t,) for t in texts])
        base.execute("SELECT json_extract('{}', '$.a')")
    except Exception:
        base = None
        print("sqlite3 with JSON is missing here and is skipped")
    loaded = [float("inf")]
    rows = [[float("inf")] * 3 for _ in questions()]
    with tempfile.TemporaryDirectory() as folder:
        paths = [os.path.join(folder, "script%d" % place) for place in range(len(rows) + 1)]
        for path, question in zip(paths, [None] + [q[1] for q in questions()]):
            write_script(path, texts, question)
        # in turns, so that a slow while of the machine tells on all alike
        for _ in range(runs):
            loaded = least(loaded, [run(paths[0])])
            for place, (_, _, other, plain) in enumerate(questions()):
                theirs = spent_by(lambda: base.execute(other).fetchall()) if base else float("inf")
                rows[place] = least(rows[place], [run(paths[place + 1]), theirs, spent_by(lambda: plain(documents))])
    print("| question | ms | sqlite3, ms | ratio | plain Python, ms | ratio |")
    print("|---|---|---|---|---|---|")
    for (name, _, _, _), (whole, theirs, loops) in zip(questions(), rows):
        ours = max(0.0, (whole - loaded[0]) / TIMES)
        print("| %s | %.1f |" % (name, ours * 1000) + beside(ours, theirs) + beside(ours, loops))
    print("loading takes %.2f s" % loaded[0])


if __name__ == "__main__":
    main()
