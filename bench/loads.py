#!/usr/bin/env python3
"""Times whole runs of scripts of loads beside the bare reading of the same JSON, and beside sqlite3's json functions.

    bench/loads.py              50,000 documents of each kind, three runs each in turns, the best time
    bench/loads.py --quick      5,000 documents, one run
    bench/loads.py --beside PROGRAM   another build of the program too, in turns with this one

The bare reading is that of crates/flatten_bench: serde_json reads all documents as one tree. sqlite3 parses each document by
`json`. The scripts are made when this runs, in a temporary folder, and are gone afterwards.
"""
import argparse
import json
import os
import random
import sqlite3
import tempfile
import time

from common import heading, lines_told
from measure import MIB, PROGRAM, run

LEVELS = ["debug", "info", "warn", "error"]


def event(rng, number):
    """An event of 20 fields, about 350 bytes."""
    fields = {"id": number, "level": rng.choice(LEVELS), "service": "svc-%d" % rng.randrange(40),
              "message": "request %d took a while to finish" % number, "ok": rng.random() < 0.5,
              "elapsed": rng.randrange(1000), "user": "user-%03d" % rng.randrange(1000), "bytes": rng.randrange(1 << 40)}
    for place in range(12):
        fields["f%02d" % place] = rng.randrange(100000) if place % 2 else "value %d" % rng.randrange(100000)
    return fields


def nobench(rng, number):
    """A document of NoBench's form, about 660 bytes: nested, with members of two kinds and ten of a thousand sparse ones."""
    word = "".join(rng.choice("ABCDEFGHIJKLMNOPQRSTUVWXYZ234567") for _ in range(24))
    fields = {"str1": word, "str2": "GBRDCMBQGA======", "num": number, "bool": number % 2 == 0, "dyn1": number if number % 2 else word,
              "dyn2": word if number % 3 else True, "nested_arr": ["word%d" % rng.randrange(500) for _ in range(8)],
              "nested_obj": {"str": word, "num": number}, "thousandth": number % 1000}
    first = 10 * rng.randrange(100)
    for place in range(10):
        fields["sparse_%03d" % (first + place)] = "GBRDCMBQGAYTAMJR"
    return fields


def texts_of(kind, count, batch):
    """The texts of loads of so many documents each."""
    rng = random.Random(1)
    documents = [json.dumps(kind(rng, number), separators=(",", ":")) for number in range(count)]
    if batch == 1:
        return documents, documents
    return documents, ["[" + ",".join(documents[at:at + batch]) + "]" for at in range(0, count, batch)]


def in_sqlite(documents):
    """The seconds in which sqlite3 parses the documents."""
    base = sqlite3.connect(":memory:")
    base.execute("CREATE TABLE events (d)")
    start = time.process_time()
    base.executemany("INSERT INTO events VALUES (json(?))", ((text,) for text in documents))
    return time.process_time() - start


def main():
    words = argparse.ArgumentParser()
    words.add_argument("--quick", action="store_true")
    words.add_argument("--beside", metavar="PROGRAM", help="another build, timed in turns with this one")
    given = words.parse_args()
    count, rounds = (5000, 1) if given.quick else (50000, 3)
    programs = [PROGRAM] + ([given.beside] if given.beside else [])
    named = ["seconds", "ratio", "peak over script"] + (["beside: seconds", "ratio", "peak over script"] if given.beside else [])
    heading("loads", "script, MiB", "bare read, s", *named, "sqlite3, s")
    for name, kind in (("events of 20 fields", event), ("NoBench", nobench)):
        for batch in (100, 1):
            documents, texts = texts_of(kind, count, batch)
            with tempfile.TemporaryDirectory() as folder:
                path = os.path.join(folder, "script")
                with open(path, "w") as out:
                    out.writelines("1 LOAD events %s\n" % text for text in texts)
                size = os.path.getsize(path)
                bare = int(lines_told("flatten_bench", "[" + ",".join(documents) + "]")[0][0]) / 1e6
                turns = [[run(program, path) for program in programs] for _ in range(rounds)]
            row = "| %s, %d a load | %.1f | %.3f |" % (name, batch, size / MIB, bare)
            for results in zip(*turns):
                seconds, peak = min(r[0] for r in results), max(r[1] for r in results)
                row += " %.3f | %.2f | %.1f |" % (seconds, seconds / bare, peak * MIB / size)
            print(row + " %.3f |" % in_sqlite(documents), flush=True)


if __name__ == "__main__":
    main()
