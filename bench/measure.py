#!/usr/bin/env python3
"""Times the proved program on scripts made here, and reads off its peak memory.

    bench/measure.py            all sizes, three runs each, the best time
    bench/measure.py --quick    small sizes, one run each
    bench/measure.py --beside PROGRAM   another build of the program too, in turns with this one

The scripts are made when this runs, in a temporary folder, and are gone afterwards.
"""
import argparse
import os
import random
import subprocess
import sys
import tempfile
import time

TOP = os.path.dirname(os.path.dirname(os.path.abspath(__file__)))
PROGRAM = os.path.join(TOP, "crates", "sinew_cli", "out", "sinew_cli")
MIB = 1 << 20


def event(rng, number):
    """One flat event of about 180 bytes."""
    return (
        '{"id":%d,"level":"%s","service":"svc-%d","message":"request %d took a while to finish",'
        '"ok":%s,"elapsed":%d,"user":"user-%06d","note":"%s"}'
        % (
            number,
            rng.choice(["debug", "info", "warn", "error"]),
            rng.randrange(40),
            number,
            rng.choice(["true", "false"]),
            rng.randrange(100000),
            rng.randrange(1000000),
            "x" * rng.randrange(60),
        )
    )


def write_of_size(out, size, batch):
    """Loads of `batch` documents each, until the script has `size` bytes; then two selections."""
    rng = random.Random(1)
    have = 0
    number = 0
    while have < size:
        documents = [event(rng, number + i) for i in range(batch)]
        number += batch
        line = "1 LOAD events " + (documents[0] if batch == 1 else "[" + ",".join(documents) + "]") + "\n"
        out.write(line)
        have += len(line)
    out.write("1 SELECT elapsed FROM events\n1 SELECT message FROM events\n")


def write_of_lines(out, count, collections):
    """So many lines: loads of one small document each over so many collections, and a selection of one that is small."""
    for i in range(count - 1):
        out.write('1 LOAD c%d {"a":%d}\n' % (i % collections, i))
    out.write("1 SELECT a FROM none\n")


def make(path, kind, first, second):
    """Writes the script in a process of its own: a child's peak memory counts that of its parent when it began."""
    subprocess.run([sys.executable, os.path.abspath(__file__), "--make", path, kind, str(first), str(second)], check=True)


def run(program, path):
    """Seconds and peak MiB of one run; the output is thrown away."""
    with open(path, "rb") as source:
        start = time.perf_counter()
        child = subprocess.Popen([program], stdin=source, stdout=subprocess.DEVNULL)
        _, status, usage = os.wait4(child.pid, 0)
        seconds = time.perf_counter() - start
    child.returncode = os.waitstatus_to_exitcode(status)
    if child.returncode != 0:
        sys.exit("the program ended with status %d" % child.returncode)
    return seconds, usage.ru_maxrss / 1024.0


def main():
    words = argparse.ArgumentParser()
    words.add_argument("--quick", action="store_true")
    words.add_argument("--beside", metavar="PROGRAM", help="another build, timed in turns with this one")
    words.add_argument("--make", nargs=4, help=argparse.SUPPRESS)
    given = words.parse_args()
    if given.make:
        path, kind, first, second = given.make
        with open(path, "w") as out:
            (write_of_size if kind == "size" else write_of_lines)(out, int(first), int(second))
        return
    if not os.path.exists(PROGRAM):
        sys.exit("no program: run ./sinew once first")
    quick = given.quick
    cases = []
    for size in [1, 2, 4] if quick else [1, 2, 4, 8, 15, 30, 60]:
        cases.append(("%d MiB, loads of 100 documents" % size, "size", size * MIB, 100))
    for size in [1, 2] if quick else [1, 2, 4, 8]:
        cases.append(("%d MiB, loads of one document" % size, "size", size * MIB, 1))
    for lines in [8192] if quick else [16384, 32768, 65536]:
        cases.append(("%d lines, one collection" % lines, "lines", lines, 1))
        cases.append(("%d lines, 256 collections" % lines, "lines", lines, 256))
    programs = [PROGRAM] + ([given.beside] if given.beside else [])
    print("| script | bytes |" + " seconds | peak MiB | peak over script |" * len(programs))
    print("|---|---|" + "---|---|---|" * len(programs))
    with tempfile.TemporaryDirectory() as folder:
        path = os.path.join(folder, "script")
        for name, kind, first, second in cases:
            make(path, kind, first, second)
            size = os.path.getsize(path)
            turns = [[run(program, path) for program in programs] for _ in range(1 if quick else 3)]
            row = "| %s | %d |" % (name, size)
            for results in zip(*turns):
                seconds, peak = min(r[0] for r in results), max(r[1] for r in results)
                row += " %.3f | %.1f | %.1f |" % (seconds, peak, peak * MIB / size)
            print(row, flush=True)


if __name__ == "__main__":
    main()
