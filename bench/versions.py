#!/usr/bin/env python3
"""Times versions of rows: appends, the newest version of random rows, and a tall row; and the memory that they take.

    bench/versions.py
"""
import subprocess
import sys
import time

from common import built, heading


def highest(pid):
    """The highest memory of a running program so far, in bytes: its own, and not that of the process that started it."""
    try:
        with open("/proc/%d/status" % pid) as status:
            return max((int(line.split()[1]) * 1024 for line in status if line.startswith("VmHWM")), default=0)
    except OSError:
        return 0


def told(text, name="versions_bench"):
    """What the program prints of a text, and its highest memory in bytes."""
    program = subprocess.Popen([built(name)], stdin=subprocess.PIPE, stdout=subprocess.PIPE)
    program.stdin.write(text.encode())
    program.stdin.close()
    peak = 0
    while program.poll() is None:
        peak = max(peak, highest(program.pid))
        time.sleep(0.001)
    if program.returncode != 0:
        sys.exit("the program ended with %d" % program.returncode)
    return program.stdout.read().decode().split(), peak


def main():
    _, bare = told("time 1\n")
    heading("rows of one version", "append, ns", "newest of a random row, ns", "a row of one version, ns",
            "a row of 1,000, ns", "bytes a version, at most")
    for rows in (1024, 65536, 2097152):
        words, peak = told("time %d\n" % rows)
        room = "%.1f" % ((peak - bare) / rows) if rows > 1000000 else ""
        print("| %d | %s | %s |" % (rows, " | ".join(words), room), flush=True)


if __name__ == "__main__":
    main()
