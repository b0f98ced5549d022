#!/usr/bin/env python3
"""Times the reading of documents beside the bare reading of the same JSON text, in one run of one program.

    bench/flatten.py

Three shapes: wide documents, deep ones, and arrays of documents. The texts are made when this runs.
"""
from common import heading, lines_told


def wide(fields):
    return "{" + ",".join('"name_%05d":%d' % (i, i * 7919) for i in range(fields)) + "}"


def deep(levels, leaves):
    inside = "{" + ",".join('"leaf%02d":"text %d"' % (i, i) for i in range(leaves)) + "}"
    for level in range(levels - 1):
        inside = '{"a":%s,"n%d":%d}' % (inside, level, level)
    return inside


def many(documents):
    return "[" + ",".join(
        '{"id":%d,"user":{"name":"user-%d","age":%d},"tags":["t%d","t%d"],"ok":%s}'
        % (i, i, i % 90, i % 3, i % 5, "true" if i % 2 else "false")
        for i in range(documents)
    ) + "]"


def main():
    cases = [("wide: %d fields" % n, wide(n)) for n in (1024, 2048, 4096)]
    cases += [("wide: 100 documents of %d fields" % n, "[" + ",".join([wide(n)] * 100) + "]") for n in (512, 1024)]
    cases += [("deep: %d levels, 1,000 documents" % n, "[" + ",".join([deep(n, 8)] * 1000) + "]") for n in (15, 30, 60)]
    cases += [("array of %d documents" % n, many(n)) for n in (10000, 20000, 40000)]
    heading("text", "bytes", "bare read, ms", "read as documents, ms", "ratio")
    for name, text in cases:
        bare, whole = (int(word) for word in lines_told("flatten_bench", text)[0])
        print("| %s | %d | %.2f | %.2f | %.2f |" % (name, len(text), bare / 1000, whole / 1000, whole / bare), flush=True)


if __name__ == "__main__":
    main()
