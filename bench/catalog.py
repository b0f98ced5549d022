#!/usr/bin/env python3
"""Times look-ups in the catalog of a collection: 1,000,000 pairs of a name and a kind, asked for in random order.

    bench/catalog.py

Names of one kind each, names of all five kinds, and long names with one prefix. The texts are made when this runs.
"""
import random
import sys

from common import heading, lines_told

ASKED = 1000000
KINDS = ("bool", "int", "text", "array", "object")


def one_kind(count):
    return ["int user.name_%05d" % i for i in range(count)]


def all_kinds(count):
    return ["%s user.name_%05d" % (KINDS[i % 5], i // 5) for i in range(count)]


def long_names(count):
    return ["text %s%05d" % ("outer." * 40, i) for i in range(count)]


def main():
    random.seed(7)
    cases = [("one kind a name", one_kind(n)) for n in (1024, 8192, 65536)]
    cases += [("five kinds a name", all_kinds(65536)), ("names of 245 bytes, one prefix", long_names(65536))]
    heading("names", "attributes", "add, ns", "find, ns", "kinds_of, ns")
    for name, pairs in cases:
        text = "\n".join(pairs) + "\n\n" + "\n".join(random.choices(pairs, k=ASKED)) + "\n"
        add, find, kinds, found = (int(word) for word in lines_told("catalog_bench", text)[0])
        if found != ASKED:
            sys.exit("of %d pairs %d were found" % (ASKED, found))
        each = (add * 1000 / len(pairs), find * 1000 / ASKED, kinds * 1000 / ASKED)
        print("| %s | %d | %.0f | %.0f | %.0f |" % ((name, len(pairs)) + each), flush=True)


if __name__ == "__main__":
    main()
