#!/usr/bin/env python3
"""Times records beside plain lists of pairs, in one run of one program.

    bench/records.py

Look-ups among 1, 16, 256 and 4,096 fields, and the building of records of 20 fields.
"""
from common import heading, lines_told


def main():
    lines = lines_told("record_bench", "go")
    heading("fields", "`find` in the record, ns", "binary search of the list, ns", "scan of the list, ns")
    for name, fields, *times in lines:
        if name == "find":
            print("| %s | %s |" % (fields, " | ".join(times)))
    print()
    heading("fields", "`build`, ns", "`build_from_parts`, ns", "plain list, ns")
    for name, fields, *times in lines:
        if name == "build":
            print("| %s | %s |" % (fields, " | ".join(times)))


if __name__ == "__main__":
    main()
