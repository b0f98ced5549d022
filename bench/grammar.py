#!/usr/bin/env python3
"""Times the reading of statements and the printing of what was read.

    bench/grammar.py

Questions of 100 bytes to 1 MB of one shape, a long chain, a long list, deep nesting, and a load. The texts are made when
this runs.
"""
import sys

from common import heading, lines_told


def question(size):
    """Tests joined by OR, up to so many bytes."""
    text = "SELECT id, user.name AS name FROM events user WHERE kind = 'click'"
    place = 0
    while True:
        test = " OR a%d >= %d AND \"b.c\" IS NOT NULL" % (place % 50, place * 7919)
        if len(text) + len(test) > size:
            return text + " " * (size - len(text))
        text += test
        place += 1


def chain(count):
    return "SELECT a FROM t WHERE " + " OR ".join(["a"] * (count + 1))


def members(count):
    return "SELECT a FROM t WHERE a IN (%s)" % ",".join(str(i * 7919) for i in range(count))


def levels(count):
    """Brackets around alternatives, each beside one more name."""
    return "SELECT a FROM t WHERE " + "(a OR b AND " * count + "c" + ")" * count


def load(size):
    document = '{"id":1,"user":{"name":"somebody","age":30},"tags":["x","y"]}'
    return "LOAD t [%s]" % ",".join([document] * ((size - 9) // (len(document) + 1)))


def main():
    cases = [("question of %s" % name, question(size))
             for name, size in (("100 bytes", 100), ("1 kB", 1000), ("10 kB", 10000), ("100 kB", 100000), ("1 MB", 1000000))]
    cases += [("chain of 10,000 ORs", chain(10000)), ("IN list of 50,000 members", members(50000))]
    cases += [("64 levels", levels(64)), ("load of 1 MB", load(1000000))]
    told = lines_told("grammar_bench", "time\n" + "".join(text + "\n" for _, text in cases))
    heading("text", "bytes", "`parse`, µs", "`print`, µs", "`parse`, ns a byte")
    for (name, text), words in zip(cases, told, strict=True):
        reading, printing, spelled = (int(word) for word in words)
        if not spelled:
            sys.exit("%s: no statement" % name)
        size = len(text)
        print("| %s | %d | %.1f | %.1f | %.1f |" % (name, size, reading / 1000, printing / 1000, reading / size), flush=True)


if __name__ == "__main__":
    main()
