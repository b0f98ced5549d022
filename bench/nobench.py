#!/usr/bin/env python3
"""Times the eleven questions and the update of NoBench, beside sqlite3 over JSON text and over generated columns.

    bench/nobench.py                       1,000, 10,000 and 50,000 documents, each the best of three runs
    bench/nobench.py --documents 50000 --runs 5 --only group,join
    bench/nobench.py --program 'COMMAND'   another program than the one that ./sinew built

Documents have the generator's published shape: str1, str2, num, bool, dyn1 and dyn2 of two types, nested_obj, nested_arr,
thousandth, and ten of 1,000 sparse names in a hundred clusters; numbers are whole. Times are of the processor: a question's is
that of a script with the question some times less that of the script without it, divided by how often. Answers are compared
before anything is timed. The scripts are made when this runs, in a temporary folder, and are gone afterwards.
"""
import argparse
import base64
import json
import os
import random
import resource
import shlex
import sqlite3
import subprocess
import sys
import tempfile
import time

from common import TOP, heading

LOAD_OF = 1000
WORDS = ["word%03d" % place for place in range(1000)]


def text_of(number):
    """A text of some 20 letters that belongs to a number."""
    return base64.b32encode(("%012d" % number).encode()).decode().rstrip("=")


def document(rng, number, count):
    """Document `number` of `count`."""
    cluster = rng.randrange(100) * 10
    made = {
        "str1": text_of(number),
        "str2": text_of(rng.randrange(count)),
        "num": number,
        "bool": number % 2 == 0,
        "dyn1": number if number % 20 else text_of(number),
        "dyn2": [text_of(number), number, number % 3 == 0][number % 3],
        "nested_arr": [rng.choice(WORDS) for _ in range(rng.randrange(8))],
        "nested_obj": {"str": text_of(rng.randrange(count)), "num": rng.randrange(count)},
        "thousandth": number % 1000,
    }
    for place in range(cluster, cluster + 10):
        made["sparse_%03d" % place] = text_of(rng.randrange(count))[:8]
    return made


def extract(name):
    return "json_extract(d, '$.%s')" % name


def questions(documents, word):
    """Of each question its name, its text, that of sqlite3, how often it is asked, and whether it changes anything."""
    count = len(documents)
    low, high = count // 3, count // 3 + max(1, count // 1000) - 1
    tenth = low + count // 10 - 1
    one = documents[count // 2]
    sparse = next(name for name in one if name.startswith("sparse_"))
    within = "SELECT %s FROM nb WHERE %s BETWEEN %d AND %d"
    return [
        ("1 two columns", "SELECT str1, num FROM nb", "SELECT {str1}, {num} FROM nb", 10),
        ("2 two nested columns", 'SELECT "nested_obj.str", "nested_obj.num" FROM nb', "SELECT {nested_obj.str}, {nested_obj.num} FROM nb", 10),
        ("3 two sparse columns of a cluster", "SELECT sparse_110, sparse_119 FROM nb", "SELECT {sparse_110}, {sparse_119} FROM nb", 10),
        ("4 two sparse columns of two clusters", "SELECT sparse_110, sparse_220 FROM nb", "SELECT {sparse_110}, {sparse_220} FROM nb", 10),
        ("5 a text", "SELECT num FROM nb WHERE str1 = '%s'" % one["str1"], "SELECT {num} FROM nb WHERE {str1} = '%s'" % one["str1"], 20),
        ("6 one number in a thousand", within % ("str1", "num", low, high), within % ("{str1}", "{num}", low, high), 20),
        ("7 the same, of two types", within % ("str1", "dyn1", low, high), within % ("{str1}", "{dyn1}", low, high), 20),
        (
            "8 a member of an array",
            "SELECT num FROM nb WHERE '%s' = ANY(nested_arr)" % word,
            "SELECT {num} FROM nb WHERE EXISTS (SELECT 1 FROM json_each(d, '$.nested_arr') WHERE value = '%s')" % word,
            10,
        ),
        ("9 a sparse text", "SELECT num FROM nb WHERE %s = '%s'" % (sparse, one[sparse]), "SELECT {num} FROM nb WHERE {%s} = '%s'" % (sparse, one[sparse]), 20),
        (
            "10 groups over a tenth of the rows",
            "SELECT thousandth, COUNT(*) FROM nb WHERE num BETWEEN %d AND %d GROUP BY thousandth" % (low, tenth),
            "SELECT {thousandth}, COUNT(*) FROM nb WHERE {num} BETWEEN %d AND %d GROUP BY 1" % (low, tenth),
            10,
        ),
        (
            "11 a join whose outer side keeps one row in a thousand",
            'SELECT l.num, r.num FROM nb AS l JOIN nb AS r ON l."nested_obj.str" = r.str1 WHERE l.num BETWEEN %d AND %d' % (low, high),
            "SELECT {l:num}, {r:num} FROM nb AS l JOIN nb AS r ON {l:nested_obj.str} = {r:str1} WHERE {l:num} BETWEEN %d AND %d" % (low, high),
            5,
        ),
        ("a join of all rows with all, on a number", "SELECT COUNT(*) FROM nb AS l JOIN nb AS r ON l.num = r.\"nested_obj.num\"", "SELECT COUNT(*) FROM nb AS l JOIN nb AS r ON {l:num} = {r:nested_obj.num}", 3),
        ("the same, on a text", 'SELECT COUNT(*) FROM nb AS l JOIN nb AS r ON l."nested_obj.str" = r.str1', "SELECT COUNT(*) FROM nb AS l JOIN nb AS r ON {l:nested_obj.str} = {r:str1}", 3),
        ("COUNT(*) with a condition", "SELECT COUNT(*) FROM nb WHERE num < %d" % low, "SELECT COUNT(*) FROM nb WHERE {num} < %d" % low, 20),
        ("12 an update of a sparse text", "UPDATE nb SET sparse_110 = 'DUMMY' WHERE %s = '%s'" % (sparse, one[sparse]), None, 10),
    ]


class Sqlite:
    """sqlite3 over the texts; each name is an expression over the text, or a column that is generated from it."""

    def __init__(self, texts, names, generated):
        self.generated, self.base = generated, sqlite3.connect(":memory:")
        made = "".join(", c%d GENERATED ALWAYS AS (%s) STORED" % (place, extract(name)) for place, name in enumerate(names)) if generated else ""
        self.places = {name: place for place, name in enumerate(names)}
        self.base.execute("CREATE TABLE nb (d TEXT%s)" % made)
        self.base.executemany("INSERT INTO nb VALUES (?)" if not generated else "INSERT INTO nb (d) VALUES (?)", [(text,) for text in texts])

    def text(self, question):
        parts, rest = "", question
        while "{" in rest:
            before, _, rest = rest.partition("{")
            name, _, rest = rest.partition("}")
            side, _, bare = name.rpartition(":")
            table = side + "." if side else ""
            parts += before + (table + "c%d" % self.places[bare] if self.generated else extract(bare).replace("(d,", "(%sd," % table))
        return parts + rest

    def rows(self, question):
        return self.base.execute(self.text(question)).fetchall()


def spent():
    usage = resource.getrusage(resource.RUSAGE_CHILDREN)
    return usage.ru_utime + usage.ru_stime


class Program:
    def __init__(self, command, folder):
        self.command, self.folder = command, folder

    def run(self, lines, keep=False):
        """The output, or nothing, and the seconds of processor of one run."""
        path = os.path.join(self.folder, "script")
        with open(path, "w", encoding="utf-8") as out:
            out.writelines(lines)
        before = spent()
        with open(path, "rb") as script:
            ended = subprocess.run(self.command, stdin=script, stdout=subprocess.PIPE if keep else subprocess.DEVNULL)
        seconds = spent() - before
        if ended.returncode:
            sys.exit("the program ended with status %d" % ended.returncode)
        return ended.stdout.decode() if keep else "", seconds


def last_rows(output):
    """The rows of the last question of an output; None where it was refused."""
    lines = output[output.rindex("\n#") :].split("\n")[2:]
    if lines[0].startswith("! "):
        return None
    return [tuple(json.loads(line)) for line in lines if line.startswith("[")]


def comparable(rows):
    return sorted(json.dumps([int(v) if isinstance(v, bool) else v for v in row]) for row in rows)


def measure(count, words, folder):
    rng = random.Random(7)
    documents = [document(rng, number, count) for number in range(count)]
    texts = [json.dumps(d, separators=(",", ":")) for d in documents]
    loads = ["1 LOAD nb [%s]\n" % ",".join(texts[at : at + LOAD_OF]) for at in range(0, count, LOAD_OF)]
    ours, names = Program(shlex.split(words.program), folder), set()
    asked = [q for q in questions(documents, WORDS[1]) if not words.only or any(part in q[0] for part in words.only.split(","))]
    for question in asked:
        names.update(part.partition("}")[0].rpartition(":")[2] for part in (question[2] or "").split("{")[1:])
    plain, columns = Sqlite(texts, [], False), Sqlite(texts, sorted(names), True)
    loaded = min(ours.run(loads)[1] for _ in range(words.runs))
    heading("%d documents" % count, "ms", "ns a row", "sqlite3 over text, ms", "ratio", "over columns, ms", "ratio")
    for name, text, other, times in asked:
        rows = last_rows(ours.run(loads + ["1 %s\n" % text], keep=True)[0])
        if rows is None:
            print("| %s | refused | | | | | |" % name)
            continue
        if other and comparable(rows) != comparable(plain.rows(other)):
            sys.exit("%s: another answer than sqlite3's" % name)
        whole, theirs = float("inf"), [float("inf")] * 2
        for _ in range(words.runs):
            whole = min(whole, ours.run(loads + ["1 %s\n" % text] * times)[1])
            for place, base in enumerate((plain, columns) if other else ()):
                before = time.process_time()
                base.rows(other)
                theirs[place] = min(theirs[place], time.process_time() - before)
        took = max(0.0, (whole - loaded) / times)
        beside = "".join(" %.1f | %.2f |" % (t * 1000, took / t) if t < float("inf") else " | |" for t in theirs)
        print("| %s | %.1f | %.0f |%s" % (name, took * 1000, took * 1e9 / count, beside), flush=True)
    print("\nloading takes %.2f s, %.1f us a document\n" % (loaded, loaded * 1e6 / count), flush=True)


def main():
    said = argparse.ArgumentParser(description=__doc__, formatter_class=argparse.RawDescriptionHelpFormatter)
    said.add_argument("--documents", type=int, action="append")
    said.add_argument("--runs", type=int, default=3)
    said.add_argument("--only", help="parts of the names of questions, with commas between them")
    said.add_argument("--program", default=os.path.join(TOP, "crates", "sinew_cli", "out", "sinew_cli"))
    words = said.parse_args()
    with tempfile.TemporaryDirectory() as folder:
        for count in words.documents or [1000, 10000, 50000]:
            measure(count, words, folder)


if __name__ == "__main__":
    main()
