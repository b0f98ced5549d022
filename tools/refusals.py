"""Why a line, a document or a whole script was refused, for the tools beside it, as far as a plain reader sees it."""
import re

from loadable import DECODER, Mending, Refused, text_of
from script_text import is_load
from statement_reader import Reader, Stopped

FAULTS = {
    "session": "a line begins with its session's number, 1 to 64, and a space, as in '1 SELECT ..'",
    "after": "behind 'after' stands s.k, the k-th line of session s, and that line is above",
    "utf8": "the line is not UTF-8",
    "long": "the line has more than 1,048,576 bytes",
    "lines": "the script has more than 65,536 lines",
    "size": "the script has more than 67,108,864 bytes",
}

REMARKS = [
    (r";", "a statement ends with its line: leave the ';' out"),
    (r"==", "equality is one '='"),
    (r"\d*\.\d", "numbers are whole: scale them, as tools/jsonl2script --scale does"),
    (r"--|/\*", "a statement has no remarks; a line that begins with # is one"),
    (r"[/%]|\|\|", "there is no division, remainder or joining of texts"),
    (r"(?i)(offset|union|with|insert|create|drop|case|cast|using|right|full|limit\s*,)\b", "that part of SQL is not in this language"),
    (r"[A-Za-z_][A-Za-z0-9_]*\s*\(", "the only calls are COUNT, SUM, MIN, MAX, INT, TEXT, BOOL and ARRAY"),
    (r"\.[A-Za-z_]", 'a nested name stands in double quotes: "user.address.city"'),
]


def remark(text, place):
    rest = text[place:]
    before = text[max(0, place - 1) :]
    for pattern, said in REMARKS:
        if re.match(pattern, rest) or re.match(pattern, before):
            return said
    if rest[:1] in "\"'":
        return 'texts stand in single quotes (\'\' for one quote), names in double quotes, without a control character or ".."'
    return None


def why_syntax(statement):
    """Where and why a statement is outside the grammar, as far as the plain reader sees it."""
    if is_load(statement):
        return 0, "a load is LOAD, a collection's name that is not reserved, and JSON"
    try:
        Reader(statement).statement()
    except Stopped as stopped:
        said = remark(statement, stopped.place)
        return stopped.place, str(stopped) + (": " + said if said else "")
    return None, "the plain reader admits it: too many tables, items or levels, a wider number, or a longer text than may be"


def why_json(statement, number):
    """What is wrong with a document of a load."""
    text = re.sub(r"^[ \t\r\n]*\w+[ \t\r\n]+\w+", "", statement).strip(" \t\r\n")
    try:
        value = DECODER.decode(text)
    except (ValueError, RecursionError) as problem:
        return "no JSON: %s" % problem
    documents = value if isinstance(value, list) else [value]
    try:
        text_of(documents[number - 1] if number else next(d for d in documents if not isinstance(d, dict)), Mending())
    except (Refused, StopIteration, IndexError) as why:
        return "document %d: %s" % (number, why) if number else "a load is an object, or an array of objects"
    return "document %d" % number


RULES = {
    "name": "an unknown qualifier, a column without one beside a second table, or an alias or a SET name that stands twice",
    "group": "an aggregate in WHERE, ON or SET, or a column beside an aggregate that is not in GROUP BY",
    "kind": "a value of one type stands where another is wanted, as a number beside a text",
    "wide": "a product of too many factors, or inside a sum: a number could pass 126 bits",
}
