"""The lines of a script for the tools beside it, and how the columns of an answer are called. The program does not use it."""
import re

from statement_reader import Reader, Stopped

LINE = re.compile(r"[ \t]*([1-9][0-9]?)(?=[ \t\r]|$)[ \t]*(.*)", re.S)
AFTER = re.compile(r"after[ \t]+[1-9][0-9]?\.[1-9][0-9]*(?=[ \t\r]|$)[ \t]*")


def script_lines(text):
    """The lines of a script by their name `s.k`: each with its number and its statement."""
    places, found = {}, {}
    for number, line in enumerate(text.split("\n"), 1):
        if line.strip(" \t\r") and not line.lstrip(" \t").startswith("#"):
            parts = LINE.match(line)
            if not parts:
                continue
            session, said = parts.groups()
            while AFTER.match(said):
                said = said[AFTER.match(said).end() :]
            places[session] = places.get(session, 0) + 1
            found["%s.%d" % (session, places[session])] = number, line, said
    return found


def is_load(statement):
    return re.match(r"[ \t\r\n]*LOAD\b", statement, re.I) is not None


def column_names(statement):
    """How the columns of the answer are called: None for whole documents, nothing where it is no question."""
    try:
        return () if is_load(statement) else Reader(statement).statement()
    except Stopped:
        return ()
