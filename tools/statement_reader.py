"""A plain reader of statements for the tools beside it: where the reading of one stops, and how the columns of its answer are
called. The program does not use it; what it refuses is what counts."""
import re

RESERVED = set(
    "SELECT DISTINCT FROM WHERE GROUP BY HAVING ORDER LIMIT AS JOIN INNER LEFT OUTER ON AND OR NOT IS NULL IN BETWEEN"
    " LIKE ANY TRUE FALSE ASC DESC SET".split()
)
CALLS = {"INT", "TEXT", "BOOL", "ARRAY", "COUNT", "SUM", "MIN", "MAX"}
TOKEN = re.compile(
    r"""(?P<space>[ \t\r\n]+)|(?P<word>[A-Za-z_][A-Za-z0-9_]*)|(?P<quoted>"[^".\x00-\x1f]+(?:\.[^".\x00-\x1f]+)*")"""
    r"""|(?P<numeral>[0-9]+(?![A-Za-z0-9_]))|(?P<text>'(?:[^']|'')*')|(?P<symbol><>|!=|<=|>=|[(),.;*+\-=<>])"""
)


class Stopped(Exception):
    """Where a reading stopped: a place in the text, and what would go on there."""

    def __init__(self, place, wanted):
        super().__init__(wanted)
        self.place, self.wanted = place, wanted


class Reader:
    def __init__(self, text):
        self.text, self.tokens, self.at = text, [], 0
        place = 0
        while place < len(text):
            found = TOKEN.match(text, place)
            if not found:
                raise Stopped(place, "no token begins here")
            if found.lastgroup != "space":
                self.tokens.append((found.lastgroup, found.group(), place))
            place = found.end()
        self.tokens.append(("end", "", len(text)))

    def is_word(self, *words):
        sort, token, _ = self.tokens[self.at]
        return sort == "word" and token.upper() in words

    def take_word(self, *words):
        return self.take_if(self.is_word(*words))

    def take(self, *symbols):
        sort, token, _ = self.tokens[self.at]
        return self.take_if(sort == "symbol" and token in symbols)

    def take_if(self, taken):
        self.at += taken
        return taken

    def stop(self, wanted):
        raise Stopped(self.tokens[self.at][2], wanted + " is wanted")

    def need_word(self, word):
        if not self.take_word(word):
            self.stop(word)

    def need(self, symbol):
        if not self.take(symbol):
            self.stop("'%s'" % symbol)

    def plain(self, wanted):
        sort, token, _ = self.tokens[self.at]
        if sort != "word" or token.upper() in RESERVED:
            self.stop(wanted)
        self.at += 1
        return token

    def name(self):
        sort, token, _ = self.tokens[self.at]
        if sort == "quoted":
            self.at += 1
            return token[1:-1]
        return self.plain("a column's name")

    def reference(self):
        is_word = self.tokens[self.at][0] == "word"
        name = self.name()
        return self.name() if is_word and self.take(".") else name

    def bracketed(self, part):
        self.need("(")
        part()
        self.need(")")

    def listed(self, part):
        parts = [part()]
        while self.take(","):
            parts.append(part())
        return parts

    def alias(self):
        if self.take_word("AS"):
            return self.plain("an alias")
        sort, token, _ = self.tokens[self.at]
        if sort == "word" and token.upper() not in RESERVED:
            self.at += 1
            return token
        return None

    # Expressions, from the loosest to the tightest.
    def chain(self, part, goes_on):
        part()
        while goes_on():
            part()

    def expr(self):
        self.chain(self.conjunction, lambda: self.take_word("OR"))

    def conjunction(self):
        self.chain(self.negation, lambda: self.take_word("AND"))

    def negation(self):
        while self.take_word("NOT"):
            pass
        self.sum()
        if self.take("=", "<>", "!=", "<", "<=", ">", ">="):
            if self.tokens[self.at - 1][1] == "=" and self.take_word("ANY"):
                self.bracketed(self.reference)
            else:
                self.sum()
        elif self.take_word("IS"):
            self.take_word("NOT")
            self.need_word("NULL")
        else:
            negated = self.take_word("NOT")
            if self.take_word("IN"):
                self.bracketed(lambda: self.listed(self.expr))
            elif self.take_word("BETWEEN"):
                self.sum()
                self.need_word("AND")
                self.sum()
            elif self.take_word("LIKE"):
                if self.tokens[self.at][0] != "text":
                    self.stop("a text in single quotes")
                self.at += 1
            elif negated:
                self.stop("IN, BETWEEN or LIKE")

    def sum(self):
        self.chain(self.product, lambda: self.take("+", "-"))

    def product(self):
        self.chain(self.unary, lambda: self.take("*"))

    def unary(self):
        while self.take("-"):
            pass
        sort, token, _ = self.tokens[self.at]
        if sort in ("numeral", "text"):
            self.at += 1
        elif self.take_word("TRUE", "FALSE", "NULL"):
            pass
        elif self.take("("):
            self.expr()
            self.need(")")
        elif self.is_word(*CALLS) and self.tokens[self.at + 1][1] == "(":
            self.call()
        elif sort == "quoted" or sort == "word" and token.upper() not in RESERVED:
            self.reference()
        else:
            self.stop("an expression")

    def call(self):
        name = self.tokens[self.at][1].upper()
        self.at += 2
        if name in ("INT", "TEXT", "BOOL", "ARRAY"):
            self.reference()
        elif not (name == "COUNT" and self.take("*")):
            self.expr()
        self.need(")")

    # Statements.
    def item(self):
        start = self.tokens[self.at]
        self.expr()
        last = self.tokens[self.at - 1]
        written = self.text[start[2] : last[2] + len(last[1])]
        lone = re.match(r'(?:\w+\.)?("?)([^"]+)\1\Z', written) if "(" not in written and " " not in written else None
        return self.alias() or (lone.group(2) if lone else written)

    def table(self):
        self.plain("a collection")
        self.alias()

    def key(self):
        sort = self.tokens[self.at][0]
        before = self.at
        self.expr()
        if sort == "numeral" and self.at == before + 1:
            self.at = before
            self.stop("a column or an expression, not the number of one,")
        self.take_word("ASC") or self.take_word("DESC")

    def where(self):
        if self.take_word("WHERE"):
            self.expr()

    def joined(self):
        """One more table, if there is one."""
        if self.take(","):
            self.table()
            return True
        outer = self.take_word("LEFT") and (self.take_word("OUTER") or True)
        if not outer and not self.take_word("INNER") and not self.is_word("JOIN"):
            return False
        self.need_word("JOIN")
        self.table()
        self.need_word("ON")
        self.expr()
        return True

    def select(self):
        self.take_word("DISTINCT")
        items = None if self.take("*") else self.listed(self.item)
        self.need_word("FROM")
        self.table()
        while items is not None and self.joined():
            pass
        self.where()
        if items is not None and self.take_word("GROUP"):
            self.need_word("BY")
            self.listed(self.reference)
        if items is not None and self.take_word("HAVING"):
            self.expr()
        if self.take_word("ORDER"):
            self.need_word("BY")
            self.listed(self.key)
        if self.take_word("LIMIT"):
            if self.tokens[self.at][0] != "numeral":
                self.stop("a whole number")
            self.at += 1
        return items

    def assignment(self):
        self.name()
        self.need("=")
        self.expr()

    def statement(self):
        items = ()
        if self.take_word("SELECT"):
            items = self.select()
        elif self.take_word("UPDATE"):
            self.plain("a collection")
            self.need_word("SET")
            self.listed(self.assignment)
            self.where()
        elif self.take_word("DELETE"):
            self.need_word("FROM")
            self.plain("a collection")
            self.where()
        else:
            self.stop("SELECT, LOAD, UPDATE or DELETE")
        if self.tokens[self.at][0] != "end":
            self.stop("the end, or another part of the statement,")
        return items
