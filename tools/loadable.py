"""What documents the database loads, as a plain check for the tools beside it: why a document would be refused, and at which
member. The program does not use it; what it refuses is what counts."""
import decimal
import json
import re

WHOLE = re.compile(r"-?(0|[1-9][0-9]*)\Z")


class Refused(Exception):
    """Why a document can't be loaded, and at which member."""


class Number(str):
    """A number as it was written."""


def constant(word):
    raise ValueError("%s is no JSON" % word)


DECODER = json.JSONDecoder(parse_float=Number, parse_int=Number, parse_constant=constant)


def is_long(number):
    return len(number) > 20 or not -(2**63) <= int(number) < 2**63


class Mending:
    """What is changed on request so that a document can be loaded; nothing if nothing is asked for."""

    def __init__(self, as_text=False, rename=False, scale=()):
        self.as_text, self.rename, self.scale = as_text, rename, dict(scale)

    def key(self, key, path):
        if key and not re.search('[."\\x00-\\x1f]', key):
            return key
        if not self.rename:
            what = "an empty key" if not key else "a key with a dot, a double quote or a control character"
            raise Refused("%s at %s" % (what, named(path + [key])))
        return re.sub('[."\\x00-\\x1f]', "_", key) or "_"

    def number(self, number, path):
        name = ".".join(path)
        if name in self.scale:
            try:
                scaled = decimal.Decimal(number) * self.scale[name]
            except decimal.InvalidOperation:
                scaled = decimal.Decimal("NaN")
            if scaled == scaled.to_integral_value():
                number = Number("%d" % scaled)
        if WHOLE.match(number) and number != "-0" and not is_long(number):
            return int(number)
        if self.as_text:
            return str(number)
        what = "a number beyond 64 bits" if WHOLE.match(number) and number != "-0" else "no whole number, %s," % number
        raise Refused("%s at %s" % (what, named(path)))


def named(path):
    return json.dumps(".".join(path), ensure_ascii=False)


def mended(value, mending, path, depth, fields, inside_array=False):
    """The value as it can be loaded."""
    if isinstance(value, Number):
        return mending.number(value, path)
    if isinstance(value, str):
        try:
            value.encode()
        except UnicodeEncodeError:
            raise Refused("half of a surrogate pair at " + named(path))
        return value
    if isinstance(value, (dict, list)) and depth > 64:
        raise Refused("nesting of more than 64 at " + named(path))
    if isinstance(value, list):
        return [mended(item, mending, path, depth + 1, fields, True) for item in value]
    if not isinstance(value, dict):
        return value
    result = {}
    for key, item in value.items():
        if not inside_array:
            key = mending.key(key, path)
            if len(".".join(path + [key]).encode("utf-8", "replace")) > 255:
                raise Refused("a dotted name of more than 255 bytes, " + named(path + [key]))
            if key in result:
                raise Refused("two members that are both named %s once they are renamed" % named(path + [key]))
            fields[0] += item is not None and (not isinstance(item, dict) or not item)
        result[key] = mended(item, mending, path + [key], depth + 1, fields, inside_array)
    return result


def text_of(document, mending):
    if not isinstance(document, dict):
        raise Refused("no object: %s" % json.dumps(document)[:40])
    fields = [0]
    loaded = mended(document, mending, [], 1, fields)
    if fields[0] > 4096:
        raise Refused("more than 4,096 members")
    return json.dumps(loaded, ensure_ascii=False, separators=(",", ":"))
