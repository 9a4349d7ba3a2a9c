"""Rows 1 to 10 of 01, "Numbers the relay answers with", and the canonical spellings.

A message that has its shape is ("EVENT", event), ("REQ", sub, filters) or ("CLOSE", sub). An event and a
filter are dicts from field name to content: strings decoded, numbers as spelled, lists of them.
"""

import re
from typing import NamedTuple

from json_text import (
    HELD,
    UNESCAPED,
    NotJson,
    NotUtf8,
    allowed,
    bytes_before,
    characters,
    parse,
    places,
    read_member,
    read_value,
    skip,
    strings,
    value_place,
)
from sha256 import sha256

MESSAGE_BYTES = 16384  # row 1 (02, Wish 6)
TEXT_BYTES = 4096  # row 9

# Shape: the JSON type of each field; [x] is a list of x. The order is that of the canonical spelling.
STRING, NUMBER = "string", "number"
EVENT = {
    "id": STRING,
    "pubkey": STRING,
    "created_at": NUMBER,
    "kind": NUMBER,
    "tags": [[STRING]],
    "content": STRING,
    "sig": STRING,
}
LETTERS = "ABCDEFGHIJKLMNOPQRSTUVWXYZabcdefghijklmnopqrstuvwxyz"
FILTER = {
    "ids": [STRING],
    "authors": [STRING],
    "kinds": [NUMBER],
    "since": NUMBER,
    "until": NUMBER,
    "limit": NUMBER,
    **{"#" + letter: [STRING] for letter in LETTERS},
}

# Numbers: the least and the greatest value.
TIME = (-9007199254740991, 9007199254740991)
SMALL = (0, 65535)
NUMBERS = {"created_at": TIME, "since": TIME, "until": TIME, "kind": SMALL, "kinds": SMALL, "limit": SMALL}

# Hex: the number of characters. 02, Wish 1: members of #e and #p too, no other letter.
HEX = {"id": 64, "pubkey": 64, "ids": 64, "authors": 64, "sig": 128, "#e": 64, "#p": 64}

# Counts: the least and the greatest.
TAGS, TAG_STRINGS, FILTERS, MEMBERS, CONDITIONS, SUB = (0, 64), (1, 16), (1, 4), (1, 16), (0, 4), (1, 64)


class Refusal(NamedTuple):
    """The number of a row, 0 for none; with rows 6 and 7 of a message an offset in it (02, Wish 9)."""

    row: int
    offset: int = None

    def __str__(self):
        """As case programs print it."""
        return "%d" % self.row if self.offset is None else "%d@%d" % self


class Refused(Exception):
    """Carries a Refusal."""

    def __init__(self, row, offset=None):
        self.refusal = Refusal(row, offset)


def refuse_if(holds, row):
    if holds:
        raise Refused(row)


def refusal_of(given, test):
    """What a test says of what it is given: its Refusal, or one of row 0."""
    try:
        test(given)
    except Refused as refused:
        return refused.refusal
    return Refusal(0)


def row_of(given, test):
    return refusal_of(given, test).row


def read_json(line, plain=UNESCAPED):
    """Rows 1 to 4: the value of a line of bytes. `plain` is what stands unescaped in its strings."""
    refuse_if(len(line) > MESSAGE_BYTES, 1)
    try:
        value = parse(characters(line), plain)
    except NotUtf8:
        raise Refused(2)
    except NotJson:
        raise Refused(3)
    refuse_if(not all(allowed(s) for s in strings(value)), 4)
    return value


# Row 5, "Shape".


def content(value, form):
    """The content of a value that must have this form."""
    kind, inner = value
    if isinstance(form, list):
        refuse_if(kind != "array", 5)
        return [content(item, form[0]) for item in inner]
    refuse_if(kind != form, 5)
    return inner


def record(value, forms):
    """The fields of an object, each at most once, no others."""
    out = {}
    for name, inner in content(value, "object"):
        refuse_if(name not in forms or name in out, 5)
        out[name] = content(inner, forms[name])
    return out


def shape(value):
    items = content(value, "array")
    refuse_if(not items, 5)
    word = content(items[0], STRING)
    rest = items[1:]
    if word == "EVENT" and len(rest) == 1:
        event = record(rest[0], EVENT)
        refuse_if(len(event) != len(EVENT), 5)
        return word, event
    if word == "REQ" and rest:
        return word, content(rest[0], STRING), [record(f, FILTER) for f in rest[1:]]
    if word == "CLOSE" and len(rest) == 1:
        return word, content(rest[0], STRING)
    raise Refused(5)


# Rows 6 to 8.


def members(records, rules):
    """The single contents of the fields that have a rule, each with its rule."""
    for fields in records:
        for name in fields:
            if name in rules:
                inner = fields[name]
                for one in inner if isinstance(inner, list) else [inner]:
                    yield one, rules[name]


def good_number(spelled, limits):
    """01, "Numbers". Without needless zeros, more than 17 characters are out of every range."""
    plain = re.fullmatch(r"-?(0|[1-9][0-9]*)", spelled) and spelled != "-0"
    return plain and len(spelled) <= 17 and within(int(spelled), limits)


def good_hex(s, length):
    """01, "Hex"."""
    return len(s) == length and not re.search("[^0-9a-f]", s)


def within(count, limits):
    return limits[0] <= count <= limits[1]


def counts_of_event(event):
    yield len(event["tags"]), TAGS
    for tag in event["tags"]:
        yield len(tag), TAG_STRINGS


def counts_of_filter(fields):
    for inner in fields.values():
        if isinstance(inner, list):
            yield len(inner), MEMBERS
    yield sum(name[0] == "#" for name in fields), CONDITIONS


def counts(message):
    """01, "Counts". A string's length is in code points."""
    if message[0] == "EVENT":
        yield from counts_of_event(message[1])
    else:
        yield len(message[1]), SUB
    if message[0] == "REQ":
        yield len(message[2]), FILTERS
        for fields in message[2]:
            yield from counts_of_filter(fields)


def test_parts(records, all_counts):
    """Rows 6 to 8, each over the whole before the next."""
    refuse_if(not all(good_number(n, limits) for n, limits in members(records, NUMBERS)), 6)
    refuse_if(not all(good_hex(s, length) for s, length in members(records, HEX)), 7)
    refuse_if(not all(within(n, limits) for n, limits in all_counts), 8)


# 02, Wish 9: where rows 6 and 7 are broken. Each with its rules, and with what keeps one of them.
SAYS_WHERE = {6: (NUMBERS, good_number), 7: (HEX, good_hex)}


def singles(text, i):
    """(place, content) of a value's members if it is a list, else of the value itself."""
    (kind, inner), _ = read_value(text, i, 0)
    if kind != "array":
        return [(i, inner)]
    return [(at, one) for at, (_, one) in places(text, i, read_value)]


def fields_of(text):
    """(name, place of the value) of each field of a message's event or filters."""
    for at, (kind, _) in places(text, skip(text, 0), read_value):
        if kind == "object":
            for name_at, (name, _) in places(text, at, read_member):
                yield name, value_place(text, name_at)


def offset_of(line, row):
    """The byte at which the earliest number or string begins that breaks the row; None if the row does not say where."""
    if row not in SAYS_WHERE:
        return None
    rules, good = SAYS_WHERE[row]
    text = characters(line)
    judged = [(at, one, rules[name]) for name, i in fields_of(text) if name in rules for at, one in singles(text, i)]
    return bytes_before(text, min(at for at, one, rule in judged if not good(one, rule)))


def test_message(message, line):
    """Rows 6 to 8 of a message that has its shape, and of the line that it was read from."""
    records = []
    if message[0] == "EVENT":
        records = [message[1]]
    if message[0] == "REQ":
        records = message[2]
    row = row_of(records, lambda given: test_parts(given, counts(message)))
    if row:
        raise Refused(row, offset_of(line, row))


def read_message(line):
    """Rows 1 to 8: the message, or Refused."""
    message = shape(read_json(line))
    test_message(message, line)
    return message


# Spellings: no white space, seven escapes, numbers in shortest decimal.

ESCAPES = str.maketrans(
    {"\n": "\\n", '"': '\\"', "\\": "\\\\", "\r": "\\r", "\t": "\\t", "\b": "\\b", "\f": "\\f"}
)
# 02, Wish 3: replies, to stay JSON, spell out the control characters that none of the seven is for.
IN_REPLIES = {**{code: "\\u%04x" % code for code in range(0x20)}, **ESCAPES}


def spelled(inner, form, escapes=ESCAPES):
    if isinstance(form, list):
        return "[" + ",".join(spelled(one, form[0], escapes) for one in inner) + "]"
    if form == NUMBER:
        return str(int(inner))
    return '"' + inner.translate(escapes) + '"'


def spelled_record(fields, forms, escapes=ESCAPES):
    """The fields that are present, in the order of forms."""
    present = (name for name in forms if name in fields)
    return "{" + ",".join('"%s":%s' % (name, spelled(fields[name], forms[name], escapes)) for name in present) + "}"


def canonical(message):
    """An accepted message in bytes. Its strings stand as in the text that is hashed, so it need not be JSON."""
    parts = ['"' + message[0] + '"']
    if message[0] == "EVENT":
        parts.append(spelled_record(message[1], EVENT))
    else:
        parts.append(spelled(message[1], STRING))
    if message[0] == "REQ":
        parts += [spelled_record(fields, FILTER) for fields in message[2]]
    return ("[" + ",".join(parts) + "]").encode()


# The text that is hashed.

IN_TEXT = ["pubkey", "created_at", "kind", "tags", "content"]


def text_of(event):
    """01, "The text that is hashed": [0,pubkey,created_at,kind,tags,content], in bytes."""
    return ("[0," + ",".join(spelled(event[name], EVENT[name]) for name in IN_TEXT) + "]").encode()


def offered(line):
    """An offer's rows 1 to 10: the Refusal, and the text if none of rows 1 to 9 refuses it, else None."""
    try:
        message = shape(read_json(line))
        refuse_if(message[0] != "EVENT", 5)
        test_message(message, line)
        event = message[1]
        text = text_of(event)
        refuse_if(len(text) > TEXT_BYTES, 9)
    except Refused as refused:
        return refused.refusal, None
    return Refusal(0 if event["id"] == sha256(text) else 10), text


def read_text(text):
    """01, "A text read back alone": the number (9, 5 or 0), and the event if it is 0."""
    if len(text) > TEXT_BYTES:
        return 9, None
    try:
        items = content(read_json(text, HELD), "array")
        refuse_if(len(items) != 1 + len(IN_TEXT), 5)
        event = {name: content(item, EVENT[name]) for name, item in zip(IN_TEXT, items[1:])}
        test_parts([event], counts_of_event(event))
    except Refused:
        return 5, None
    return (0, event) if text_of(event) == text else (5, None)
