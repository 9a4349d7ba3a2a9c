"""Texts: UTF-8 (RFC 3629) and JSON (RFC 8259), for rows 2 to 4 of 01.

A value is a pair:
  ("string", s)    s decoded; an unpaired surrogate stands in it as itself
  ("number", s)    s as spelled
  ("array", [value, ...])
  ("object", [(name, value), ...])    names decoded, doubled ones kept
  ("literal", "true"), ("literal", "false"), ("literal", "null")
"""

import re

# RFC 8259, section 7: what stands unescaped in a string; and what does in one that is held or lent (02, Wish 3), where of the
# characters below U+0020 only those are escaped that have a short escape: 08, 09, 0A, 0C, 0D.
UNESCAPED = re.compile(r'[^"\\\x00-\x1f]+')
HELD = re.compile(r'[^"\\\x08\x09\x0a\x0c\x0d]+')

DEPTH = 8  # 01, row 3: brackets and braces open at once

# RFC 3629, section 4: a character is one of these runs of byte ranges.
TAIL = (0x80, 0xBF)
CHARACTERS = [
    [(0x00, 0x7F)],
    [(0xC2, 0xDF), TAIL],
    [(0xE0, 0xE0), (0xA0, 0xBF), TAIL],
    [(0xE1, 0xEC), TAIL, TAIL],
    [(0xED, 0xED), (0x80, 0x9F), TAIL],
    [(0xEE, 0xEF), TAIL, TAIL],
    [(0xF0, 0xF0), (0x90, 0xBF), TAIL, TAIL],
    [(0xF1, 0xF3), TAIL, TAIL, TAIL],
    [(0xF4, 0xF4), (0x80, 0x8F), TAIL, TAIL],
]


TAILS = {lead: ranges[1:] for ranges in CHARACTERS for lead in range(ranges[0][0], ranges[0][1] + 1)}


class NotUtf8(Exception):
    pass


class NotJson(Exception):
    pass


ASCII = re.compile(rb"[\x00-\x7f]+")


def characters(data):
    """The characters that the bytes spell (RFC 3629, section 3)."""
    out = []
    i = 0
    while i < len(data):
        run = ASCII.match(data, i)
        if run:
            out.append(run.group().decode("ascii"))
            i = run.end()
            continue
        lead = data[i]
        if lead not in TAILS:
            raise NotUtf8
        tails = TAILS[lead]
        run = data[i + 1 : i + 1 + len(tails)]
        if len(run) < len(tails) or not all(low <= b <= high for b, (low, high) in zip(run, tails)):
            raise NotUtf8
        code = lead & (0x3F >> len(tails))
        for b in run:
            code = code << 6 | b & 0x3F
        out.append(chr(code))
        i += 1 + len(tails)
    return "".join(out)


def parse(text, plain=UNESCAPED):
    """RFC 8259, section 2: JSON-text = ws value ws. `plain` is what stands unescaped in its strings."""
    value, i = read_value(text, skip(text, 0), 0, plain)
    if skip(text, i) != len(text):
        raise NotJson
    return value


SPACE = re.compile("[\x20\x09\x0a\x0d]*")


def skip(text, i):
    """Section 2: ws. The place after it."""
    return SPACE.match(text, i).end()


def read_value(text, i, depth, plain=UNESCAPED):
    """Section 3: a value that begins at i, with depth brackets and braces open, and the place after it."""
    first = text[i : i + 1]
    if first == '"':
        s, i = read_string(text, i, plain)
        return ("string", s), i
    if first == "[":
        return read_items(text, i + 1, depth + 1, "array", "]", read_value, plain)
    if first == "{":
        return read_items(text, i + 1, depth + 1, "object", "}", read_member, plain)
    for word in ("true", "false", "null"):
        if text.startswith(word, i):
            return ("literal", word), i + len(word)
    return read_number(text, i)


def read_items(text, i, depth, kind, end, read_item, plain):
    """Sections 4 and 5: what stands between two brackets or braces, with commas between."""
    if depth > DEPTH:
        raise NotJson
    items = []
    i = skip(text, i)
    if text[i : i + 1] == end:
        return (kind, items), i + 1
    while True:
        item, i = read_item(text, i, depth, plain)
        items.append(item)
        i = skip(text, i)
        if text[i : i + 1] == end:
            return (kind, items), i + 1
        if text[i : i + 1] != ",":
            raise NotJson
        i = skip(text, i + 1)


def read_member(text, i, depth, plain=UNESCAPED):
    """Section 4: member = string name-separator value."""
    name, i = read_string(text, i, plain)
    i = skip(text, i)
    if text[i : i + 1] != ":":
        raise NotJson
    value, i = read_value(text, skip(text, i + 1), depth, plain)
    return (name, value), i


NUMBER = re.compile(r"-?(0|[1-9][0-9]*)(\.[0-9]+)?([eE][-+]?[0-9]+)?")


def read_number(text, i):
    """Section 6: [ minus ] int [ frac ] [ exp ]."""
    found = NUMBER.match(text, i)
    if not found:
        raise NotJson
    return ("number", found.group()), found.end()


ESCAPED = {'"': '"', "\\": "\\", "/": "/", "b": "\b", "f": "\f", "n": "\n", "r": "\r", "t": "\t"}
FOUR_HEX = re.compile(r"[0-9A-Fa-f]{4}")


def read_string(text, i, plain=UNESCAPED):
    """Section 7: a string decoded, and the place after it."""
    if text[i : i + 1] != '"':
        raise NotJson
    i += 1
    out = []
    high = ""  # a high surrogate that was the last thing read, escaped
    while text[i : i + 1] != '"':
        run = plain.match(text, i)
        c = ""
        if run:
            out.append(run.group())
            i = run.end()
        elif text[i : i + 1] != "\\":
            raise NotJson  # the text's end, or a character that must be escaped
        elif text[i + 1 : i + 2] in ESCAPED:
            out.append(ESCAPED[text[i + 1]])
            i += 2
        elif text[i + 1 : i + 2] == "u" and FOUR_HEX.match(text, i + 2):
            c = chr(int(text[i + 2 : i + 6], 16))
            if high and is_low(c):
                out[-1] = chr(0x10000 + ((ord(high) - 0xD800) << 10) + ord(c) - 0xDC00)
            else:
                out.append(c)
            i += 6
        else:
            raise NotJson
        high = c if is_high(c) else ""
    return "".join(out), i + 1


# Where the parts of a text stand, counted in characters.


def places(text, i, read_item):
    """(place, item) of each item between the bracket or brace at i and its end."""
    i = skip(text, i + 1)
    while text[i] not in "]}":
        item, end = read_item(text, i, 0)
        yield i, item
        i = skip(text, end)
        if text[i] == ",":
            i = skip(text, i + 1)


def value_place(text, i):
    """Of the member whose name begins at i."""
    _, i = read_string(text, i)
    return skip(text, skip(text, i) + 1)


def bytes_before(text, i):
    return len(text[:i].encode())


def is_high(c):
    return "\ud800" <= c <= "\udbff"


def is_low(c):
    return "\udc00" <= c <= "\udfff"


def strings(value):
    """Every string of a value, names included."""
    kind, inner = value
    if kind == "string":
        yield inner
    elif kind == "array":
        for item in inner:
            yield from strings(item)
    elif kind == "object":
        for name, item in inner:
            yield name
            yield from strings(item)


UNPAIRED = re.compile("[\ud800-\udfff]")


def allowed(s):
    """01, row 4, as 02, Wish 3, amends it: no unpaired surrogate."""
    return not UNPAIRED.search(s)
