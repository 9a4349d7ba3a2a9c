"""Random spellings for the case writers. In a str here, U+DC80 to U+DCFF stand for the raw bytes 80 to FF.

In a message ⑥ stands before a number that breaks row 6 and ⑦ before a string that breaks row 7 (02, Wish 9): marks, which are
no part of its bytes.
"""

HEXDIGITS = "0123456789abcdef"
SHORT = {'"': '\\"', "\\": "\\\\", "/": "\\/", "\b": "\\b", "\f": "\\f", "\n": "\\n", "\r": "\\r", "\t": "\\t"}
# The characters below U+0020: those with a short escape, and the 27 that stand raw in the text that is hashed (02, Wish 3).
FIVE = "\b\t\n\f\r"
BELOW = "".join(map(chr, range(0x20)))
CONTROLS = "".join(c for c in BELOW if c not in FIVE)
# One character of each kind: plain, each escape, each UTF-8 length at both ends.
SAMPLE = 'aZ0 ~#"\\/\b\f\n\r\t\x7f\x80é\u07ff\u0800€\u2028\ud7ff\ue000\ufeff\ufffe\uffff\U00010000😀\U0010ffff'
WIDE = SAMPLE + CONTROLS


MARKS = {6: "⑥", 7: "⑦"}


def unmarked(text):
    for mark in MARKS.values():
        text = text.replace(mark, "")
    return text


def raw(text):
    """The bytes of a line."""
    return unmarked(text).encode("utf-8", "surrogateescape")


def offset_in(text, row):
    """How many bytes stand before the row's first mark; None if the text has none."""
    at = text.find(MARKS[row]) if row in MARKS else -1
    return None if at < 0 else len(raw(text[:at]))


def said(row, text):
    """The row of a marked text, as case programs print it: with the offset that its mark gives."""
    offset = offset_in(text, row)
    return b"%d" % row if offset is None else b"%d@%d" % (row, offset)


def hexes(rng, length):
    return "".join(rng.choice(HEXDIGITS) for _ in range(length))


def u_escape(rng, c):
    """A character as one or two \\u escapes (RFC 8259, section 7)."""
    code = ord(c)
    units = [code] if code < 0x10000 else [0xD800 + (code - 0x10000 >> 10), 0xDC00 + (code - 0x10000 & 0x3FF)]
    return "".join("\\u" + rng.choice(["%04x", "%04X"]) % unit for unit in units)


def u_escapes(c):
    """A character below U+10000 as one \\u escape, with digits in either case."""
    return list(dict.fromkeys(["\\u%04x" % ord(c), "\\u%04X" % ord(c)]))


def verbatim(s):
    """A string spelled as in the text that is hashed: seven escapes, all else raw."""
    return '"' + "".join(SHORT[c] if c in SHORT and c != "/" else c for c in s) + '"'


def plain(s):
    """A string spelled with as few escapes as RFC 8259 allows, and as a reply spells it."""
    return "".join("\\u%04x" % ord(c) if c < " " else c for c in verbatim(s))


def escaped(rng, s):
    """A string spelled with \\u escapes only."""
    return '"' + "".join(u_escape(rng, c) for c in s) + '"'


def spell(rng, s, lent=False):
    """A string spelled at random; one that is lent may have control characters raw."""
    out = []
    for c in s:
        way = rng.randrange(8)
        if c in SHORT and (way < 6 or way == 6 and c != "/"):
            out.append(SHORT[c])
        elif way == 7 or c < " " and not (lent and way < 4):
            out.append(u_escape(rng, c))
        else:
            out.append(SHORT.get(c, c) if c != "/" else c)
    return '"' + "".join(out) + '"'


def words(rng, most, sample=SAMPLE):
    return "".join(rng.choice(sample) for _ in range(rng.randrange(most + 1)))


def space(rng):
    """White space, mostly none; 0A would end the line."""
    return "".join(rng.choice(" \t\r") for _ in range(rng.choice([0, 0, 0, 0, 1, 2])))


def joined(rng, items, ends):
    """Items with commas, white space and brackets or braces around them."""
    inner = ",".join(space(rng) + item + space(rng) for item in items)
    return ends[0] + (inner or space(rng)) + ends[1]


def damaged(rng, line):
    """A line with one to three bytes deleted, doubled, replaced, inserted or swapped; never with 0A."""
    line = bytearray(line)
    for _ in range(rng.choice([1, 1, 1, 2, 3])):
        if len(line) < 2:
            break
        i = rng.randrange(len(line) - 1)
        byte = rng.choice(b'[]{}:,"\\/ubtn0123456789-+.eEtfx \t\r\x00\x1f\x7f\x80\xbf\xc0\xc3\xe2\xed\xf0\xff#')
        way = rng.randrange(6)
        if way == 0:
            del line[i]
        elif way == 1:
            line.insert(i, line[i])
        elif way == 2:
            line[i] = byte
        elif way == 3:
            line.insert(i, byte)
        elif way == 4:
            line[i], line[i + 1] = line[i + 1], line[i]
        else:
            line[i] ^= rng.choice([1, 2, 4, 8, 16, 32, 64, 128])
    return bytes(b if b != 10 else 32 for b in line)
