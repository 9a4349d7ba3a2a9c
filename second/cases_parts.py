"""Lines for parts_cases. (rows, line) where the first numbers of the answer are plain from how the line is made."""

import random

import cases_message
import cases_offset
from cases_event import KINDS, MAX_TIME, TIMES, good_events, id_of, made, text_borders
from cases_message import A, GOOD, SUB_FAULTS, event_with, many, req
from rows import MESSAGE_BYTES, text_of
from sha256 import sha256
from spell import BELOW, CONTROLS, SAMPLE, damaged, escaped, hexes, plain, raw, said, spell, u_escapes, unmarked, verbatim

TWO_64 = 2**64
LAST = TWO_64 - 1
SIG = "a" * 128


def spelled(letter, buffer, numbers):
    fields = [b"x" if n is None else b"%d" % n for n in numbers]
    return b" ".join([letter, buffer.hex().encode() or b"-"] + fields)


# An event lent as parts. Every part is named; strings are pairs of start and length.

PARTS = ["id", "pubkey", "created_at", "kind", "tags", "content", "sig"]
BODY = PARTS[1:6]
STRING_PARTS = ["id", "pubkey", "content", "sig"]
FILTER_PARTS = ["ids", "authors", "kinds", "since", "until", "limit", "conditions"]


class Lent:
    """A buffer, and parts of it. What stands between them belongs to none; long strings may share their place."""

    def __init__(self, values):
        """Strings as bytes between their quotes, tags and lists as bytes, numbers."""
        self.buffer = b'"\xff\\'
        self.parts = {}
        for name, value in values.items():
            if not isinstance(value, bytes):
                self.parts[name] = value
                continue
            place = self.buffer.find(value) if len(value) >= 64 and name in STRING_PARTS else -1
            if place < 0:
                place = len(self.buffer)
                self.buffer += value + b'"\x80]'
            self.parts[name] = (place, len(value)) if name in STRING_PARTS else place

    def but(self, **parts):
        """The same buffer with other places or numbers."""
        copy = Lent({})
        copy.buffer, copy.parts = self.buffer, {**self.parts, **parts}
        return copy

    def numbers(self, names):
        for name in names:
            part = self.parts[name]
            yield from part if isinstance(part, tuple) else [part]

    def event(self):
        return spelled(b"E", self.buffer, self.numbers(PARTS))

    def body(self, room=120):
        return spelled(b"B", self.buffer, list(self.numbers(BODY)) + [room])

    def filter(self):
        return spelled(b"F", self.buffer, (self.parts.get(name) for name in FILTER_PARTS))


def inner(s):
    """A string as spelled, without its quotes, in bytes."""
    return raw(s[1:-1])


def values_of(fields, string=plain):
    tags = "[" + ",".join("[" + ",".join(map(string, tag)) + "]" for tag in fields["tags"]) + "]"
    return {
        "sig": SIG.encode(),
        "id": inner(string(id_of(fields))),
        "pubkey": inner(string(fields["pubkey"])),
        "created_at": int(fields["created_at"]),
        "kind": int(fields["kind"]),
        "tags": raw(tags),
        "content": inner(string(fields["content"])),
    }


BASE = {**values_of(made()), "id": A.encode()}  # good but for row 10


def event_of(values):
    return Lent(values).event()


def body_of(values, room=120):
    return Lent({name: values[name] for name in BODY}).body(room)


def both(row, **values):
    """The body that these values make break a row, or the event if the fault is not in it."""
    if set(values) & {"id", "sig"}:
        yield (row, row or 10), event_of({**BASE, **values})
    else:
        yield (row, row), body_of({**BASE, **values})


def each(row, **values):
    """The event and its body."""
    yield (row, row or 10), event_of({**BASE, **values})
    yield (row, row), body_of({**BASE, **values})


def good_parts():
    rng = random.Random(1)
    for fields in good_events():
        size = len(text_of(fields))
        yield (0, 0), event_of(values_of(fields))
        yield (0, 0), body_of(values_of(fields, lambda s: spell(rng, s)), size + 3)
    white = {**BASE, "tags": b'[\n[ "a"\t,\r"b" ]\n,["c"]\n] '}
    yield (0, 10), event_of(white)
    yield (0, 0), body_of(white)
    starred = values_of(made(created_at=-7200, kind=1, tags=[["d", "t\n1"]], content='a"b'))
    for room in (0, 1, 80, 98, 99, 100, 101, 4096, 4200):
        yield (0, 0), body_of(starred, room)
    # Both sides of 4,096 bytes; 9 goes before 13.
    for extra in (0, 1):
        large = values_of(made(content="x" * (4016 + extra)))
        yield (0, 9 * extra), event_of(large)
        for room in (0, 4095, 4096, 4097):
            yield (0, 9 * extra), body_of(large, room)
    yield (0, 9), event_of(values_of(made(content="x" * 9000)))
    yield (0, 9), body_of(values_of(made(content="x" * 9000)))
    # Parts may overlap, and lie in any order.
    whole = raw(A + '[["d","%s"]]' % A)
    yield (0, 0), spelled(b"B", whole, [0, 64, 0, 30000, 64, 71, 64, 200])
    for wrong in ("0" * 64, id_of(made())[::-1], id_of(made(kind=1)), id_of(made())[:-1] + "0"):
        yield (0, 10), event_of({**BASE, "id": wrong.encode()})
    for right in (id_of(made()).encode(), inner(escaped(rng, id_of(made())))):
        yield (0, 0), event_of({**BASE, "id": right})


# A part outside its buffer.


def outside(size):
    """Starts and lengths that lie outside a buffer, also where start + length passes 2^64."""
    yield from [(size, 1), (size + 1, 0), (size - 1, 2), (0, size + 1), (1, size), (size, size)]
    yield from [(0, LAST), (1, LAST), (size, LAST), (LAST, 0), (LAST, 1), (LAST, LAST), (LAST - 63, 64)]
    for wrapped in (0, 1, 64, size):
        yield TWO_64 - 64, 64 + wrapped
        yield 64, min(TWO_64 - 64 + wrapped, LAST)
    for power in (31, 32, 63):
        yield 2**power, 64
        yield 2**power, 2**power - 1
        yield 0, 2**power
        yield 0, 2**power + 64


def outside_parts():
    values = values_of(made(kind=30000, tags=[["d", "tile"]], content="x"))
    event, body = Lent(values), Lent({name: values[name] for name in BODY})
    for name in STRING_PARTS:
        for span in outside(len(event.buffer)):
            yield (5, 5), event.but(**{name: span}).event()
        if name in BODY:
            for span in outside(len(body.buffer)):
                yield (5, 5), body.but(**{name: span}).body()
    for good in (event, body):
        size = len(good.buffer)
        for place in (size - 1, size, size + 1, LAST, LAST - 1, 2**32, 2**63, TWO_64 - size):
            wrong = good.but(tags=place)
            yield (5, 5), wrong.event() if good is event else wrong.body()
    # The empty part at the very end lies inside.
    yield (0, 10), event.but(content=(len(event.buffer), 0)).event()
    yield (0, 0), body.but(content=(len(body.buffer), 0)).body()
    yield (7, 7), event.but(id=(len(event.buffer), 0)).event()
    nothing = Lent({}).but(id=(0, 0), pubkey=(0, 0), created_at=0, kind=0, tags=0, content=(0, 0), sig=(0, 0))
    nothing.buffer = b""
    yield (5, 5), nothing.event()
    yield (5, 5), nothing.body()


# A string part that breaks a row.

STRINGS = {
    2: [b"\xff", b"\x80", b"\xc0\x80", b"\xc3", b"a\xe2\x82", b"\xed\xa0\x80", b"\xf4\x90\x80\x80", b"\xf0\x9f\x98"]
    + [b'"\xff', b"\\\xff", b"\x00\xff", b"\\ud800\xff", b"\xe9"],
    4: [b"\\ud800", b"\\udc00", b"\\ud83d\\u0041", b"\\ude00\\ud83d", b"a\\uDBFF", b"\\ud83dx\\ude00", b"\\ud83d\\n"]
    + [b"\\ud800\x01", b"\x1f\\udc00", b"\\ud83d\x00\\ude00", b"\\u0000\\ud800"],
    5: [b"\x08", b"\x09", b"\x0a", b"\x0c", b"\x0d"]
    + [b'"', b'a"', b'"a', b'""', b"\\", b"a\\", b"\\\\\\", b"\\u", b"\\u1", b"\\u12", b"\\u123", b"\\U0041", b"\\x41"]
    + [b"\\u004g", b"\\u004G", b"\\u004/", b"\\u004:", b"\\u004@", b"\\u004`", b"\\u 041", b"\\\xc3\xa9", b"\\'",
        b"\\0"]
    + [b"\\ud800\x08", b"\\u0000\x0d", b'\\ud800"', b"\x0a\\udc00", b"\\ud800\\", b'\x01"', b"\x00\x0a", b"\x1f\\"],
}
FINE = [b"", b"\\u0008\\t\\n\\u000c\\r", b"\\/", b"\x7f", b"[", b"]", b",", b"\\uD83D\\uDE00"]
FINE += [raw(c) for c in SAMPLE if c >= " " and c not in '"\\']
FINE += [b"\\u0000\x00", b"\\u001F\\u000B", raw(CONTROLS), raw(CONTROLS + "\x7f") * 3]


def string_parts():
    for row, faults in STRINGS.items():
        for fault in faults:
            yield from both(row, content=fault)
            yield (row, row), body_of({**BASE, "content": b"x" + fault})
            yield (row, row), event_of({**BASE, ("id", "sig")[len(fault) % 2]: b"a" + fault})
            yield (row, row), body_of({**BASE, "pubkey": fault + A.encode() if row != 5 else A[1:].encode() + fault})
    for said in FINE:
        yield from both(0, content=said)
    # A part that cuts a character or an escape in two, or takes its quote along.
    for cut in ("é", "€", "😀", "\\n", "\\u00e9"):
        good = Lent({name: {**BASE, "content": raw("x" + cut + "y")}[name] for name in BODY})
        start, length = good.parts["content"]
        for first in range(length + 2):
            for size in range(length + 2 - first):
                yield None, good.but(content=(start - 1 + first, size)).body()


def hex_parts():
    rng = random.Random(2)
    for name, length in (("id", 64), ("pubkey", 64), ("sig", 128)):
        good = hexes(rng, length)
        for c in "gG/:@`AFZ xé０\x7f":
            for at in (0, length // 2, length - 1):
                yield from both(7, **{name: raw(good[:at] + c + good[at + 1 :])})
        for size in (0, 1, 32, 63, 65, 66, 127, 129, 192 - length):
            yield from both(7, **{name: b"0" * size})
        for c in ("\\n", "\\u0041", "\\u0067", "\\/", "\\\\"):
            yield from both(7, **{name: raw(good[1:] + c)})
        yield from both(0, **{name: inner(escaped(rng, good))})


def number_parts():
    ends = [MAX_TIME, MAX_TIME + 1, 2**63 - 1, 2**62, 2**54, 10**16]
    for time in TIMES + ends + [-t for t in ends] + [-(2**63)]:
        yield from each(0 if abs(time) <= MAX_TIME else 6, created_at=time)
        if abs(time) <= MAX_TIME:
            yield (0, 0), event_of(values_of(made(created_at=time)))
    more = [65534, 65536, 65537, 131071, 2**31, 2**32, 2**32 + 1, 2**53, 2**63 - 1, 2**63 - 65536]
    for kind in KINDS + more + [-1, -2, -65535, -65536, -(2**31), 1 - 2**32, -(2**63), 1 - 2**63]:
        yield from each(0 if 0 <= kind <= 65535 else 6, kind=kind)


TAGS = {
    2: ['[["\udcff"]]', '[["a","\udcc0\udc80"]]', '["\udcff"]', '{"\udcff":1}', '"\udcff"', '[["\udced\udca0\udc80"]]'],
    4: ['[["\\ud800"]]', '[["a","\\u0000\\udc00"]]', '["\\udc00"]', '{"\\ud800":1}', '"\x1f\\ud800"', '[[],["\\u000b\\udfff"]]',
        '[[["\\ud800"]]]', '[["\x01","\\ud800"]]', '[["\\ud83d\x00\\ude00"]]', '{"\x00":"\\ud800"}'],
    5: [" []", "\n[]", "{}", '{"a":[]}', '"x"', "1", "-", "true", "null", "nul", "]", "[", "[[]", "[[],", "[[],]",
        "[,]"]
    + ["[1]", '["a"]', "[[1]]", '[["a",null]]', '[["a"],{}]', '[["a"],"b"]', "[[[]]]", '[["a" "b"]]', '[["a"];["b"]]']
    + ['[["\x08"]]', '[["\n"]]', '"\\u001f"', '"\x1f"', '{"\x01":"\x02"}']
    + ['[["a]]', '[["\\x"]]', '[["\\u12"]]', '[["\\u004g"]]', "[" * 9 + "]" * 9,
        "[" * 8 + "]" * 8]
    + ["[01]", "[\x0c]", "[\x00]", "[\xa0]", "\ufeff[]", '[["a"]\x0b]', "[ [ ] , 1 ]"],
    8: ["[[]]", '[[],["\\u000b"]]', '[[],["\x0b"]]']
    + ['[["a"],[]]', "[[] ]", "[ [ ] ]", many("[]", 65), many('["t"]', 65), many('["t"]', 300)]
    + ["[%s]" % many('"s"', 17), "[%s]" % many('"s"', 100), '[["a"],%s]' % many('""', 17)],
    0: ["[]", "[ ]", "[\n]", '[["a"]]', '[\n[\t"a"\r,\n"b" ]\n,["c"]\n]\n', many('["t"]', 64), "[]]]]", "[] x",
        "[]\udcff"]
    + ["[%s]" % many('"s"', 16), many(many('""', 16), 64), '[["\\u0064","\\/"]]',
        '[["\\u0008\\u0009\\u000a\\u000c\\u000d\x7f"]]', '[["a","\\u0000"]]', '[["\x01"]]', '[["%s","\\u001F"]]' % CONTROLS],
}


def tag_parts():
    for row, texts in TAGS.items():
        for text in texts:
            yield from (each if len(text) < 30 else both)(row, tags=raw(text))
    values = values_of(made(tags=[["d", "[]"], ["e"]]))
    good = Lent({name: values[name] for name in BODY})
    for place in range(60, len(good.buffer) + 2):
        yield None, good.but(tags=place).body()


# Two parts that break a row each: the lower row is given.

PAIR_FAULTS = [(name, row, fault) for name in STRING_PARTS for row, fault in ((2, b"\xff"), (4, b"\\ud800"), (5, b'"'))]
PAIR_FAULTS += [(name, 7, b"A" * length) for name, length in (("id", 64), ("pubkey", 64), ("sig", 128))]
PAIR_FAULTS += [("tags", 2, b'[["\xff"]]'), ("tags", 4, b'[["\\u0000\x00\\ud800"]]'), ("tags", 5, b'["a"]'), ("tags", 8, b"[[]]")]
PAIR_FAULTS += [("created_at", 6, MAX_TIME + 1), ("created_at", 6, -(2**63)), ("kind", 6, -1), ("kind", 6, 65536)]
PAIR_OUTSIDE = [(name, (LAST, LAST)) for name in STRING_PARTS] + [("tags", LAST)]


def pair_parts():
    for name, row, fault in PAIR_FAULTS:
        for other, other_row, other_fault in PAIR_FAULTS:
            if name < other:
                yield from both(min(row, other_row), **{name: fault, other: other_fault})
        for other, away in PAIR_OUTSIDE:
            if name != other:
                low = min(row, 5)
                yield (low, low), Lent({**BASE, name: fault}).but(**{other: away}).event()
    # Rows 2 to 8 beside 9 and 13.
    for name, row, fault in PAIR_FAULTS[3::4]:
        yield (row, row), event_of({**BASE, "content": b"x" * 4017, name: fault})
        if name in BODY:
            yield (row, row), body_of({**BASE, name: fault}, 0)


# A filter lent as parts.

HEXES = {
    0: [many(plain(A), 1), '[\n"%s" , "%s"\t]' % (A, "0" * 64), '["%s"]' % ("\\u0061" * 64), "[%s]]" % plain(A),
        many(plain(A), 16)],
    2: ['["\udcff"]', '"\udcff"', '["%s","\udcc3"]' % A],
    4: ['["\\ud800"]', '["%s\x00\\ud800"]' % A, '{"\\ud800":1}', '"\\udc00"'],
    5: ["", "{}", '"x"', "1", "null", "[1]", "[[]]", "[null]", "[%s,1]" % plain(A), "[%s" % plain(A),
        "[%s,]" % plain(A), ' ["x"]']
    + ['["x\x09"]', '["\\x"]', "[" * 9 + "]" * 9],
    7: ['[""]', '["x\x01"]', '["%s\\u0000"]' % A, '["%s\x00"]' % A[1:]]
    + ['["%s"]' % A[1:], '["%sa"]' % A, '["%s"]' % A.upper(), '["%s",""]' % A, '["%s"]' % SIG]
    + ['["%s"]' % (A[:-1] + c) for c in "gG/:@`"],
    8: ["[]", "[ ]", "[\n]", many(plain(A), 17)],
}
SEVENTEEN = {row: "[" + (plain(A) + ",") * 16 + last + "]" for row, last in {4: '"\x01\\ud800"', 5: "{}", 7: '"\x01"'}.items()}
SMALLS = {
    0: ["[0]", "[65535]", "[ 1\n,2]", many("1", 16), "[1]1"],
    2: ['["\udcff"]', '"\udcff"'],
    4: ['["\\ud800"]', '{"\\u0000\\ud800":[]}', '[1,"\x00\\ud800"]'],
    5: ["", "{}", '{"\\u0000":[]}', '["\x01"]']
    + ['["1"]', "[null]", "1", "[1", "[01]", "[+1]", "[1.]", "[.5]", "[1,]", "[-]", "[1,[]]",
        many("1", 16)[:-1] + ",true]", " [1]"],
    6: ["[-1]", "[-0]", "[65536]", "[1.0]", "[1e3]", "[0e0]", "[1,65536]", "[99999999999999999999]",
        many("1", 16)[:-1] + ",-0]"]
    + ["[%d]" % n for n in (2**31, 2**32, 2**32 + 1, 2**63, 2**64, 2**64 + 1, 2**128)]
    + ["[%s]" % ("9" * 400)],
    8: ["[]", "[ ]", many("1", 17), many("65535", 100)],
}
CONDITIONS = {
    0: ["{}", "{ }", "{\n}", '{"#a":["v"]}', '{"#t":[""],"#E":["v","w"]}', '{"\\u0023\\u0061" :\n["v"]}', "{}}", "{}x"]
    + ['{"ids":["%s"],"kinds":[1],"limit":0,"since":-1,"until":1}' % A, '{"authors":["%s"],"#a":%s}' % (A,
        many('""', 16))]
    + ['{"#a":["v"],"#b":["v"],"#c":["v"],"#d":["v"]}']
    + ['{"%s":["%s"],"#E":["v"],"#P":[""]}' % (name, A) for name in ("#e", "#p", "#\\u0065", "\\u0023\\u0070")]
    + ['{"#e":["%s"]}' % ("\\u0061" * 64), '{"#p":%s}' % many(plain(A), 16)]
    + ['{"#a":["\x02"]}', '{"#a":["%s","\\u0002"]}' % CONTROLS],
    2: ['{"#a":["\udcff"]}', '{"\udcff":1}', '"\udcff"', '["\udcff"]'],
    4: ['{"#a":["\\ud800"]}', '{"\\ud800":1}', '{"x":"\x00\\ud800"}', '["\x01\\udc00"]']
    + ['{"#a":["\x02"],"#\\u0000\\ud800":["v"]}'],
    5: ["", "[]", '"x"', "1", "null", "{", "}", '{"#a"}', '{"#a":}', '{"#a":[]', '{"#a":"v"}', '{"#a":[1]}',
        '{"#ab":["v"]}', '{"#":["v"]}']
    + ['{"#1":["v"]}', '{"a":["v"]}', '{"x":1}', '{"":1}', '{"#a":["v"],"#a":["v"]}', '{"#a":["v"],"#\\u0061":["w"]}',
        " {}"]
    + ['{"ids":["%s"],"\\u0069ds":["%s"]}' % (A, A), '{"\\u0069ds":["%s"],"ids":["%s"]}' % (A, A),
        '{"limit":1,"limit":1}']
    + ['{"limit":1,"\\u006cimit":1}', '{"since":"1"}', '{"kinds":["1"]}', '{"id":["%s"]}' % A,
        '{"\\u0069d":["%s"]}' % A, '{"#a":["v"],}']
    + ['{"x":"\\u0000"}', '["\\u0001"]', '{"#a":["v"],"#\\u0000":["v"]}', '{"\x00":["v"]}', '{"#\x01":["v"]}', '{"#a\x01":["v"]}']
    + ['{"#a":["v"] "#b":["v"]}', '{"#a":["\x0a"]}', '{"#a":[[]]}', '{"#é":["v"]}', '{"#[":["v"]}', '{"#@":["v"]}',
        '{"#`":["v"]}', '{"#{":["v"]}'],
    6: ['{"limit":-1}', '{"limit":65536}', '{"since":-0}', '{"until":1e3}', '{"kinds":[65536]}',
        '{"since":9007199254740992}', '{"#a":[],"limit":1.0}'],
    7: ['{"ids":[""]}', '{"authors":["%s"]}' % A.upper(), '{"#a":[],"ids":["x"]}']
    + ['{"%s":["%s"]}' % (name, wrong) for name in ("#e", "#p", "#\\u0065", "\\u0023\\u0070") for wrong in ("", "x", A[1:], A + "a", A.upper())]
    + ['{"#e":["%s","x"]}' % A, '{"#p":["x","%s"]}' % A, '{"#e":%s}' % many('"x"', 17), '{"#e":[],"#p":["x"]}']
    + ['{"#p":[' + (plain(A) + ",") * 16 + '"x"]}', '{"#a":["v"],"#b":["v"],"#c":["v"],"#d":["v"],"#e":["v"]}'],
    8: ['{"#a":[]}', '{"#a":%s}' % many('"v"', 17), '{"kinds":[]}', '{"ids":[]}',
        '{"#a":["v"],"#b":["v"],"#c":["v"],"#d":["v"],"#f":["v"]}', '{"#e":[]}', '{"#p":[]}', '{"#e":%s}' % many(plain(A), 17)],
}
VALUES = {"ids": HEXES, "authors": HEXES, "kinds": SMALLS, "conditions": CONDITIONS}
BOUNDS = {
    name: {
        0: [0, 1, 65534, 65535] + ([-1, MAX_TIME, -MAX_TIME] if name != "limit" else []),
        6: [MAX_TIME + 1, -MAX_TIME - 1, 2**63 - 1, -(2**63),
            2**62] + ([-1, 65536, MAX_TIME, -(2**32)] if name == "limit" else []),
    }
    for name in ("since", "until", "limit")
}


def filter_of(**values):
    return Lent({name: raw(value) if isinstance(value, str) else value for name, value in values.items()})


def filter_parts():
    yield (0,), Lent({}).filter()
    good = dict(ids=HEXES[0][0], kinds="[1]", since=1, conditions="{}")
    full = filter_of(**{**good, "authors": '["%s"]' % ("0" * 64), "until": 0, "limit": 0, "conditions": '{"#a":["v"]}'})
    yield (0,), full.filter()
    size = len(full.buffer)
    for name, choices in VALUES.items():
        for row, texts in choices.items():
            for at, text in enumerate(texts):
                yield (row,), filter_of(**({**good, name: text} if at % 2 else {name: text})).filter()
        for place in (size - 1, size, size + 1, 2**32, 2**63, TWO_64 - size, LAST - 1, LAST):
            yield (5,), full.but(**{name: place}).filter()
        for place in range(0, size + 2, 7):
            yield None, full.but(**{name: place}).filter()
    for row, text in SEVENTEEN.items():
        yield (row,), filter_of(ids=text).filter()
        yield (row,), filter_of(authors=text).filter()
    for name, choices in BOUNDS.items():
        for row, numbers in choices.items():
            for n in numbers:
                yield (row,), filter_of(**{name: n}).filter()
    # Every two parts, every two rows.
    every = {**VALUES, **BOUNDS}
    for name in FILTER_PARTS:
        for other in FILTER_PARTS:
            if name < other:
                for row, texts in every[name].items():
                    for other_row, other_texts in every[other].items():
                        low = min((r for r in (row, other_row) if r), default=0)
                        yield (low,), filter_of(**{name: texts[1], other: other_texts[0]}).filter()


# 02, Wish 3: control characters in lent strings, raw and spelled.


def control_parts():
    """Each of the 32, raw: those with a short escape are 5, the others stand for themselves; spelled, all of them do."""
    for c in BELOW:
        byte, bad, space = raw(c), c not in CONTROLS, c in "\t\n\r"
        no, in_hex, beside = (5, 5, 5) if bad else (0, 7, 4)
        yield from both(no, content=byte)
        yield from both(no, content=b"x" + byte * 2 + b"y", tags=b'[["' + byte + b'"]]')
        yield from both(no, tags=b'[["d","x' + byte + b'y","' + byte + b'"],["' + byte + b'"]]', kind=30000)
        yield from both(beside, content=byte + b"\\ud800")
        yield from both(beside, tags=b'[["\\udc00' + byte + b'"]]')
        yield from both(5, content=byte + b'"')
        yield from both(5, tags=b'[["' + byte + b'""]]')
        yield from both(2, content=byte + b"\xff")
        yield from both(in_hex, pubkey=byte + A.encode()[1:])
        yield from both(in_hex, **{("id", "sig")[ord(c) % 2]: A.encode()[1:] + byte})
        yield (in_hex,), filter_of(ids='["%s%s"]' % (A[1:], c)).filter()
        yield (beside,), filter_of(authors='["%s","%s\\ud800"]' % (A, c)).filter()
        yield (5,), filter_of(kinds='["%s"]' % c).filter()
        yield (no,), filter_of(conditions='{"#t":["x","%sx"],"#E":["x%s"]}' % (c, c)).filter()
        yield (in_hex,), filter_of(conditions='{"#e":["%s%s"]}' % (A[1:], c)).filter()
        yield (beside,), filter_of(conditions='{"#t":["\\ud800","%s"]}' % c).filter()
        for name in (c, "#" + c, "#t" + c):
            yield (5,), filter_of(conditions='{"%s":["x"]}' % name).filter()
        # Outside a string it is white space or nothing, and no value begins with it.
        outside = 0 if space else 5
        for text in ('[_["a"]]', '[["a"_]]', '[["a"],_["b"]]', "[_]"):
            yield from both(outside, tags=raw(text.replace("_", c)))
        for text in ('{_"#t":["a"]}', '{"#t"_:["a"]}', '{"#t":["a"_]}'):
            yield (outside,), filter_of(conditions=text.replace("_", c)).filter()
        yield (outside,), filter_of(kinds="[1%s]" % c).filter()
        yield from both(5, tags=byte + b"[]")
        yield from both(0, tags=b"[]" + byte)
        yield (5,), filter_of(conditions=c + "{}").filter()
        for s in map(raw, u_escapes(c)):
            yield from both(0, content=s, tags=b'[["' + s + b'","x' + s + b'"]]')
            yield from both(4, content=s + b"\\udfff")
            yield (0,), spelled(b"F", b'{"#t":["' + s + b'"]}', [None] * 6 + [0])
            if not bad:
                yield from both(4, content=byte + s + byte, tags=b'[["' + byte + s + b'\\ud800"]]')


def control_texts():
    """A text that has them raw, its pubkey, tags and content lent again as they stand; into rooms as long as it, and one byte less."""
    for fields in good_events():
        if not any(c in CONTROLS for s in [fields["content"], *sum(fields["tags"], [])] for c in s):
            continue
        text, end = text_of(fields), len(text_of({**fields, "content": ""})) - 2
        tags, size = text.index(b",[") + 1, len(text) - 2 - end
        numbers = [4, 64, int(fields["created_at"]), int(fields["kind"]), tags, end, size]
        for room in (len(text), len(text) - 1, len(text) + 1):
            yield (0, 0, None, 13 if room < len(text) else 0), spelled(b"B", text, numbers + [room])
        ends = id_of(fields).encode() + SIG.encode()
        yield (0, 0), spelled(b"E", text + ends, [len(text), 64] + numbers + [len(text) + 64, 128])
        yield (0, 0), event_of(values_of(fields, verbatim))
    # One byte each: 4,016 of them fill a text, raw and spelled.
    for extra in (0, 1):
        for c in "\x00\x01":
            large = made(content=c * (4016 + extra))
            for string in (plain, verbatim):
                yield (0, 9 * extra), event_of(values_of(large, string))
            yield (0, 9 * extra), body_of(values_of(large, verbatim), 4096 - extra)
        large = made(tags=[["t", "\x1f" * (4016 - 8 + extra)]])
        yield (0, 9 * extra, None, 9 if extra else 13), body_of(values_of(large, verbatim), 4095)
        yield (0, 9 * extra), body_of(values_of(large, plain), 4096)


def buffer_ends():
    """A string, a list or an object that the buffer's end cuts off is none; nothing stands behind the end."""
    for c in ("", "\x00", "\x01", "\x1f", "\x7f", "\x00\x00\x00", "x\x00", "\x00x" * 20, "x" * 31 + "\x00", "x" * 32 + "\x00"):
        whole = A + '[["t","%s"]]' % c
        for cut in range(7):
            buffer = raw(whole[: len(whole) - cut])
            yield (5, 5) if cut else (0, 0), spelled(b"B", buffer, [0, 64, 0, 1, 64, 0, 0, 200])
        for at, whole in ((0, '["%s","%s"]' % (A, c)), (6, '{"#t":["%s"]}' % c), (6, '{"%s":1}' % c)):
            for cut in range(6):
                buffer = raw(whole[: len(whole) - cut])
                places = [None] * 7
                places[at] = 0
                yield (5 if cut or whole[-2] == "1" else 0 if at else 7,), spelled(b"F", buffer, places)
        # A string part may reach the end, and has no quote behind it.
        buffer = raw(A + "[]" + c)
        for size in range(max(len(c) - 1, 0), len(c) + 2):
            yield (5, 5) if size > len(c) else (0, 0), spelled(b"B", buffer, [0, 64, 0, 1, 64, 66, size, 200])
    texts = ['"', '["', '[["', '["a', '[["a"', '[["\x00', '[["a","\x00', "\x00", "[\x00", "[[\x00"]
    for text in texts + ['{"\x00', '{"#t":"\x00', "{\x00"]:
        yield (5, 5), spelled(b"B", raw(A + text), [0, 64, 0, 1, 64, 0, 0, 200])
        yield (5,), spelled(b"F", raw(text), [0] + [None] * 6)
        yield (5,), spelled(b"F", raw(text), [None] * 6 + [0])


def random_parts(rng):
    """Good parts with a number changed by little, or a byte of the buffer damaged."""
    events = [f for f in good_events() if len(text_of(f)) < 400]
    for _ in range(260):
        parts = Lent(values_of(rng.choice(events), rng.choice([plain, verbatim, lambda s: spell(rng, s, True)])))
        name = rng.choice(["id", "pubkey", "tags", "content", "sig"])
        part = parts.parts[name]
        by = rng.choice([-2, -1, 1, 2])
        if name == "tags":
            moved = max(part + by, 0)
        else:
            start, length = max(part[0] + by, 0), max(part[1] + by, 0)
            moved = rng.choice([(start, part[1]), (part[0], length), (start, max(part[1] - by, 0))])
        wrong = parts.but(**{name: moved})
        yield rng.choice([wrong.event(), wrong.body()])
        parts.buffer = damaged(rng, parts.buffer)
        yield rng.choice([parts.event(), parts.body()])
    texts = {name: [t for row in choices.values() for t in row] for name, choices in VALUES.items()}
    for _ in range(240):
        chosen = {name: rng.choice(texts[name]) for name in rng.sample(list(texts), rng.randrange(1, 4))}
        parts = filter_of(**{name: text for name, text in chosen.items() if len(text) < 300})
        parts.buffer = damaged(rng, parts.buffer)
        yield parts.filter()


# Messages, 0A among their white space; what a refusal names.


def message(line):
    return spelled(b"M", line, [])


def newlines(line):
    """0A wherever white space may stand around the signs of a text that has none in its strings."""
    for sign in "[]{}:,":
        line = line.replace(sign, "\n" + sign + "\n")
    return line


def messages():
    wanted = [(row, text, len(unmarked(text))) for row, text in cases_message.labelled()]
    for at, (row, text, length) in enumerate(one for one in wanted if one[2] < 600):
        if at % 19 == 0 or length < 100 and row in (0, 6, 7, 8) and at % 4 == 0:
            yield (None, said(row, text)), message(raw(text))
    for row, text in ((0, event_with()), (0, req("{}")), (0, '["CLOSE","s"]'), (6, event_with(kind="⑥65536")),
            (8, req()), (5, "{}"), (5, "[]")):
        for spread in (newlines(text), "\n" + text + "\n\n"):
            yield (0, said(row, spread)), message(raw(spread))
    for row, text in ((3, '["CLOSE","\n"]'), (3, '["CLOSE\n","s"]'), (3, '["CLOSE","s"\\n]'), (3, '["CLOSE","\\\n"]'),
            (3, "\n"), (3, "\n\n"), (0, '[\n"CLOSE"\n,\n"s"\n]\n')):
        yield (None, row), message(raw(text))
    # Every byte where white space may stand, after a backslash, raw in a string and as a digit of an escape.
    for byte in range(256):
        for form in (b'%s["CLOSE","s"]', b'[%s"CLOSE","s"]', b'["CLOSE"%s,"s"]', b'["CLOSE","s"]%s',
                b'["REQ","s",{"limit"%s:1}]'):
            yield None, message(form % bytes([byte]))
        for form in (b'["CLOSE","%s"]', b'["CLOSE","\\%s"]', b'["CLOSE","\\u00%s1"]', b'["CLOSE","\\u006%s"]',
                b'["REQ","s",{"limit":%s}]'):
            yield None, message(form % bytes([byte]))
    # Bounds of a subscription id, in characters; what a REQ and an EVENT of any row name.
    for c in ("\xff", "\u07ff", "\u0800", "\uffff", "\U00010000", "\U0010ffff", "\x7f", "\x80", "\\u00ff",
            "\\ud83d\\ude00", "\\n", "\\u0000", "\\u001F"):
        for count in (1, 64, 65):
            sub = '"%s"' % (c * count)
            for row, filters in ((0, ["{}"]), (6, ['{"limit":-0}']), (7, ['{"ids":[""]}']), (8, [])):
                yield None, message(raw(req(*filters, sub=sub)))
            yield (0, 0 if count < 65 else 8), message(raw('["CLOSE",%s]' % sub))
    for _, sub in SUB_FAULTS:
        for field in ('"limit":-1', '"kinds":[]', '"authors":["x"]', '"x":1'):
            yield None, message(raw(req("{%s}" % field, sub=sub)))
    ids = [GOOD["id"], plain(A.upper()), plain(A[1:]), '""', '"%s"' % ("\\u0061" * 64), '"\\u0061%s"' % A[1:],
        plain(A[:-1] + "g"), "1"]
    for spelled_id in ids:
        for name, value in (("kind", "65536"), ("created_at", "-0"), ("sig", '""'), ("pubkey", '""'), ("tags", "[[]]"),
                ("kind", "1")):
            fields = {**GOOD, "id": spelled_id, name: value}
            order = list(fields)
            for names in (order, order[::-1]):
                inner = ",".join('"%s":%s' % (n.replace("id", "\\u0069d"), fields[n]) for n in names)
                yield None, message(raw('["EVENT",{%s}]' % inner))
    # As many bytes as a message has, or one more, with the parts behind them.
    for row, text in ((0, event_with()), (0, req('{"limit":1,"ids":["%s"]}' % A)), (0, '["CLOSE","s"]'), (6, event_with(kind="⑥-0")),
            (7, req('{"authors":[⑦""]}')), (8, '["CLOSE",""]'), (5, "{}"), (4, '["CLOSE","\\ud800"]')):
        for extra in (0, 1):
            padded = "\n" * (MESSAGE_BYTES - len(raw(text)) + extra) + text
            rows = (1, 1) if extra else (4 if row == 4 else 0, said(row, padded))
            yield rows, message(raw(padded))
    for size in (8193, 16000):
        yield (0, 0), message(raw(event_with(content='"%s"' % ("x" * size)).replace('"id"', " " * 40 + '"id"')))
        yield (0, 8), message(raw(req("{}", sub='"%s"' % ("x" * size))))
        yield (0, said(6, event_with(created_at="⑥"))), message(raw(event_with(created_at="9" * size)))
    # 02, Wish 9: places, 0A before them too.
    for row, text in cases_offset.short()[::5]:
        yield (None, said(row, text)), message(raw(text))
    for text in list(cases_offset.filter_orders())[::9] + list(cases_offset.event_orders())[::9]:
        spread, row = newlines(text), cases_offset.row_in(text)
        yield (0, said(row, spread)), message(raw(spread))


# Order, class, texts, fields, digests.


def orders():
    times = [0, -1, 1, -7200, 2**63 - 1, -(2**63), MAX_TIME, -MAX_TIME, 2**32, -(2**32)]
    low, high = bytes(31) + b"\x01", bytes(31) + b"\x02"
    yield (b"not",), spelled(b"N", low + high, [32, -1, 0])
    yield (b"newer",), spelled(b"N", low + high, [32, 0, 0])
    yield (b"not",), spelled(b"N", high + low, [32, 0, 0])
    rng = random.Random(3)
    ids = [bytes(32), b"\xff" * 32, b"\x7f" + bytes(31), b"\x80" + bytes(31), b"\x00" * 16 + b"\x01" * 16,
        rng.randbytes(32)]
    for time in times:
        for other in times:
            for first, second in ((ids[0], ids[1]), (ids[3], ids[2])):
                yield None, spelled(b"N", first + second, [32, time, other])
    for first in ids + [low, high]:
        for second in ids + [low, high]:
            yield None, spelled(b"N", first + second, [32, 5, 5])
    for at in range(32):
        yield (b"newer",), spelled(b"N", bytes(32) + bytes(at) + b"\x80" + bytes(31 - at), [32, -3, -3])
        yield (b"not",), spelled(b"N",
            bytes(at) + b"\x01" + bytes(31 - at) + bytes(at) + b"\x00" + b"\xff" * (31 - at), [32, 7, 7])


def kinds():
    near = [k + by for k in (0, 3, 45, 1000, 10000, 20000, 30000, 40000, 65536) for by in range(-3, 4)]
    near += [2**p + by for p in range(17) for by in (-1, 0, 1)] + list(range(50)) + list(range(500, 65536, 777))
    for kind in sorted(set(k for k in near if 0 <= k <= 65535)):
        yield None, spelled(b"K", b"", [kind])


D_TAGS = [
    [["d"]],
    [["d", ""]],
    [],
    [["d", "a"]],
    [["d", ""], ["d", "a"]],
    [["d"], ["d", "a"]],
    [["e", "x"], ["d", "a", "b"], ["d", "c"]],
    [["D", "a"]],
    [["dd", "a"]],
    [["", "a"], ["d", "b"]],
    [["d", '\n"\\\r\t\b\f']],
    [["d", "é€😀\x7f"]],
    [["d\n", "x"], ["d", "y"]],
    [["t", "d"], ["d", '"],["d","z']],
    [["x", "d", "e"], ["d", "\\u0064"]],
    [['d"', "a"], ["d", "a" * 300]],
    [["t", "u"]] * 63 + [["d", "end"]],
    [["é", "\n"], ["d", "after"]],
    [["d", "/"]],
    [["d", BELOW + "\x7f"]],
    [["\x00", "x"], ["d\x00", "x"], ["d", "\x00"]],
    [["d", "\x1f\x01"], ["d", "a"]],
]


def texts():
    for tags in D_TAGS:
        for kind in (0, 1, 30000, 39999):
            yield (0,), spelled(b"T", text_of(made(kind=kind, tags=tags)), [])
    for fields in good_events():
        yield (0,), spelled(b"T", text_of(fields), [])
    for row, line in list(text_borders())[1:36:6]:
        yield (row,), spelled(b"T", raw(line[2:]), [])
    base = text_of(made(kind=30000, tags=[["d", "a\n"]], content="x"))
    for at in range(len(base)):
        for byte in (b"\n", b"", b"\xff") + (b"\x00",) * (at % 2):
            yield None, spelled(b"T", base[:at] + byte + base[at + 1 :], [])
    for c in BELOW:
        yield (0 if c in CONTROLS else 5,), spelled(b"T", base.replace(b'"x"', raw('"%s"' % c)), [])
        yield (0 if c in CONTROLS else 5,), spelled(b"T", base.replace(b'"a\\', raw('"%sa\\' % c)), [])
        yield (5,), spelled(b"T", base.replace(b'",', raw('"%s,' % c)), [])
        for s in map(raw, u_escapes(c)):
            yield (5,), spelled(b"T", base.replace(b'"x"', b'"' + s + b'"'), [])
            yield (5,), spelled(b"T", base.replace(b'"a\\', b'"' + s + b"\\"), [])
    yield (5,), spelled(b"T", b"", [])
    yield (5,), spelled(b"T", base + b"\n", [])
    yield (5,), spelled(b"T", b"\n" + base, [])
    # The same event in other spellings is no text.
    for other in (base.replace(b",", b", "), base.replace(b"\\n", b"\\u000a"), base.replace(b'"x"', b'"\\u0078"'),
            base.replace(b"[0,", b"[-0,")):
        yield (5,), spelled(b"T", other, [])


def fields():
    rng = random.Random(4)
    numbers = [0, 1, 255, 256, 65535, 65536, 4208, 2**31, 2**32 - 1, 2**32, 2**63 - 1, 2**63, 2**63 + 1, LAST - 7199,
        LAST - 1, LAST]
    numbers += [2**53 - 1, TWO_64 - 2**53 + 1, 0x0102030405060708,
        0x8070605040302010] + [rng.randrange(TWO_64) for _ in range(20)]
    for n in numbers:
        for width in range(11):
            yield None, spelled(b"L", b"\xaa" * 14, [rng.randrange(4), width, n])
    for at in (0, 1, 7, 8, 9, 12, 13, 14, 15, 16, 2**32, 2**63, LAST - 7, LAST):
        for width in (0, 1, 2, 8, 9, 100, 2**32, LAST - 8, LAST):
            yield None, spelled(b"L", rng.randbytes(13), [at, width, rng.randrange(TWO_64)])
    yield None, spelled(b"L", b"", [0, 8, LAST])


# FIPS 180-4 examples: one million times `a`.
MILLION = "cdc76e5c9914fb9281a1c7e284d73e67f1809a48a497200e046d39ccc7112cd0"


def digests():
    rng = random.Random(5)
    yield (MILLION.encode(),), spelled(b"D", b"a" * 1000, [1000])
    for size, times in ((8193, 1), (16400, 1), (1, 8193), (63, 200), (64, 129), (65, 130), (4097, 3), (55, 300),
            (56, 299)):
        yield None, spelled(b"D", rng.randbytes(size), [times])
    yield (sha256(b"").encode(),), spelled(b"D", b"", [0])
    yield (sha256(b"").encode(),), spelled(b"D", b"", [1000])
    yield (sha256(b"").encode(),), spelled(b"D", b"abc", [0])


def labelled():
    for part in (good_parts, outside_parts, string_parts, hex_parts, number_parts, tag_parts, pair_parts, filter_parts):
        yield from part()
    for part in (control_parts, control_texts, buffer_ends):
        yield from part()
    for part in (messages, orders, kinds, texts, fields, digests):
        yield from part()


def lines():
    out = [line for _, line in labelled()] + list(random_parts(random.Random(6)))
    long = spelled(b"M", b'["CLOSE","s"]' + b" " * 32753, [])
    return out + [long, long + b"00", spelled(b"K", b"", [30000])]
