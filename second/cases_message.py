"""Lines for message_cases. Those whose row is plain from how they are made stand with it: (row, text), the text marked where
rows 6 and 7 are broken.
"""

import random
from itertools import product

from rows import LETTERS, MESSAGE_BYTES
from spell import BELOW, SAMPLE, WIDE, damaged, escaped, hexes, joined, plain, raw, space, spell, u_escapes, words

A = "a" * 64
GOOD = {  # an event's fields, as spelled
    "id": plain("0123456789abcdef" * 4),
    "pubkey": plain(A),
    "created_at": "0",
    "kind": "1",
    "tags": "[]",
    "content": '""',
    "sig": plain("b" * 128),
}
# A filter's lists, with a good member.
LISTS = {"ids": plain(A), "authors": plain(A), "kinds": "1", "#e": plain(A), "#p": plain(A), "#E": '"x"', "#t": '"x"'}
TYPES = {"string": '"x"', "number": "1", "array": "[]", "object": "{}", "true": "true", "false": "false"}
TYPES["null"] = "null"
EVENT_TYPES = {"created_at": "number", "kind": "number", "tags": "array"}


def members(pairs):
    return "{" + ",".join('"%s":%s' % pair for pair in pairs) + "}"


def event(pairs):
    return '["EVENT",%s]' % members(pairs)


def event_with(**fields):
    return event({**GOOD, **fields}.items())


def req(*filters, sub='"s"'):
    return "[" + ",".join(('"REQ"', sub) + filters) + "]"


def filter_with(name, value):
    return '{"%s":%s}' % (name, value)


def many(item, count):
    return "[" + ",".join([item] * count) + "]"


def u_first(name):
    """A name with its first character as an escape."""
    return "\\u%04x" % ord(name[0]) + name[1:]


# Shape.


def shapes():
    for text in TYPES.values():
        yield 5, text
        yield 5, "[%s]" % text
        yield 5, '[%s,"s"]' % text
        yield 5, "[%s,%s]" % (text, members(GOOD.items()))
        yield (0 if text == '"x"' else 5), '["CLOSE",%s]' % text
        yield (8 if text == '"x"' else 5), '["REQ",%s]' % text
        yield (0 if text == '"x"' else 5), '["REQ",%s,{}]' % text
        yield (0 if text == "{}" else 5), '["REQ","s",%s]' % text
        yield (0 if text == "{}" else 5), '["REQ","s",{},%s]' % text
        yield (0 if text == "{}" else 5), '["REQ","s",%s,{}]' % text
        yield 5, '["EVENT",%s]' % text
        yield 5, '["EVENT",%s,%s]' % (members(GOOD.items()), text)
        yield 5, '["EVENT",%s,%s]' % (text, members(GOOD.items()))
        yield 5, '["CLOSE","s",%s]' % text
    for word in ["", "EVENT ", " EVENT"] + "event Event EVENTS EVEN OK EOSE NOTICE CLOSED AUTH COUNT ÉVENT".split():
        yield 5, '["%s",%s]' % (word, members(GOOD.items()))
    for word in ["req", "RE", "REQS", "REQ ", "CLOS", "CLOSED", "close", "EVENT", "CLOSE", ""]:
        yield 5, '["%s","s",{}]' % word
    for word in ["REQ", "EVENT", "CLOSED", "close", "CLOS", "EOSE"]:
        yield (8 if word == "REQ" else 5), '["%s","s"]' % word
    yield 5, '["EVENT"]'
    yield 5, '["CLOSE"]'
    yield 5, '["CLOSE","s","s"]'
    yield 5, '["REQ",{}]'
    yield 5, '["REQ",["s"],{}]'
    yield 5, '["REQ","s",[{}]]'
    yield 5, '["REQ",{},"s"]'
    yield 5, '[["REQ","s",{}]]'
    yield 5, '{"REQ":"s"}'
    yield 5, '["EVENT","s",%s]' % members(GOOD.items())
    yield 5, '["EVENT",[%s]]' % members(GOOD.items())
    yield 0, event(GOOD.items()).replace("EVENT", "\\u0045VEN\\u0054")
    yield 0, '["R\\u0045Q","s",{}]'
    yield 0, '["\\u0043\\u004c\\u004f\\u0053\\u0045","s"]'
    yield 5, '["R\\u0065Q","s",{}]'
    yield 5, '["CLOSE\\u0000","s"]'
    yield 4, '["CLOSE\\u0000\\ud800","s"]'
    yield 3, '["CLOSE","s"'
    yield 3, '["CLOSE","s",]'
    yield 3, '["CLOSE" "s"]'
    yield 3, '\ufeff["CLOSE","s"]'
    yield 3, '["CLOSE",\xa0"s"]'
    yield 3, '["CLOSE",\x0c"s"]'
    yield 0, '\t[ "CLOSE"\r,\t"s" ] \r'
    yield 2, '["CLOSE","\udcff"]'
    yield 2, '["CLOSE","\udced\udca0\udc80"]'


def event_fields():
    pairs = list(GOOD.items())
    yield 0, event(pairs)
    yield 0, event(pairs[::-1])
    yield 5, event(pairs + [("x", "1")])
    yield 5, event([("", "1")] + pairs)
    yield 5, event(pairs + [("relay", '""')])
    yield 5, '["EVENT",{}]'
    for at, (name, value) in enumerate(pairs):
        others = pairs[:at] + pairs[at + 1 :]
        yield 0, event([(name, value)] + others)
        yield 0, event(others + [(name, value)])
        yield 0, event(others + [(u_first(name), value)])
        yield 0, event(others + [(escaped(random.Random(1), name)[1:-1], value)])
        yield 5, event(others)
        yield 5, event([(name, value)] + pairs)
        yield 5, event(pairs + [(name, value)])
        yield 5, event(pairs + [(u_first(name), value)])
        yield 5, event([(u_first(name), value)] + pairs)
        yield 5, event(pairs + [(name, "[1]")])
        yield 5, event(others + [others[0]])
        for wrong in (name.upper(), name[:-1], name + "s", name + " ", " " + name, "#" + name[0], name + "\\n", ""):
            yield 5, event(pairs[:at] + [(wrong, value)] + pairs[at + 1 :])
        yield 5, event(others + [(name + "\\u0000", value)])
        yield 4, event(others + [(name + "\\ud800", value)])
        for kind, other in TYPES.items():
            if kind != EVENT_TYPES.get(name, "string"):
                yield 5, event(pairs[:at] + [(name, other)] + pairs[at + 1 :])
    for other in TYPES.values():
        if other != "[]":
            yield 5, event_with(tags="[%s]" % other)
            yield 5, event_with(tags='[["a"],%s]' % other)
        if other != '"x"':
            yield 5, event_with(tags="[[%s]]" % other)
            yield 5, event_with(tags='[["a",%s],["b"]]' % other)


def filter_fields():
    names = {"ids": plain(A), "authors": plain(A), "kinds": "0", "since": "0", "until": "0", "limit": "0"}
    names.update({"#" + letter: plain(A) if letter in "ep" else '"v"' for letter in "AZazeEpPd"})
    for name, member in names.items():
        is_list = name[0] == "#" or name in LISTS
        value = "[%s]" % member if is_list else member
        yield 0, req(filter_with(name, value))
        yield 0, req(filter_with(u_first(name), value))
        yield 0, req("{}", filter_with(name, value), filter_with(name, value))
        yield 5, req('{"%s":%s,"%s":%s}' % (name, value, name, value))
        yield 5, req('{"%s":%s,"%s":%s}' % (name, value, u_first(name), value))
        yield 5, req('{"%s":%s,"x":0,"%s":%s}' % (u_first(name), value, name, value))
        yield 5, req(filter_with(name + "\\u0000", value))
        yield 4, req(filter_with(name + "\\ud800", value))
        for wrong in (name + "s", " " + name, name + " ", name[1:]):
            yield 5, req(filter_with(wrong, value))
        for kind, other in TYPES.items():
            if kind != ("array" if is_list else "number"):
                yield 5, req(filter_with(name, other))
            if is_list and kind != ("number" if member == "0" else "string"):
                yield 5, req(filter_with(name, "[%s]" % other))
                yield 5, req(filter_with(name, "[%s,%s]" % (member, other)))
                yield 5, req(filter_with(name, "[%s,%s]" % (other, member)))
    wrong_names = r"id IDS Authors kind tags search e # ## #ee #e# #1 #0 #9 #_ #- #é #@ #[ #` #{ #\u00e1 #\ud83d\ude00"
    for name in wrong_names.split():
        yield 5, req(filter_with(name, '["v"]'))
    for name in ["", "# ", "#e ", " #e", "\uff03e", "#\uff45", "#e\u0301"]:
        yield 5, req(filter_with(name, '["v"]'))
    yield 0, req(filter_with("\\u0023\\u0074", '["v"]'))
    yield 0, req('{"#t":["v"],"#T":["w"],"#d":[""],"#D":["",""]}')
    conditions = '"#z":["1"],"#a":["2"],"#Z":["3"],"#A":["4"]'
    yield 0, req('{%s,"limit":1,"until":2,"since":3,"kinds":[4],"authors":["%s"],"ids":["%s"]}' % (conditions, A, A))
    yield 5, req('{"#e":["v"],"#\\u0065":["w"]}')


# Numbers.

INTEGERS = [0, 1, 9, 10, 44, 999, 9999, 65534, 65535, 65536, 65537, 99999, 131071, 131072]
INTEGERS += [2**31, 2**32 - 1, 2**32, 2**32 + 1, 10**15, 2**53 - 2, 2**53 - 1, 2**53, 2**53 + 1]
INTEGERS += [10**16 - 1, 10**16, 10**17, 2**63 - 1, 2**63, 2**63 + 1]
INTEGERS += [2**64 - 1, 2**64, 2**64 + 1, 10**19, 10**20, 2**128, 2**128 + 1, 2**192 + 5, 2**256]
NOT_PLAIN = "-0 0.0 -0.0 1.0 1.5 65535.0 0e0 -0e0 0E+0 1e0 1e3 1E3 1e-3 10e-1 1e+2 0.1e1 0e999 1e400 1e-400 -1e0"
NOT_PLAIN = NOT_PLAIN.split()
NOT_JSON = "01 +1 1. .5 - 00 -00 -01 0x1 1_0 1e 1e+ NaN 0b1 １ --1".split()
TIME = 9007199254740991
NUMBER_FIELDS = {"created_at": TIME, "since": TIME, "until": TIME, "kind": 65535, "kinds": 65535, "limit": 65535}
LONG = ["1" + "0" * 400, "-" + "9" * 4000, "1" * 4301, "0." + "0" * 1000, "1e" + "0" * 500, str(2**64) * 20]


def number_line(name, spelled):
    if name in GOOD:
        return event_with(**{name: spelled})
    return req(filter_with(name, "[%s]" % spelled if name == "kinds" else spelled))


def numbers():
    for name, most in NUMBER_FIELDS.items():
        least = 0 if most == 65535 else -most
        for n in INTEGERS + [-n for n in INTEGERS if n]:
            yield (0, number_line(name, str(n))) if least <= n <= most else (6, number_line(name, "⑥%d" % n))
        for spelled in NOT_PLAIN:
            yield 6, number_line(name, "⑥" + spelled)
        for spelled in NOT_JSON:
            yield 3, number_line(name, spelled)
        for spelled in LONG + ["9" * 16000, "-" + "1" * 15999 + "0"]:
            yield 6, number_line(name, "⑥" + spelled)
        yield 3, number_line(name, "0" * 300)
        yield 3, number_line(name, "-0" + "0" * 300 + "1")
    yield 6, req('{"kinds":[1,2,⑥65536]}')
    yield 6, req('{"kinds":[⑥-0,1]}')
    yield 0, req('{"kinds":[0,65535,0,0]}')
    for digits in (7000, MESSAGE_BYTES - len(number_line("limit", ""))):
        yield 6, number_line("limit", "⑥" + "9" * digits)
    yield 1, number_line("limit", "9" * (digits + 1))
    yield 3, number_line("limit", "0" * digits)
    yield 6, number_line("limit", "⑥0." + "0" * (digits - 2))
    yield 6, number_line("limit", "⑥0e" + "0" * (digits - 2))


# Hex.


def hex_line(name, spelled):
    if name in GOOD:
        return event_with(**{name: spelled})
    return req(filter_with(name, "[%s]" % spelled))


def hex_strings():
    rng = random.Random(2)
    for name, length in {"id": 64, "pubkey": 64, "sig": 128, "ids": 64, "authors": 64, "#e": 64, "#p": 64}.items():
        good = hexes(rng, length - 2) + "af"
        yield 0, hex_line(name, plain(good))
        yield 0, hex_line(name, plain("0" * length))
        yield 0, hex_line(name, plain("f" * length))
        yield 0, hex_line(name, escaped(rng, good))
        yield 0, hex_line(name, plain(good)[:-2] + '\\u0066"')
        yield 0, hex_line(name, '"\\u0039' + good[1:] + '"')
        for other in (0, 1, 2, 32, length // 2, length - 1, length + 1, length + 2, length * 2, 192, 256):
            if other != length:
                yield 7, hex_line(name, "⑦" + plain("0" * other))
        for c in "ABFGg`/:@Zxé€😀０":
            for at in (0, length // 2, length - 1):
                yield 7, hex_line(name, "⑦" + plain(good[:at] + c + good[at + 1 :]))
        for c in ["\\n", "\\/", '\\"', "\\u0041", "\\u0067", "\\u0047", " ", "\x7f"]:
            yield 7, hex_line(name, '⑦"' + good[:-1] + c + '"')
        yield 7, hex_line(name, "⑦" + plain(good.upper()))
        yield 7, hex_line(name, "⑦" + plain("é" * (length // 2)))
        yield 7, hex_line(name, "⑦" + plain("0x" + good[2:]))
        yield 7, hex_line(name, "⑦" + plain(" " + good))
        yield 7, hex_line(name, "⑦" + plain(good + " "))
        yield 7, hex_line(name, '⑦"' + good[:-1] + '\\u0000"')
        yield 4, hex_line(name, '"' + good + '\\ud800"')
        yield 3, hex_line(name, '"' + good[:-1] + '\x1f"')
        yield 2, hex_line(name, '"' + good[:-1] + '\udc80"')
    yield 7, req('{"ids":[%s,⑦""]}' % plain(A))
    yield 7, req('{"authors":[⑦"",%s]}' % plain(A))


def hex_conditions():
    """Members of #e and #p are hex, those of every other letter free strings; the name counts as decoded, and so do they."""
    for letter in LETTERS:
        for member in ("", "x", A[1:], A + "a", A.upper(), "g" * 64):
            row, mark = (7, "⑦") if letter in "ep" else (0, "")
            yield row, req(filter_with("#" + letter, "[%s]" % (mark + plain(member))))
        yield 0, req(filter_with("#" + letter, "[%s]" % plain(A)))
    for letter, good in product("ep", (A, "0123456789abcdef" * 4)):
        code = "\\u%04x" % ord(letter)
        for name in ("#" + letter, "#" + code, "\\u0023" + letter, "\\u0023" + code):
            yield 0, req(filter_with(name, "[%s]" % plain(good)))
            yield 0, req(filter_with(name, "[%s]" % escaped(random.Random(3), good)))
            yield 7, req(filter_with(name, '[⑦"x"]'))
            yield 7, req(filter_with(name, "[⑦%s]" % escaped(random.Random(3), good[1:])))
            yield 8, req(filter_with(name, "[]"))
            yield 8, req(filter_with(name, many(plain(good), 17)))
            yield 5, req('{"%s":["x"],"#%s":["x"]}' % (name, letter))
        capital = "#\\u%04x" % ord(letter.upper())
        yield 0, req('{"%s":["x"],"#%s":[%s]}' % (capital, letter, plain(good)))
        yield 7, req('{"%s":[%s],"#%s":[⑦"x"]}' % (capital, plain(good), letter))
        # the first member, one in the middle, the last, one behind the last that row 8 lets pass
        for count, at in ((2, 0), (2, 1), (3, 1), (16, 0), (16, 8), (16, 15), (17, 0), (17, 16), (40, 39)):
            values = [plain(good)] * count
            values[at] = "⑦" + plain(good[1:])
            yield 7, req(filter_with("#" + letter, "[%s]" % ",".join(values)))
        wrong, empty = '{"#%s":[⑦"x"]}' % letter, '{"#%s":[]}' % letter
        # each filter, the fifth and the sixth too
        for at in range(6):
            filters = ["{}"] * 6
            filters[at] = wrong
            for count in range(at + 1, 7):
                yield 7, req(*filters[:count])
        # beside the rows below it and above it
        yield 6, req('{"#%s":[⑦"x"],"limit":⑥65536}' % letter)
        yield 6, req(wrong, '{"since":⑥-0}')
        yield 5, req(wrong, '{"x":1}')
        yield 5, req('{"#%s":["x",1]}' % letter)
        yield 4, req('{"#%s":["x","\\ud800"]}' % letter)
        yield 7, req(wrong, empty)
        yield 7, req(empty, wrong)
        yield 7, req(wrong, sub='""')
        yield 7, req(wrong, sub=plain("s" * 65))
        yield 7, req('{"#a":["v"],"#b":["v"],"#c":["v"],"#d":["v"],"#%s":[⑦"x"]}' % letter)
    # the tags of an event stay free strings
    for member in ("", "x", A[1:], A + "a", A.upper()):
        yield 0, event_with(tags='[["e",%s],["p",%s,"x"],["e"]]' % (plain(member), plain(member)))


# Counts.

SUB_CHARACTERS = r'a é € 😀 \u0061 \u00e9 \uD83D\uDE00 \n \" \\ \/'.split() + ["e\u0301", "\u200d"]
SUB_CHARACTERS += r"\u0000 \u0001 \u000B \u001f".split()
SUB_CHARACTERS += ["\x7f", "\x80", "\xbf", "\xc0", "\xff", "\u07ff", "\u0800", "\uffff", "\U00010000", "\U0010ffff"]


def counts():
    for count in (0, 1, 2, 63, 64, 65, 66, 128, 300):
        yield (0 if count <= 64 else 8), event_with(tags=many('["t"]', count))
    for count in (0, 1, 2, 15, 16, 17, 18, 32, 256, 257):
        row = 0 if 1 <= count <= 16 else 8
        tag = many('""', count)
        yield row, event_with(tags="[%s]" % tag)
        yield row, event_with(tags='[["a","b"],%s]' % tag)
        yield row, event_with(tags='[%s,["a","b"]]' % tag)
        yield row, event_with(tags="[" + '["t"],' * 63 + tag + "]")
    for strings in (15, 16, 17):
        for tags in (63, 64, 65):
            yield (0 if strings <= 16 and tags <= 64 else 8), event_with(tags=many(many('""', strings), tags))
    for name, member in LISTS.items():
        for count in (0, 1, 2, 15, 16, 17, 18, 40):
            row = 0 if 1 <= count <= 16 else 8
            yield row, req(filter_with(name, many(member, count)))
            if count in (0, 16, 17):
                yield row, req("{}", "{}", "{}", filter_with(name, many(member, count)))
    yield 8, req(filter_with("kinds", many("65535", 1200)))
    for count in (1, 2, 3, 4, 5, 6, 256, 257):
        yield (0 if count <= 4 else 8), req(*["{}"] * count)
        yield (0 if count <= 4 else 8), req(*['{"limit":0}'] * count)
    yield 8, '["REQ","s"]'
    letters = "ZYXWzyxwabcdefghijklmnopqrstuv"
    for count in (0, 1, 2, 3, 4, 5, 6, 30):
        conditions = members(("#" + letter, many(LISTS.get("#" + letter, '"v"'), 1)) for letter in letters[:count])
        yield (0 if count <= 4 else 8), req(conditions)
        yield (0 if count <= 4 else 8), req("{}", conditions, '{"limit":1}')
    for character in SUB_CHARACTERS:
        each = 2 if character == "e\u0301" else 1
        for count in (1, 31, 32, 33, 63, 64, 65, 128):
            sub = '"' + character * count + '"'
            row = 0 if count * each <= 64 else 8
            yield row, '["CLOSE",%s]' % sub
            yield row, req("{}", sub=sub)
    for sub in ["", "a" * 256, "a" * 257, "a" * 65 + "é", "é" * 63 + "ab"]:
        yield 8, '["CLOSE","%s"]' % sub
        yield 8, req("{}", sub='"%s"' % sub)
    yield 0, '["CLOSE","\\u0000"]'
    yield 4, '["CLOSE","\\ud83d"]'


def large_counts():
    """Counts far over their bounds, as many as a message holds; rows 4 to 7 look at the last of so many."""
    for row, last in ((8, '["t"]'), (8, "[]"), (4, '["\\udc00"]'), (5, '["t",1]'), (5, "{}")):
        yield row, event_with(tags="[" + '["t"],' * 2600 + last + "]")
    for row, last in ((8, '""'), (4, '"\\udc00"'), (5, "1"), (5, "{}")):
        yield row, event_with(tags="[[" + '"",' * 5300 + last + "]]")
    yield 8, event_with(tags=many(many('""', 16), 300))
    yield 8, event_with(tags=many("[]", 5000))
    yield 4, event_with(tags=many('["\\ud800"]', 1300))
    for name, member in LISTS.items():
        count = (MESSAGE_BYTES - 100) // (len(member) + 1)
        yield 8, req(filter_with(name, many(member, count)))
        faults = {4: '"\\ud800"', 5: "{}"}
        if name == "kinds":
            faults = {4: '"\\ud800"', 5: '"1"', 6: "⑥-0"}
        elif name not in ("#E", "#t"):
            faults[7] = "⑦" + plain(A[1:])
        for row, last in faults.items():
            yield row, req(filter_with(name, "[" + (member + ",") * (count - 1) + last + "]"))
    for last, row in (("{}", 8), ('{"limit":⑥-0}', 6), ('{"ids":[⑦""]}', 7), ('{"x":1}', 5), ("[]", 5), ('{"#a":["\\ud800"]}', 4)):
        yield row, req(*["{}"] * 5400, last)
    for character, count in (("a", 16000), ("é", 8000), ("😀", 4000), ("\\u0061", 2700), ("\\ud83d\\ude00", 1350)):
        yield 8, '["CLOSE","%s"]' % (character * count)
        yield 8, req("{}", sub='"%s"' % (character * count))
        yield 4, '["CLOSE","%s\\udfff"]' % (character * count)
    every = members(("#" + letter, many(LISTS.get("#" + letter, '"v"'), 16)) for letter in LETTERS)
    yield 8, req(every)
    yield 7, req(every[:-1] + ',"ids":[⑦"x"]}')
    yield 5, req(every[:-1] + ',"#a":["v"]}')


def past_bounds():
    """Rows 4 to 7 look past the bounds of row 8."""
    faults = {4: '["\\ud800"]', 5: '["x",1]', 8: "[]"}
    for row, tag in faults.items():
        yield row, event_with(tags="[" + '["t"],' * 64 + tag + "]")
        yield row, event_with(tags="[" + '["t"],' * 100 + tag + ',["t"]]')
        yield row, event_with(tags="[[]," + tag + "]")
    yield 5, event_with(tags="[" + '["t"],' * 64 + '"t"]')
    yield 5, event_with(tags="[" + '["t"],' * 64 + "null]")
    for row, string in ((8, '"\\u000b"'), (4, '"\\u000b\\ud800"'), (5, "{}"), (8, '"x"')):
        yield row, event_with(tags="[[" + '"t",' * 16 + string + "]]")
        yield row, event_with(tags="[[" + '"t",' * 40 + string + ',"t"]]')
    last = {
        "ids": {4: '"\\ud800"', 5: "1", 7: '⑦"x"', 8: plain(A)},
        "authors": {4: '"\\u0000\\ud800"', 5: "null", 7: '⑦"\\u0000"', 8: plain(A)},
        "kinds": {4: '"\\ud800"', 5: '"\\u0000"', 6: "⑥-0", 8: "1"},
        "#e": {4: '"\\udfff"', 5: "[]", 7: '⑦"x"', 8: plain(A)},
        "#p": {4: '"\\udfff"', 5: "[]", 7: "⑦" + plain(A.upper()), 8: plain(A)},
        "#E": {8: '""'},
        "#t": {4: '"\\udfff"', 5: "[]", 8: '"\\u0000"'},
    }
    for name, choices in last.items():
        for row, member in choices.items():
            for before in (16, 20):
                yield row, req(filter_with(name, "[" + (LISTS[name] + ",") * before + member + "]"))
                yield row, req(filter_with(name, "[" + (LISTS[name] + ",") * before + member + "," + LISTS[name] + "]"))
    fifth = {4: '{"#a":["\\ud800"]}', 5: '{"x":1}', 6: '{"limit":⑥-0}', 7: '{"ids":[⑦""]}', 8: '{"kinds":[]}'}
    for row, last_filter in fifth.items():
        yield row, req("{}", "{}", "{}", "{}", last_filter)
        yield row, req("{}", "{}", "{}", "{}", "{}", last_filter, "{}")
        yield row, req(last_filter, "{}", "{}", "{}", "{}")
    yield 5, req("{}", "{}", "{}", "{}", "1")
    conditions = '"#a":["v"],"#b":["v"],"#c":["v"],"#d":["v"],'
    sixth = {4: '"#e":["\\ud800"]', 5: '"#e":[1]', 6: '"since":⑥1.0', 7: '"authors":[⑦"x"]', 8: '"#e":[]'}
    for row, field in sixth.items():
        yield row, req("{" + conditions + '"#f":["v"],' + field + "}")
        yield row, req("{" + field + "," + conditions + '"#f":["v"]}')
    yield 5, req("{" + conditions + '"#f":["v"],"#g":["v"],"#f":["v"]}')
    yield 5, req("{" + conditions + '"#f":["v"],"#fg":["v"]}')


# Two faults of different rows, in both orders: the lower row is given.

EVENT_FAULTS = [
    (2, "content", '"\udcff"'),
    (2, "tags", '[["\udcc0\udc80"]]'),
    (3, "content", '"\x01"'),
    (3, "kind", "01"),
    (4, "content", '"\\ud800"'),
    (4, "tags", '[["\\u0001\\udc00"]]'),
    (4, "pubkey", '"\\udc00"'),
    (4, "\\u0000\\ud800", "1"),
    (5, "\\u0000", "1"),
    (5, "created_at", '"0"'),
    (5, "content", "null"),
    (5, "tags", '[["a",1]]'),
    (5, "id", "1"),
    (5, "x", "1"),
    (6, "kind", "⑥65536"),
    (6, "kind", "⑥1e3"),
    (6, "created_at", "⑥-0"),
    (6, "created_at", "⑥9007199254740992"),
    (7, "id", "⑦" + plain(A[1:])),
    (7, "pubkey", "⑦" + plain(A.upper())),
    (7, "sig", '⑦""'),
    (8, "tags", "[[]]"),
    (8, "tags", many('["t"]', 65)),
    (8, "tags", '[["a"],' + many('""', 17) + "]"),
]
FILTER_FAULTS = [
    (2, "#a", '["\udc80"]'),
    (3, "#b", "[1,]"),
    (4, "#c", '["\\ud800"]'),
    (4, "\\u0000\\ud800", "1"),
    (5, "\\u0000", "1"),
    (5, "ids", '"x"'),
    (5, "kinds", '["1"]'),
    (5, "search", '""'),
    (5, "#ab", '["x"]'),
    (5, "limit", "null"),
    (6, "since", "⑥-0"),
    (6, "limit", "⑥65536"),
    (6, "kinds", "[1,⑥-1]"),
    (7, "ids", '[⑦""]'),
    (7, "authors", "[⑦%s]" % plain(A.upper())),
    (7, "#e", many('⑦"v"', 17)),
    (7, "#p", "[⑦%s]" % plain(A[1:])),
    (8, "kinds", "[]"),
    (8, "#d", "[]"),
    (8, "#f", many('"v"', 17)),
    (8, "#e", many(plain(A), 17)),
]
SUB_FAULTS = [(2, '"\udcff"'), (3, '"\\x"'), (4, '"\\udc00"'), (5, "1"), (8, '""'), (8, plain("s" * 65))]


def pairs():
    for row, name, value in EVENT_FAULTS:
        for other_row, other, other_value in EVENT_FAULTS:
            if row != other_row and name != other:
                rest = [(n, v) for n, v in GOOD.items() if n not in (name, other)]
                yield min(row, other_row), event([(name, value)] + rest + [(other, other_value)])
        if row > 5:
            yield 5, event_with(**{name: value}).replace('"content":"",', "")
            yield 5, event(list(GOOD.items()) + [(name, value)])
            yield 5, event([(name, value)] + list(GOOD.items()))
    for row, name, value in FILTER_FAULTS:
        first = filter_with(name, value)
        for other_row, other, other_value in FILTER_FAULTS:
            if row != other_row:
                yield min(row, other_row), req(first, filter_with(other, other_value))
                if name != other:
                    yield min(row, other_row), req('{"%s":%s,"until":0,"%s":%s}' % (name, value, other, other_value))
        for sub_row, sub in SUB_FAULTS:
            yield min(row, sub_row), req(first, sub=sub)
        yield row, req("{}", first, "{}", "{}", "{}")
        yield row, req(first, "{}", "{}", "{}", "{}")
    for sub_row, sub in SUB_FAULTS:
        yield sub_row, req(sub=sub)
        yield sub_row, req("{}", "{}", "{}", "{}", "{}", sub=sub)
        yield sub_row, '["CLOSE",%s]' % sub
        yield min(sub_row, 5), '["CLOSE",%s,1]' % sub
        yield min(sub_row, 5), '["CLOSE",1,%s]' % sub
        yield min(sub_row, 5), '["CLOSE",{},%s]' % sub
        yield min(sub_row, 5), '["close",%s]' % sub
        yield min(sub_row, 5), '[%s,"CLOSE"]' % sub
        yield min(sub_row, 5), "[null,%s]" % sub
        yield min(sub_row, 3), '["CLOSE",%s' % sub
        yield min(sub_row, 3), '["CLOSE",[[[[[[[[]]]]]]]],%s]' % sub
        yield min(sub_row, 2), '["CLOSE",%s,"\udcc3"]' % sub
    for row, sub in {4: "\\ud800", 8: "x"}.items():
        yield row, '["CLOSE","' + "s" * 64 + sub + '"]'
        yield row, '["CLOSE","' + sub + "s" * 64 + '"]'
    yield 4, event_with(id='"' + A + '\\ud800"')
    yield 7, event_with(id='⑦"\\u0001"')
    # No EVENT, REQ or CLOSE: row 5 whatever stands inside.
    yield 5, '["AUTH",%s]' % members({**GOOD, "kind": "65536"}.items())
    yield 5, '["EVENT","s",%s]' % members({**GOOD, "id": '""'}.items())
    yield 5, '["CLOSE","s",{"limit":-0}]'
    yield 4, '["AUTH","\\ud800"]'


# 02, Wish 3: control characters.


def controls():
    """Spelled, with digits in either case, in every string of a message; in names and hex they are like any other character."""
    for c in BELOW:
        for s in u_escapes(c):
            yield 0, event_with(content='"x%sy"' % s, tags='[["%s"],["t","%s%s"]]' % (s, s, s))
            yield 0, '["CLOSE","%s"]' % s
            yield 0, req("{}", sub='"%s"' % s)
            yield 0, req('{"#t":["%s","x%s"],"#E":["%s"]}' % (s, s, s))
            yield 7, req('{"ids":[⑦"%s"]}' % s)
            yield 7, req('{"#e":[⑦"%s%s"]}' % (A[1:], s))
            yield 7, event_with(id='⑦"%s%s"' % (s, A[1:]))
            yield 5, req('{"%s":["x"]}' % s)
            yield 5, req('{"#%s":["x"]}' % s)
            yield 5, req('{"kinds":["%s"]}' % s)
            yield 5, event([*GOOD.items(), (s, "1")])
            yield 5, '["%s","s"]' % s
            yield 4, event_with(content='"%s\\ud800"' % s)
            yield 4, req('{"#t":["\\udc00%s"]}' % s)
        # Raw it is no JSON.
        if c != "\n":
            yield 3, event_with(content='"%s"' % c)
            yield 3, event_with(tags='[["t","%sx"]]' % c)
            yield 3, event_with(content='"%s%s%s"' % ("x" * 40, c, "x" * 40))
            yield 3, '["CLOSE","x%s"]' % c
            yield 3, req("{}", sub='"%s"' % c)
            yield 3, req('{"#t":["%s"]}' % c)
            yield 3, req('{"%s":["x"]}' % c)
            yield 3, '["CLOSE","%s\\ud800"]' % c
            yield 3, '["CLOSE","s%s' % c
    all_of_them = "".join("\\u%04x" % ord(c) for c in BELOW)
    yield 0, event_with(content='"%s"' % all_of_them, tags='[["%s"]]' % all_of_them)
    yield 0, req('{"#t":["%s"]}' % all_of_them, sub='"%s\x7f"' % all_of_them)
    for count in (32, 33):
        yield (0 if count == 32 else 8), req("{}", sub='"%s%s"' % (all_of_them, "\\u0000" * count))
    for s in ("\\u0000", "\\u001F", "\\u0000x"):
        yield 0, event_with(content='"%s"' % (s * 1000))
    # The same characters, spelled with digits of both cases and with the short escapes.
    for s in ("\\u000a\\u000A\\n", "\\u001f\\u001F", "\\u0008\\b\\u0009\\t\\u000c\\u000C\\f\\u000d\\u000D\\r"):
        yield 0, event_with(content='"%s"' % s, tags='[["%s"]]' % s)
    for s in ("\\u001", "\\u00 1", "\\u001g", "\\U0001", "\\x01", "\\1", "\\u-001", "\\v", "\\e"):
        yield 3, event_with(content='"%s"' % s)
        yield 3, '["CLOSE","%s' % s


# Row 1.


def long_lines():
    base = event_with(content='"%s"')
    for size in (8191, 8192, 8193, MESSAGE_BYTES - 1, MESSAGE_BYTES, MESSAGE_BYTES + 1):
        row = 1 if size > MESSAGE_BYTES else 0
        yield row, base % ("x" * (size - len(base) + 2))
        yield row, '["CLOSE","s"]' + " " * (size - 13)
        yield row, " " * (size - 14) + '["REQ","s",{}]'
        yield row, '["REQ","s",{"#x":["%s"]}]' % ("é" * 4000 + "y" * (size - 8023))
    # Row 1 goes before rows 2 to 8; with one byte less it is theirs.
    beside = {2: '["CLOSE","\udcff"]', 3: "[", 4: '["CLOSE","\\ud800"]', 5: '["CLOSE",1]', 6: number_line("limit", "⑥-0")}
    beside.update({7: hex_line("ids", '⑦""'), 8: '["CLOSE",""]'})
    for row, text in beside.items():
        rest = " " * (MESSAGE_BYTES - len(raw(text)))
        padded = rest + text if row % 2 else text + rest
        yield row, padded
        yield 1, padded + " "
    for byte in ("x", "[", "\udcff", '"', "0", " "):
        yield 1, byte * (MESSAGE_BYTES + 1)
    for size in (65535, 65536, 65537):
        yield 1, '["CLOSE","s"]' + " " * (size - 13)
    for count in (600, 1300):
        yield 0, event_with(content='"' + "\\u0041" * (2 * count) + '"')
        yield 0, event_with(content='"' + "\\ud83d\\ude00" * count + '"', tags='[["%s"]]' % ("€" * 100))


def full_messages():
    """Messages that have as much as the bounds allow, and as many bytes as a message has, or one more."""
    sixteen = many(plain(A), 16)
    fields = {"ids": sixteen, "authors": sixteen, "#e": sixteen, "kinds": many("65535", 16), "since": str(-TIME), "until": str(TIME)}
    fields.update({"limit": "65535", "#t": many(plain("x" * 10), 16), "#D": many(plain("é€😀"), 16)})
    fields["#z"] = many('"\\u0041\\n"', 16)
    whole = members(fields.items())
    two = req(whole, whole)
    four = req(whole, whole, whole, members(list(fields.items())[:3] + list(fields.items())[4:7]))
    strings = event_with(tags=many(many(plain("t" * 12), 16), 64))
    escapes = event_with(tags=many(many('"\\u0074"', 16), 64), content='"%s"' % ("\\u000A" * 900))
    for text in (two, four, strings, escapes):
        rest = MESSAGE_BYTES - len(raw(text))
        yield 0, text
        yield 0, text[:-1] + " " * rest + "]"
        yield 1, text[:-1] + " " * (rest + 1) + "]"
    yield 8, req(whole, whole, "{}", "{}", "{}")
    yield 8, event_with(tags=many(many(plain("t" * 11), 16), 65))
    yield 8, event_with(tags="[" + many(plain("t" * 11), 17) + "," + many(many(plain("t" * 11), 16), 63)[1:])


# Random messages: good ones, then with a fault in their structure, then with damaged bytes.


def random_tag(rng, sample):
    return joined(rng, [spell(rng, words(rng, 4, sample)) for _ in range(rng.randrange(1, 4))], "[]")


def random_event(rng, sample):
    fields = {
        "id": plain(hexes(rng, 64)),
        "pubkey": rng.choice([plain(A), plain(hexes(rng, 64)), spell(rng, hexes(rng, 64))]),
        "created_at": str(rng.choice([0, -7200, 1700000000, rng.randrange(1 - 2**53, 2**53)])),
        "kind": str(rng.choice([0, 1, 3, 30000, rng.randrange(65536)])),
        "tags": joined(rng, [random_tag(rng, sample) for _ in range(rng.randrange(3))], "[]"),
        "content": spell(rng, words(rng, 12, sample)),
        "sig": plain(hexes(rng, 128)),
    }
    return ['"EVENT"'], [list(fields.items())]


def random_filter(rng, sample):
    fields = []
    for name in rng.sample("ids authors kinds since until limit #e #p #E #d #t".split(), rng.randrange(6)):
        count = rng.choice([1, 1, 2, 3])
        if name in ("ids", "authors") or name in ("#e", "#p") and rng.randrange(8):
            value = joined(rng, [rng.choice([plain(A), spell(rng, hexes(rng, 64))]) for _ in range(count)], "[]")
        elif name[0] == "#":
            value = joined(rng, [spell(rng, words(rng, 6, sample)) for _ in range(count)], "[]")
        elif name == "kinds":
            value = joined(rng, [str(rng.choice([0, 1, 65535, rng.randrange(65536)])) for _ in range(count)], "[]")
        else:
            value = str(rng.choice([0, 1, 100, 65535]))
        fields.append((name, value))
    return fields


def random_message(rng, sample=SAMPLE):
    """The leading elements, and the objects after them as lists of fields."""
    way = rng.randrange(10)
    if way < 3:
        return random_event(rng, sample)
    sub = spell(rng, "s" + words(rng, 10, sample))
    if way == 3:
        return ['"CLOSE"', sub], []
    return ['"REQ"', sub], [random_filter(rng, sample) for _ in range(rng.choice([1, 1, 2, 3]))]


OTHERS = ['""', "0", "-1", "[]", "[[]]", "{}", "null", "true", '["x"]', "[1]", plain(A)]
OTHER_NUMBERS = "-1 -0 0 1.0 1e2 65535 65536 9007199254740991 9007199254740992 -9007199254740992".split()
OTHER_TAGS = ["[]", "[[]]", '["x"]', '[["x"]]', many('["t"]', 64), many('["t"]', 65), many(many('"t"', 17), 2)]


def broken(rng, objects):
    """Objects with one field dropped, doubled, renamed, or given another value."""
    objects = [list(fields) for fields in objects]
    fields = rng.choice(objects)
    if fields:
        at = rng.randrange(len(fields))
        name, value = fields[at]
        way = rng.randrange(8)
        if way == 0:
            del fields[at]
        elif way == 1:
            fields.append((name, value))
        elif way == 2:
            fields[at] = (rng.choice([name + "s", name.upper(), "#" + name[-1], "x"]), value)
        elif name in NUMBER_FIELDS:
            other = rng.choice(OTHER_NUMBERS)
            fields[at] = (name, "[%s]" % other if name == "kinds" else other)
        elif name == "tags":
            fields[at] = (name, rng.choice(OTHER_TAGS))
        elif value[0] == "[":
            full = many(LISTS.get(name, '"v"'), rng.choice([16, 17]))
            fields[at] = (name, rng.choice(["[]", '[""]', "[1]", '["\\ud800"]', full]))
        else:
            fields[at] = (name, rng.choice(OTHERS))
    return objects


def spread(rng, head, objects):
    """A message's text, its fields in any order."""
    elements = list(head)
    for fields in objects:
        rng.shuffle(fields)
        inner = [spell(rng, name) + space(rng) + ":" + space(rng) + value for name, value in fields]
        elements.append(joined(rng, inner, "{}"))
    return joined(rng, elements, "[]")


def written(rng, head, objects):
    return raw(spread(rng, head, objects))


def random_lines(rng, count=460, sample=SAMPLE):
    for _ in range(count):
        head, objects = random_message(rng, sample)
        line = written(rng, head, objects)
        yield line
        yield damaged(rng, line)
        if objects:
            yield written(rng, head, broken(rng, objects))
            yield written(rng, head, broken(rng, broken(rng, objects)))


def labelled():
    for part in (shapes, event_fields, filter_fields, numbers, hex_strings, hex_conditions, counts, large_counts, past_bounds,
                 pairs, long_lines, full_messages, controls):
        yield from part()
    for c in SAMPLE:
        yield 0, '["CLOSE",%s]' % escaped(random.Random(1), c)
        yield 0, '["CLOSE",%s]' % plain(c)


def lines():
    out = [b""] + [raw(text) for _, text in labelled()]
    out += list(random_lines(random.Random(1))) + list(random_lines(random.Random(2), 80, WIDE))
    return out + [b'["CLOSE","the last line has no 0A"]']
