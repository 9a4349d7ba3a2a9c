"""Messages that break rows 6 and 7 at one place or at several (02, Wish 9): (row, text), the text marked before each of them.

Every case program that takes messages has some of these lines.
"""

import json
import random
from itertools import combinations, permutations, product

from cases_message import (
    A,
    GOOD,
    LISTS,
    LONG,
    NOT_PLAIN,
    NUMBER_FIELDS,
    event,
    event_with,
    filter_with,
    many,
    members,
    random_message,
    req,
    spread,
    u_first,
)
from rows import MESSAGE_BYTES
from spell import MARKS, WIDE, escaped, hexes, joined, plain, raw, spell

NUMBERS = ("kinds", "since", "until", "limit")
HEX = ("ids", "authors", "#e", "#p")
# One field's wrong value, and a good one, as spelled.
WRONG = {"created_at": "⑥-0", "kind": "⑥65536", "kinds": "[⑥-1]", "since": "⑥1e3", "until": "⑥1.0", "limit": "⑥-0"}
WRONG.update({"id": '⑦""', "pubkey": '⑦"x"', "sig": "⑦" + plain("b" * 127), "ids": '[⑦""]', "authors": '[⑦"x"]'})
WRONG.update({"#e": "[⑦%s]" % plain(A[1:]), "#p": "[⑦%s]" % plain(A.upper())})
RIGHT = {**GOOD, "since": "0", "until": "1", "limit": "2", **{name: "[%s]" % one for name, one in LISTS.items()}}


def row_in(text):
    """6 goes before 7, wherever their marks stand; 0 without any."""
    return min((row for row, mark in MARKS.items() if mark in text), default=0)


def some_of(names, sizes):
    return [set(chosen) for size in sizes for chosen in combinations(names, size)]


def values(names, wrong):
    return [(name, WRONG[name] if name in wrong else RIGHT[name]) for name in names]


def event_after(first, wrong):
    """An event that begins with these fields; of the rest some are wrong."""
    return event(list(first.items()) + [(name, value) for name, value in values(GOOD, wrong) if name not in first])


# The order of fields.


def event_orders():
    """Both numbers at each two places of the seven; the three strings of hex in each order, with the others around them."""
    names = list(GOOD)
    for first, second in permutations(range(7), 2):
        rest = [name for name in names if name not in ("created_at", "kind")]
        order = [None] * 7
        order[first], order[second] = "created_at", "kind"
        order = [name or rest.pop(0) for name in order]
        for wrong in some_of(("created_at", "kind"), (1, 2)):
            yield event(values(order, wrong))
        yield event(values(order, {"created_at", "kind", "id", "sig"}))
    others = [name for name in names if name not in ("id", "pubkey", "sig")]
    for turn, order in enumerate(permutations(("id", "pubkey", "sig"))):
        for wrong in some_of(order, (1, 2, 3)):
            ways = (list(order) + others, others + list(order), [n for pair in zip(order, others) for n in pair] + others[3:])
            yield event(values(ways[turn % 3], wrong))
    for number, string in product(("created_at", "kind"), ("id", "pubkey", "sig")):
        for order in (names, names[::-1]):
            yield event(values(order, {number, string}))


def filter_orders():
    """Four numbers, and four lists of hex, in each order: one of them wrong, two, and all."""
    for names in (NUMBERS, HEX):
        for order in permutations(names):
            for wrong in some_of(names, (1, 2, 4)):
                yield req(members(values(order, wrong)))
    for number, string in product(NUMBERS, HEX):
        for order in ((number, string), (string, number)):
            yield req(members(values(order, {number, string})))
            yield req(*[members(values([name], {name})) for name in order])
            yield req(members(values(order, {string})), members(values(order, {number})))


# Filters and members.


def filters():
    """One of up to six filters wrong, or two: past four row 8 holds too, but 6 and 7 are lower."""
    for name in ("limit", "kinds", "ids", "#p"):
        wrong, right = members(values([name], {name})), members(values([name], ()))
        for count in (1, 2, 3, 4, 5, 6):
            for at in range(count):
                yield req(*[wrong if k == at else right for k in range(count)])
    wrong = [members(values([name], {name})) for name in ("since", "authors", "until", "#e")]
    for first, second in permutations(range(6), 2):
        chosen = ["{}"] * 6
        chosen[first], chosen[second] = wrong[first % 4], wrong[second % 4]
        yield req(*chosen)
    yield req(*["{}"] * 400, wrong[0], wrong[1])
    yield req(*["{}"] * 400, wrong[1], "{}", wrong[3])


def list_members():
    """The first member wrong, one in the middle, the last, one past the sixteenth; two and all."""
    for name in ("kinds",) + HEX:
        good = LISTS[name]
        bad = ["⑥-0", "⑥65536", "⑥1.5"] if name == "kinds" else ['⑦""', '⑦"x"', "⑦" + plain(A + "a")]
        for count in (1, 2, 3, 16, 17, 18, 40):
            spots = {0, count // 2, count - 1} | ({16} if count > 16 else set())
            for wrong in [{at} for at in spots] + [{count // 2, count - 1}, set(range(count))]:
                items = [bad[at % 3] if at in wrong else good for at in range(count)]
                yield req(filter_with(name, "[%s]" % ",".join(items)))


# Spellings: what is counted is bytes as received.


def names():
    """Names with escapes before the place, in either case of the digits; the first word too."""
    for name in GOOD:
        for other in ("kind", "id"):
            fields = values(GOOD, {other})
            yield event([(u_first(n) if n == name else n, value) for n, value in fields])
    rng = random.Random(30)
    for name in NUMBERS + HEX:
        other = "since" if name == "limit" else "limit"
        for way in (u_first(name), escaped(rng, name)[1:-1], escaped(rng, name)[1:-1]):
            yield req(filter_with(way, WRONG[name]))
            yield req(members([(way, RIGHT[name]), (other, WRONG[other])]))
    for word in ("\\u0052EQ", "\\u0052\\u0045\\u0051"):
        yield req('{"limit":⑥-0}').replace("REQ", word)
    yield event_with(kind="⑥-0").replace("EVENT", "\\u0045VENT")
    # A good member spelled with escapes, then a wrong one; a wrong one that begins with an escape.
    for name in HEX:
        yield req(filter_with(name, '["%s",⑦"x"]' % ("\\u0061" * 64)))
        yield req(filter_with(name, '[⑦"\\u0061"]'))


def spaces():
    """White space before the message, and in every gap before the place."""
    for text in (req('{"limit":⑥-0}'), req('{"kinds":[1,⑥-0]}'), req('{"ids":[⑦"x"]}'), event_with(kind="⑥-0"), event_with(sig='⑦""')):
        for gap in (" ", "\t", "\r", "  ", " \t\r", " " * 9, "\r" * 30):
            yield gap + text
            yield text + gap
            wide = text
            for sign in "[]{}:,":
                wide = wide.replace(sign, gap + sign + gap)
            yield wide
        for sign in "[{:,":
            yield text.replace(sign, sign + " ")
            yield text.replace(sign, "\t" + sign)


CHARACTERS = ["é", "\u07ff", "\u0800", "€", "\uffff", "😀", "\U0010ffff", "\\u00e9", "\\u20AC", "\\ud83d\\ude00", "\\n", "\\/", "\\u0000"]


def characters():
    """Characters of 2, 3 and 4 bytes, and escapes, before the place: in the content, in tags, in a subscription id, in a list."""
    for c in CHARACTERS:
        for count in (1, 3):
            string = '"%s"' % (c * count)
            yield req('{"limit":⑥-0}', sub=string)
            yield req('{"ids":[⑦%s,"x"]}' % string, sub=string)
            yield req('{"#t":[%s],"since":⑥1e3}' % string)
            yield req('{"#t":[%s,%s]}' % (string, string), '{"#e":[⑦%s]}' % string)
            for wrong in ("kind", "created_at", "pubkey", "sig"):
                yield event_after({"content": string, "tags": '[["t",%s],[%s]]' % (string, string)}, {wrong})
            yield event_with(pubkey="⑦" + string, sig="⑦" + string)
    # Signs of the grammar inside strings are none.
    for string in (r'"\",\"limit\":-0"', '"{[:,]}"', r'"\\"', r'"\"-0"', '"-0"'):
        yield req('{"limit":⑥-0}', sub=string)
        yield event_after({"content": string, "tags": "[[%s]]" % string}, {"created_at", "kind"})


def spelled_numbers():
    """Each form of a wrong number, before and behind another; numbers of thousands of digits before the place."""
    for spelled in NOT_PLAIN + ["-1", "-10", "65536", "-65536", "9007199254740992", "-9007199254740992"]:
        for name in ("kinds", "limit"):
            value = "[%s]" if name == "kinds" else "%s"
            yield req('{"%s":%s,"since":⑥-0}' % (name, value % ("⑥" + spelled)))
            yield req('{"since":⑥-0,"%s":%s}' % (name, value % ("⑥" + spelled)))
        yield event_with(kind="⑥" + spelled)
    for spelled in LONG:
        yield req('{"kinds":[1,⑥%s,⑥-0]}' % spelled)
        yield event_with(created_at="⑥" + spelled, kind="⑥-0")
        yield event_with(kind="⑥" + spelled, id='⑦""')
    # A long number, or a long string, that is right in shape, before the place.
    yield req('{"since":%d,"until":-%d,"limit":⑥-0}' % (2**53 - 1, 2**53 - 1))
    yield event_after({"content": plain("x" * 9000)}, {"kind"})
    for name in ("#t", "ids"):
        yield req(filter_with(name, many(LISTS[name], 90)), '{"limit":⑥-0}')


# Offsets of two to five digits: none is shorter, as 15 bytes at least stand before a number or hex.


def offsets():
    shortest = [event_after({"id": '⑦""'}, ()), event_after({"kind": "⑥-0"}, ())]
    shortest += [req('{"limit":⑥-0}', sub='""'), req('{"ids":[⑦""]}')]
    for text in shortest:
        row = row_in(text)
        before, behind = text.split(MARKS[row])
        last = MESSAGE_BYTES - len(raw(behind))
        for at in (0, 99, 100, 101, 255, 256, 257, 999, 1000, 1001, 4095, 4096, 8191, 8192, 8193, 9999, 10000, 10001, last - 1, last):
            if at <= last:
                yield " " * (at - len(raw(before))) + text
                # Before the place itself, behind the colon or the bracket.
                yield before + " " * (at - len(raw(before))) + MARKS[row] + behind
    for size in (9000, 14000):
        yield event_after({"content": plain("é" * (size // 2))}, {"sig"})


# Beside other rows.


def beside():
    """(row, text): rows 1 to 5 go before and say nothing of a place; row 8 goes after. Also what the reply can name."""
    wrong = {6: '"limit":⑥-0', 7: '"ids":[⑦"x"]'}
    for row, field in wrong.items():
        for lower, other in ((2, '"#a":["\udcff"]'), (3, '"until":01'), (4, '"#a":["\\ud800"]'), (5, '"x":1'), (5, '"until":"1"')):
            for order in ((field, other), (other, field)):
                yield lower, req("{%s}" % ",".join(order))
                yield lower, req(*["{%s}" % one for one in order])
        yield 1, req("{%s}" % field) + " " * MESSAGE_BYTES
        yield 5, req("{%s,%s}" % (field, field))
        yield 5, '["CLOSE","s",{%s}]' % field
        yield 5, '["CLOSE",{%s}]' % field
        yield 5, '["REQ",{%s}]' % field
        yield 5, '["AUTH","s",{%s}]' % field
        for higher in ('"kinds":[]', '"#a":%s' % many('"v"', 17), '"#a":["v"],"#b":["v"],"#c":["v"],"#d":["v"],"#f":["v"]'):
            for order in ((field, higher), (higher, field)):
                yield row, req("{%s}" % ",".join(order))
        for sub in ("", "s", "s" * 64, "s" * 65, "é" * 64, "é" * 65, "\\u0073", '\\"'):
            yield row, req("{%s}" % field, sub='"%s"' % sub)
    for row, name in ((6, "kind"), (6, "created_at"), (7, "pubkey"), (7, "sig")):
        for lower, other, value in ((2, "content", '"\udcff"'), (3, "content", '"\x01"'), (4, "content", '"\\udc00"'), (5, "content", "1")):
            yield lower, event_with(**{name: WRONG[name], other: value})
        yield row, event_with(**{name: WRONG[name], "tags": "[[]]"})
        yield row, event_with(**{name: WRONG[name], "tags": many('["t"]', 65)})
        for spelled_id in (GOOD["id"], '"\\u0061%s"' % A[1:], "⑦" + plain(A.upper()), '⑦""', "⑦" + plain(A + "0")):
            for order in (list(GOOD), list(GOOD)[::-1]):
                fields = {**GOOD, name: WRONG[name], "id": spelled_id}
                yield row, event([(n, fields[n]) for n in order])


# Random messages, each number and each string of hex wrong or not.


def wrong_value(rng, name, value, some):
    """The field with `some` of its values wrong, of `some` in 8; as it was if it has no rule."""
    number = name in NUMBER_FIELDS
    if not number and name not in ("id", "pubkey", "sig", *HEX):
        return value
    one = lambda: wrong_one(rng, number) if rng.randrange(8) < some else plain(hexes(rng, 64)) if not number else str(rng.randrange(9))
    if value[0] == "[":
        return joined(rng, [one() for _ in range(rng.choice([1, 1, 2, 3, 17]))], "[]")
    return wrong_one(rng, number) if rng.randrange(8) < some else value


def wrong_one(rng, number):
    if number:
        return "⑥" + rng.choice(NOT_PLAIN + ["-9007199254740992", "9007199254740992", "-" + "9" * rng.randrange(17, 99)])
    return "⑦" + spell(rng, rng.choice(["", "x", A[1:], A + "a", A.upper(), "é" * 32, "😀", hexes(rng, 65)]))


def random_texts(rng, count, sample=WIDE):
    while count:
        head, objects = random_message(rng, sample)
        some = rng.choice([1, 2, 4])
        objects = [[(name, wrong_value(rng, name, value, some)) for name, value in fields] for fields in objects]
        text = spread(rng, head, objects)
        if row_in(text) and "\n" not in text:
            count -= 1
            yield text


def labelled():
    for part in (event_orders, filter_orders, filters, list_members, names, spaces, characters, spelled_numbers, offsets):
        for text in part():
            yield row_in(text), text
    yield from beside()
    for text in random_texts(random.Random(31), 300):
        yield row_in(text), text


def short(word=""):
    """Those that are short, or of them the ones that begin with that word."""
    return [(row, text) for row, text in labelled() if len(text) < 700 and text.startswith('["' + word)]


def named(text):
    """What the reply to a message that rows 6 and 7 refuse names, read by json: ("id" or "sub", as replies spell it), or None."""
    word, second, *_ = json.loads(raw(text), parse_int=str, parse_float=str)
    if word == "REQ" and 1 <= len(second) <= 64:
        return "sub", plain(second)[1:-1]
    if word == "EVENT" and len(second["id"]) == 64 and set(second["id"]) <= set("0123456789abcdef"):
        return "id", second["id"]
    return None


def lines():
    return [raw(text) for _, text in labelled()]
