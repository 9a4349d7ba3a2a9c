"""Lines for relay_cases: runs of the relay, each over a fresh table. A run is (answer, how large the pieces are, what is fed); the answer
is plain from how the run is made, else None. What is fed are lines of relay_cases: L and bytes that 0A ends, P and bytes alone, R, a byte
and how often.
"""

import random

import cases_offset
from cases_event import MAX_TIME, made, offer, spelled_fields
from cases_table import in_capitals
from cases_message import A, EVENT_FAULTS, FILTER_FAULTS, SUB_FAULTS, broken, event, full_messages, many, random_lines
from cases_message import random_message, req, written
from rows import MESSAGE_BYTES
from sha256 import sha256
from spell import BELOW, CONTROLS, MARKS, SAMPLE, WIDE, damaged, hexes, offset_in, plain, raw, spell, u_escapes, words

B = "b" * 64
REASONS = {
    1: "invalid: message too long",
    2: "invalid: not UTF-8",
    3: "invalid: not JSON",
    4: "invalid: string not allowed",
    5: "invalid: wrong shape",
    6: "invalid: number",
    7: "invalid: hex",
    8: "invalid: count or length",
    9: "invalid: event too large",
    10: "invalid: id does not match",
    12: "error: no room",
}
DUPLICATE, OLDER = "duplicate: already have this event", "duplicate: have a newer version"
CUTS = (0, 0, 0, 1, 2, 7, 100, MESSAGE_BYTES, MESSAGE_BYTES + 1)


def notice(row):
    return '["NOTICE","%s"]\n' % REASONS[row]


def closed(sub, row):
    return '["CLOSED","%s","%s"]\n' % (sub, REASONS[row])


def refused(id, row):
    return '["OK","%s",false,"%s"]\n' % (id, REASONS[row])


def taken(id, reason=""):
    return '["OK","%s",true,"%s"]\n' % (id, reason)


def eose(sub="s"):
    return '["EOSE","%s"]\n' % sub


def fed(text):
    return b"L" + raw(text)


def saying_where(want, text):
    """02, Wish 9: what a marked text is answered, with ` at ` and the offset."""
    for row in MARKS:
        want = want.replace(REASONS[row] + '"', '%s at %s"' % (REASONS[row], offset_in(text, row)))
    return want


def run(pairs, cut=0):
    """Lines with what each is answered, which says where rows 6 and 7 are broken by the marks of the line."""
    pairs = list(pairs)
    return "".join(saying_where(want, text) for want, text in pairs), cut, [fed(text) for _, text in pairs]


def sent(fields, sub="s"):
    """What a REQ sends of an event."""
    return '["EVENT","%s",{%s}]\n' % (sub, ",".join('"%s":%s' % pair for pair in spelled_fields(fields, plain).items()))


def id_in(fields):
    return spelled_fields(fields, plain)["id"][1:-1]


def tile(n, time=0, content=""):
    return made(created_at=time, kind=30000, tags=[["d", "tile-%d" % n]], content=content)


FOUR = ["{}", '["REQ","s",{}]', '["CLOSE","s"]', ""]
FOUR_SAY = '["NOTICE","invalid: wrong shape"]\n["EOSE","s"]\n["NOTICE","invalid: not JSON"]\n'


# The ends of lines and of the input.


def ends():
    for cut in CUTS:
        yield FOUR_SAY, cut, [fed(text) for text in FOUR]
        yield "", cut, []
        yield notice(3), cut, [fed("")]
        yield notice(3) * 3, cut, [fed("")] * 3
        yield "", cut, [b"P"]
        yield eose(), cut, [b"P" + raw(req("{}"))]
        yield eose() * 2, cut, [fed(req("{}")), b"P" + raw(req("{}"))]
        yield eose() + notice(3), cut, [b"P" + raw(req("{}")[:5]), fed(req("{}")[5:]), b"P "]
        yield eose() * 2 + notice(3), cut, [fed(req("{}") + "\r"), fed("\r" + req("{}")), fed("\r")]
        yield notice(3) * 3, cut, [fed("\x00"), fed(req("{}") + "\x00"), b"P\x00"]
        yield notice(2) + notice(2), cut, [b"L\xff", b"P[\xc0\x80"]
        yield notice(5), cut, [b"P0"]


def long_lines():
    """As many bytes as a message has; one more, or a million, is one reply."""
    close, ask = raw('["CLOSE","s"]'), raw(req("{}"))
    for cut in CUTS:
        for size in (8191, 8192, 8193, MESSAGE_BYTES - 1, MESSAGE_BYTES):
            yield "", cut, [b"P" + close, b"R %d" % (size - len(close)), b"L"]
            yield eose(), cut, [b"R %d" % (size - len(ask)), b"P" + ask]
        over = MESSAGE_BYTES + 1
        yield notice(1), cut, [b"P" + close, b"R %d" % (over - len(close)), b"L"]
        yield notice(1), cut, [b"R %d" % (over - len(ask)), b"P" + ask]
        yield notice(1) + eose(), cut, [b"R %d" % over, fed(""), b"P" + ask]
        # what follows the last byte that a message can have is no message of its own
        yield notice(1) * 2, cut, [b"R %d" % MESSAGE_BYTES, fed(req("{}")), b"R %d" % over, b"P" + ask]
    sizes = (8191, 8192, 8193, 16000, MESSAGE_BYTES - 1, MESSAGE_BYTES, MESSAGE_BYTES + 1, MESSAGE_BYTES + 2, 32768, 65535, 65536)
    for size in sizes + (1000000,):
        row = 3 if size <= MESSAGE_BYTES else 1
        for cut in (0, 1, 1000) if size < 65536 else (0, MESSAGE_BYTES):
            yield notice(row) + eose(), cut, [b"RA%d" % size, fed(""), fed(req("{}"))]
            yield eose() + notice(row), cut, [fed(req("{}")), b"RA%d" % size]
            yield notice(row), cut, [b"R\x00%d" % size, fed("")]


def cut_lines():
    """A line cut just before, at and behind the last byte that a message can have, with 0A in a piece of its own or not."""
    ask = raw(req("{}"))
    for size in (MESSAGE_BYTES - 1, MESSAGE_BYTES, MESSAGE_BYTES + 1, MESSAGE_BYTES + 2):
        say = eose() if size <= MESSAGE_BYTES else notice(1)
        for at in (0, 1, 8192, 8193, MESSAGE_BYTES - 2, MESSAGE_BYTES - 1, MESSAGE_BYTES, MESSAGE_BYTES + 1):
            if len(ask) + at > size:
                # The end of the REQ stands behind the cut, or is cut.
                head = size - len(ask)
                first = min(at, head)
                inside = max(at - head, 0)
                pieces = [b"R %d" % first, b"P" + ask[:inside], b"R %d" % (head - first), b"P" + ask[inside:]]
            else:
                pieces = [b"P" + ask, b"R %d" % at, b"R %d" % (size - len(ask) - at)]
            yield say + eose(), 0, pieces + [b"L", b"L" + ask]
            yield say, 0, pieces
    # Lines one behind the other, of which every second one is too long by one byte.
    pieces, say = [], ""
    for turn in range(8):
        pieces += [b"R %d" % (MESSAGE_BYTES - len(ask) + turn % 2), b"L" + ask]
        say += notice(1) if turn % 2 else eose()
    for cut in (0, 1, 4096, MESSAGE_BYTES - 1, MESSAGE_BYTES, MESSAGE_BYTES + 1, MESSAGE_BYTES + 2, 65536):
        yield say, cut, pieces


def long_messages():
    """Messages that have more than 8,192 bytes: rows, verdicts and answers."""
    escapes = lambda s: '"%s"' % "".join("\\u%04X" % ord(c) for c in s) if len(s) > 128 else plain(s)
    first, second = [tile(1, time, "x" * 2600) for time in (0, 1)]
    tagged = made(kind=1, tags=[["t", "é" * 1900]])
    yield run(
        [
            (taken(id_in(first)), offer(first, escapes)),
            (taken(id_in(first), DUPLICATE), offer(first)),
            (sent(first) + eose(), req("{}")),
            (taken(id_in(second)), offer(second, escapes)),
            (taken(id_in(first), OLDER), offer(first, escapes)),
            (taken(id_in(tagged)), offer(tagged, escapes)),
            (sent(tagged) + eose(), req('{"#t":[%s]}' % escapes("é" * 1900))),
            (eose(), req('{"#t":[%s]}' % escapes("é" * 1899 + "e"))),
            (sent(second) + eose(), req('{"since":1}' + " " * 16000)),
            (refused(B, 10), offer(first, escapes, B)),
            (closed("s", 8), req(*["{}"] * 5400)),
            (closed("s", 6), req(*["{}"] * 5400, '{"limit":⑥-0}')),
            (closed("s", 8), req('{"kinds":%s}' % many("1", 8000))),
            (closed("s", 6), req('{"kinds":[⑥%s]}' % ("9" * 16000))),
            (notice(8), req("{}", sub=plain("s" * 16000))),
            (notice(5), req('{"x":%s}' % plain("x" * 16000))),
            (notice(3), "[" * 9 + " " * 16000 + "]" * 9),
            (notice(1), req("{}") + " " * MESSAGE_BYTES),
            (sent(second) + sent(tagged) + eose(), req("{}")),
        ]
    )
    for size in (4016, 4017, 8000, 12000, 16000):
        one = made(content="x" * size)
        said = (taken(id_in(one)), refused(B, 10)) if size == 4016 else (refused(id_in(one), 9), refused(B, 9))
        yield run(zip(said, (offer(one), offer(one, id=B))))
    for number, (row, text) in enumerate(full_messages()):
        if '"REQ"' in text:
            yield run([({0: eose(), 1: notice(1), 8: closed("s", 8)}[row], text)], (0, 1, 7, 4096)[number % 4])


# Each row of the table of numbers, in each of its forms.


def rows():
    good = made(kind=1)
    values = spelled_fields(good, plain)
    for row, name, value in EVENT_FAULTS:
        text = event({**values, name: value}.items())
        named = row > 5 and name != "id"
        yield run([(refused(id_in(good), row) if named else notice(row), text)])
    for row, name, value in FILTER_FAULTS:
        want = closed("s", row) if row > 5 else notice(row)
        yield run([(want, req('{"%s":%s}' % (name, value)))])
        yield run([(want, req("{}", '{"%s":%s}' % (name, value)))])
        # a REQ whose own subscription id is past its bounds names nothing
        for long in ("", "x" * 65):
            yield run([(notice(row), req('{"%s":%s}' % (name, value), sub=plain(long)))])
    for row, sub in SUB_FAULTS:
        yield run([(notice(row), req("{}", sub=sub)), (notice(row), '["CLOSE",%s]' % sub)])
    for count in (0, 5):
        yield run([(closed("s", 8), req(*["{}"] * count))])
    # 02, Wish 1: hex in #e and #p, in the fifth filter too
    for name in ("#e", "#p", "#\\u0065", "\\u0023\\u0070"):
        for value in ("", "x", A[1:], A + "a", A.upper()):
            wrong = '{"%s":[⑦%s]}' % (name, plain(value))
            yield run([(closed("s", 7), req(wrong)), (closed("s", 7), req("{}", "{}", "{}", "{}", wrong)), (notice(7), req(wrong, sub='""'))])
        yield run([(eose(), req('{"%s":[%s]}' % (name, string))) for string in (plain(A), '"%s"' % ("\\u0061" * 64))])
        yield run([(closed("s", 6), req('{"%s":["x"],"limit":⑥65536}' % name)), (closed("s", 8), req('{"%s":[]}' % name))])
    tagged = made(kind=1, tags=[["e", A], ["p", "x"], ["E", "x"]])
    yield run(
        [
            (taken(id_in(tagged)), offer(tagged)),
            (sent(tagged) + eose(), req('{"#e":[%s]}' % plain(A))),
            (eose(), req('{"#e":[%s]}' % plain(B))),
            (eose(), req('{"#p":[%s]}' % plain(A))),
            (closed("s", 7), req('{"#p":[⑦"x"]}')),
            (sent(tagged) + eose(), req('{"#E":["x"]}')),
        ]
    )
    for size in (4016, 4017):
        one = made(content="x" * size)
        yield run([(taken(id_in(one)) if size == 4016 else refused(id_in(one), 9), offer(one))])
        yield run([(refused(B, 10 if size == 4016 else 9), offer(one, id=B))])
    yield run([(refused(B, 10), offer(good, id=B)), (eose(), req("{}"))])
    # the id is spelled with escapes, and said without
    rng = random.Random(20)
    for _ in range(12):
        string = lambda s: spell(rng, s)
        wrong = {**spelled_fields(good, string, B), "kind": "⑥65536"}
        yield run([(refused(B, 6), event(wrong.items())), (refused(B, 10), offer(good, string, B)), (taken(id_in(good)), offer(good, string))])
    for spelled, said in (('"\\u0073"', "s"), ('"\\/\\u0022\\n"', '/\\"\\n'), ('"\\ud83d\\ude00"', "\U0001f600"), ('"\u00e9"', "\u00e9")):
        asked = [(eose(said), req("{}", sub=spelled)), (closed(said, 6), req('{"limit":⑥-1}', sub=spelled)), ("", '["CLOSE",%s]' % spelled)]
        yield run(asked)
    for count in (64, 65):
        sub = "\u00e9" * count
        yield run([(eose(sub) if count == 64 else notice(8), req("{}", sub=plain(sub)))])


def answered(row, text):
    """The reply to a message that one of rows 1 to 7 refuses, by what it names."""
    name, spelled = (cases_offset.named(text) if row > 5 else None) or (None, None)
    return {"sub": closed(spelled, row), "id": refused(spelled, row)}.get(name, notice(row))


def offsets():
    """02, Wish 9: a refusal by 6 or 7 says where, in OK, CLOSED and NOTICE alike; messages one behind the other, cut anywhere."""
    wrong = [(answered(row, text), text) for row, text in cases_offset.short() + list(cases_offset.labelled())[::29]]
    for turn, at in enumerate(range(0, len(wrong), 40)):
        yield run(wrong[at : at + 40], CUTS[turn % len(CUTS)])


# Verdicts, and a full table.


def verdicts():
    one, newer, older = tile(1), tile(1, 1), tile(1, -7200)
    flash = made(kind=20000, created_at=5)
    yield run(
        [
            (taken(id_in(one)), offer(one)),
            (taken(id_in(one), DUPLICATE), offer(one)),
            (taken(id_in(older), OLDER), offer(older)),
            (taken(id_in(flash)), offer(flash)),
            (sent(one) + eose(), req("{}")),
            (taken(id_in(newer)), offer(newer)),
            (taken(id_in(one), OLDER), offer(one)),
            (sent(newer) + eose(), req("{}")),
        ]
    )
    full = [tile(n, n) for n in range(8)]
    stranger, again = made(kind=1), tile(3, 100)
    newest_first = sorted(full, key=lambda fields: -int(fields["created_at"]))
    yield run(
        [(taken(id_in(fields)), offer(fields)) for fields in full]
        + [
            (taken(id_in(full[0]), DUPLICATE), offer(full[0])),
            (refused(id_in(stranger), 12), offer(stranger)),
            (taken(id_in(flash)), offer(flash)),
            ("".join(map(sent, newest_first)) + eose(), req("{}")),
            (taken(id_in(again)), offer(again)),
            (sent(again) + eose(), req('{"limit":1}')),
            (refused(id_in(stranger), 12), offer(stranger)),
            (taken(id_in(full[3]), OLDER), offer(full[3])),
            (eose(), req('{"limit":0}')),
            (eose(), req('{"since":101}')),
            (sent(again) + eose(), req('{"since":100}', '{"ids":["%s"]}' % id_in(again))),
        ]
    )
    before = made(created_at=-1, kind=1)
    yield run([(taken(id_in(before)), offer(before)), (eose(), req('{"since":0}')), (sent(before) + eose(), req('{"since":-1,"until":-1}'))])


# 02, Wish 3: control characters.

LONGEST = (MESSAGE_BYTES - len(offer(made()))) // 6  # so many of them, spelled, a content has in a message


def controls():
    """Spelled in a message in either case, they are spelled anew in each reply, with short escapes or lower-case digits."""
    for c in BELOW + "\x7f":
        one, said = made(kind=1, tags=[["t", c]], content="x" + c), plain(c)[1:-1]
        for s in u_escapes(c):
            sub = '"%s"' % s
            asked = [
                (taken(id_in(one)), offer(one, lambda value: '"%s"' % value.replace(c, s))),
                (taken(id_in(one), DUPLICATE), offer(one)),
                (sent(one, said) + eose(said), req('{"#t":["no","%s"]}' % s, sub=sub)),
                (eose(said), req('{"#t":["%s%s","\\%s"]}' % (s, s, s), sub=sub)),
                (closed(said, 6), req('{"limit":⑥-1}', sub=sub)),
                (closed(said + said, 8), req(sub='"%s%s"' % (s, s))),
                (closed(said, 7), req('{"#e":[⑦"%s"]}' % s, sub=sub)),
                ("", '["CLOSE",%s]' % sub),
                (notice(5), req('{"%s":["x"]}' % s)),
                (notice(5), '{"%s":1}' % s),
                (notice(4), '["CLOSE","%s\\ud800"]' % s),
            ]
            yield run(asked, (0, 1, 7)[ord(c) % 3])
        if c != "\n":
            texts = [(eose(c), req("{}", sub='"%s"' % c)), ("", '["CLOSE","%s"]' % c)]
            texts += [(taken(id_in(one)), offer(one).replace(said, c))]
            yield run([(notice(3) if c < " " else want, text) for want, text in texts])


def control_replies():
    """All of them at once; subscription ids of 64 and 65; the longest events, whose answer is longer than 65,536 bytes."""
    every = BELOW + "\x7f"
    said = plain(every)[1:-1]
    first, second = [made(created_at=time, kind=30000, tags=[["d", BELOW], ["t", every]], content=every) for time in (0, 1)]
    other = made(created_at=2, kind=30000, tags=[["d", BELOW[:-1]]])
    yield run(
        [
            (taken(id_in(first)), offer(first)),
            (sent(first, said) + eose(said), req('{"#d":[%s]}' % in_capitals(BELOW), sub='"%s"' % said)),
            (taken(id_in(second)), offer(second, in_capitals)),
            (taken(id_in(first), OLDER), offer(first, in_capitals)),
            (taken(id_in(other)), offer(other)),
            (sent(other, said) + sent(second, said) + eose(said), req("{}", sub=in_capitals(every))),
            (sent(second) + eose(), req('{"#t":[%s]}' % plain(every))),
            (closed(said, 6), req('{"limit":⑥65536}', sub='"%s"' % said)),
            (closed(said, 8), req('{"#d":[]}', sub=in_capitals(every))),
        ]
    )
    for c in "\x00\x01\x1f\n":
        for count in (1, 63, 64, 65):
            sub, said = plain(c * count), plain(c * count)[1:-1]
            asked = [(eose(said), req("{}", sub=sub)), (closed(said, 6), req('{"limit":⑥-1}', sub=sub))]
            asked.append(("", '["CLOSE",%s]' % sub))
            over = [(notice(row), text) for row, (_, text) in zip((8, 6, 8), asked)]
            yield run(over if count > 64 else asked)
    # What is hashed is the text with these raw, which has a byte for each.
    for c in "\x00\x1f":
        for size in (4016, 4017):
            one = made(content=c * 600 + "x" * (size - 600))
            yield run([(taken(id_in(one)) if size == 4016 else refused(id_in(one), 9), offer(one))])
        one = made(content=c)
        spelled_id = sha256(('[0,"%s",0,0,[],%s]' % (A, plain(c))).encode())
        yield run([(refused(spelled_id, 10), offer(one, id=spelled_id)), (taken(id_in(one)), offer(one))])
    sub = plain("\x1f" * 64)
    full = [tile(n, n, CONTROLS[n] * (LONGEST - 20)) for n in range(8)]
    answers = [sent(fields, sub[1:-1]) for fields in reversed(full)]
    for cut in (0, 100, MESSAGE_BYTES + 1):
        yield run(
            [(taken(id_in(fields)), offer(fields)) for fields in full]
            + [("".join(answers[:limit]) + eose(sub[1:-1]), req('{"limit":%d}' % limit, sub=sub)) for limit in (8, 1, 7)],
            cut,
        )


# Random runs: events of few keys, what is asked of them, and lines that are broken in many ways.

FEW_TAGS = [[], [["d"]], [["d", ""]], [["d", "a"]], [["d", "a\n"]], [["g", "x"], ["g", "y", "z"]], [["G", "x"], ["t"]],
            [["e", A], ["e", B], ["p", A, "x"]], [["p", B], ["e", "x"], ["E", "x"]]]
CONTROL_TAGS = [[["d", "\x00"]], [["d", "\x00\x01"]], [["g", "\x1f"], ["g", "\x0b\x7f"]], [["G", CONTROLS], ["g", "\x01"]]]


def random_fields(rng, few=FEW_TAGS, sample=SAMPLE):
    kind = rng.choice([0, 1, 1, 3, 44, 9999, 10000, 19999, 20000, 30000, 30000, 30000, 39999, 40000])
    tags = rng.choice(few)
    time = rng.choice([0, 0, 1, 2, -1, -7200, 1700000000, MAX_TIME, -MAX_TIME])
    inner = rng.choice(["", "", words(rng, 6, sample), "x" * rng.randrange(10, 60)])
    return made(rng.choice([A, A, B]), time, kind, tags, inner)


def random_condition(rng, name, events):
    one = rng.choice(events)
    if name == "ids":
        return "[%s]" % ",".join(plain(id_in(rng.choice(events))) for _ in range(rng.randrange(1, 4)))
    if name == "authors":
        return rng.choice(['["%s"]' % A, '["%s"]' % B, '["%s","%s"]' % (A, B), '["%s"]' % ("c" * 64)])
    if name == "kinds":
        return "[%s]" % ",".join(rng.choice(events)["kind"] for _ in range(rng.randrange(1, 4)))
    if name == "limit":
        return str(rng.choice([0, 1, 2, 3, 8, 65535]))
    if name in ("since", "until"):
        return str(max(-MAX_TIME, min(MAX_TIME, int(one["created_at"]) + rng.choice([-1, 0, 0, 1]))))
    values = [tag[1] for tag in one["tags"] if len(tag) > 1] or ["x"]
    if name in ("#e", "#p") and rng.randrange(8):
        values = [value for value in values if len(value) == 64] or [A]
    return "[%s]" % ",".join(spell(rng, value) for value in values)


def random_filter(rng, events):
    names = rng.sample("ids authors kinds since until limit limit #d #g #G #e #p #E".split(), rng.choice([0, 0, 1, 1, 1, 2, 3]))
    return "{%s}" % ",".join('"%s":%s' % (name, random_condition(rng, name, events)) for name in dict.fromkeys(names))


def random_text(rng, events, strays, sample=SAMPLE):
    way = rng.randrange(20)
    if way < 9:
        string = plain if rng.randrange(4) else lambda s: spell(rng, s)
        wrong = {"id": hexes(rng, 64)} if rng.randrange(15) == 0 else {}
        return raw(offer(rng.choice(events), string, **wrong))
    if way < 16:
        sub = rng.choice(['"s"', '"s"', spell(rng, "s" + words(rng, 3, sample))])
        return raw(req(*[random_filter(rng, events) for _ in range(rng.choice([1, 1, 1, 2, 4]))], sub=sub))
    if way == 16:
        return damaged(rng, raw(offer(rng.choice(events))))
    if way == 17:
        head, objects = random_message(rng, sample)
        return written(rng, head, broken(rng, objects) if objects else objects)
    return rng.choice(strays)


def random_runs(rng, count, few=FEW_TAGS, sample=SAMPLE):
    strays = [line for line in random_lines(rng, 460, sample) if len(line) < 400 and b"\n" not in line]
    for _ in range(count):
        events = [random_fields(rng, few, sample) for _ in range(rng.choice([3, 6, 12, 20]))]
        texts = [random_text(rng, events, strays, sample).replace(b"\n", b" ") for _ in range(rng.choice([5, 12, 25, 40]))]
        last = b"LP"[rng.randrange(2) :][:1]
        yield None, rng.choice(CUTS), [b"L" + text for text in texts[:-1]] + [last + texts[-1]]


def runs():
    for part in (ends, long_lines, cut_lines, long_messages, rows, verdicts, controls, control_replies, offsets):
        yield from part()
    yield from random_runs(random.Random(21), 500)
    yield from random_runs(random.Random(23), 40, FEW_TAGS + CONTROL_TAGS, WIDE)


def lines():
    out = []
    for _, cut, given in runs():
        out += [b"N%d" % cut] + given + [b"E"]
    return out


def control_lines():
    """Newer events of keys that the long run below holds, with control characters, and what is asked of them."""
    short = [made(key, MAX_TIME - 1, kind, [["d", "a"], ["g", BELOW]], BELOW) for key in (A, B) for kind in (3, 30000)]
    long = []
    for key, kind in ((A, 3), (B, 30000)):
        # Of equal times the lowest id stays.
        choice = [made(key, MAX_TIME, kind, [["d", "a"], ["g", "\x00"]], "\x1f" * (LONGEST - 60 - n)) for n in range(16)]
        long.append(min(choice, key=id_in))
    subs = [plain(BELOW + "\x7f"), plain("\x01" * 64), in_capitals(BELOW * 2), in_capitals(BELOW * 2 + "\x00"), '"\x01"']
    for events, value in ((short, BELOW), (long, "\x00")):
        yield from (offer(fields, string) for fields in events for string in (plain, in_capitals))
        for sub in subs:
            yield req('{"#g":[%s]}' % plain(value), sub=sub)
            yield req('{"limit":-1}', sub=sub)
            yield '["CLOSE",%s]' % sub


def relay_lines():
    """The stored input of the program relay itself: 01's four lines, then one long run, whose last line has no 0A."""
    rng = random.Random(22)
    sizes = (8192, 8193, MESSAGE_BYTES - 1, MESSAGE_BYTES, MESSAGE_BYTES + 1, 1000000)
    out = [raw(text) for text in FOUR] + [b"x" * size for size in sizes]
    for size in sizes[:-1]:
        out += [raw(req("{}")).ljust(size), raw('["CLOSE","s"]').rjust(size)]
    for _, _, given in list(random_runs(rng, 40)) + list(random_runs(random.Random(24), 6, FEW_TAGS + CONTROL_TAGS, WIDE)):
        out += [line[1:] for line in given]
    out += [raw(text) for text in control_lines()] + [raw(text) for _, text in cases_offset.short()[::15]]
    return out + [raw(req("{}"))]
