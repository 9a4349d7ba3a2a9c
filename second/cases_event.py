"""Lines for event_cases: messages offered, and after `T ` texts read back. (row, line) where the row is plain."""

import random
from functools import cache

import cases_offset
from cases_message import A, EVENT_FAULTS, GOOD, event, event_with, many, req
from rows import MESSAGE_BYTES, text_of
from sha256 import sha256
from spell import BELOW, CONTROLS, SAMPLE, WIDE, damaged, escaped, hexes, joined, plain, raw, space, spell, u_escapes, words

MAX_TIME = 9007199254740991
KINDS = [0, 1, 2, 3, 4, 44, 45, 999, 1000, 9999, 10000, 19999, 20000, 29999, 30000, 39999, 40000, 65535]
TIMES = [0, 1, -1, -7200, 1700000000, 2**31, 2**32, -(2**31), MAX_TIME - 1, MAX_TIME, 1 - MAX_TIME, -MAX_TIME]
BASE_TEXT = 80  # 01: A, 0, kind 0, no tags, empty content


def made(pubkey=A, created_at=0, kind=0, tags=(), content=""):
    """An event without id and signature."""
    return dict(pubkey=pubkey, created_at=str(created_at), kind=str(kind), tags=list(tags), content=content)


STARRED = made(created_at=-7200, kind=1, tags=[["d", "t\n1"]], content='a"b')  # 01, "Cases on either side"


digest = cache(sha256)


def id_of(fields):
    return digest(text_of(fields))


def spelled_fields(fields, string, id=None):
    """The fields of an EVENT as spelled: string spells one string."""
    return {
        "id": string(id or id_of(fields)),
        "pubkey": string(fields["pubkey"]),
        "created_at": fields["created_at"],
        "kind": fields["kind"],
        "tags": "[" + ",".join("[" + ",".join(map(string, tag)) + "]" for tag in fields["tags"]) + "]",
        "content": string(fields["content"]),
        "sig": string("b" * 128),
    }


def offer(fields, string=plain, id=None):
    return event(spelled_fields(fields, string, id).items())


def text(fields):
    return "T " + text_of(fields).decode()


def good_events():
    yield made()
    yield STARRED
    for kind in KINDS:
        yield made(kind=kind)
    for time in TIMES:
        yield made(created_at=time, kind=30000, tags=[["d", "tile"]])
    for c in SAMPLE:
        yield made(content=c)
        yield made(kind=30000, tags=[["d", c], [c]], content="x" + c + c + "y")
    yield made(tags=[[SAMPLE, SAMPLE], [SAMPLE]], content=SAMPLE)
    yield made(content="\\n\\u0041\\\\", tags=[["\\", '"', '\\"', "/", "//"]])
    yield made(content='"],[0,"', tags=[["]"], ["[["], ['","']])
    yield made(pubkey="0123456789abcdef" * 4, tags=[[""], ["", ""], ["", "", ""]])
    yield made(tags=[["d"]], kind=30001)
    yield made(tags=[["d", ""]], kind=30001)
    for tags in (1, 63, 64):
        yield made(tags=[["t"]] * tags)
    for strings in (1, 15, 16):
        yield made(tags=[["s"] * strings] * 3)
    yield made(tags=[[""] * 16] * 64)
    for c in CONTROLS:
        yield made(kind=30000, tags=[["d", c], [c], ["t", c + c]], content="x" + c + c + "y")
    yield made(content=BELOW + "\x7f", tags=[[BELOW, BELOW], ["\x7f"]])
    yield made(kind=30000, tags=[["d", BELOW]], content="\x00")
    yield made(content="\x00" * 40 + "\x1f" * 40, tags=[["\x00" * 33, "\x0b" * 31]])
    yield made(content="\\u0001\x01\\", tags=[["\x01\\u0001", "\\\x00"]])


def text_borders():
    """Row 9: the text of 4,096 and 4,097 bytes, whatever the message's own length."""
    room = 4096 - BASE_TEXT
    full = [[""] * 16] * 64
    for extra in (0, 1):
        row = 9 * extra
        for fields in (
            made(content="x" * (room + extra)),
            made(content="\n" * (room // 2) + "x" * extra),
            made(content="é" * (room // 2) + "x" * extra),
            made(content="😀" * (room // 4) + "x" * extra),
            made(content="x" * (room - 1) + '"' * extra + "x" * (1 - extra)),
            made(created_at=-MAX_TIME, kind=65535, content="x" * (room - 16 - 4 + extra)),
            made(tags=[["x" * (room - 4 + extra)]]),
            made(tags=[["\\" * ((room - 4) // 2), "x" * extra][: 1 + extra]]),
            made(tags=full, content="x" * (4096 - len(text_of(made(tags=full))) + extra)),
        ):
            yield row, offer(fields)
            yield row, text(fields)
    yield 9, offer(made(content="x" * (room + 1)), id="0" * 64)
    yield 10, offer(made(content="x" * room), id="0" * 64)
    most = MESSAGE_BYTES - len(offer(made()))
    for size in (4017, 7000, 8191, 8192, 8193, 12000, 16000, most - 1, most, most + 1, most + 2):
        for name in ("content", "tags"):
            # In the text and in the message alike a tag of one string has four characters around it.
            fields = made(content="x" * size) if name == "content" else made(tags=[["x" * (size - 4)]])
            row = 9 if size <= most else 1
            yield row, offer(fields)
            yield row, offer(fields, id="0" * 64)
    rng = random.Random(3)
    yield 0, offer(made(content="x" * 1200), lambda s: escaped(rng, s) if len(s) > 128 else plain(s))
    yield 0, offer(made(content="😀" * 600), lambda s: escaped(rng, s) if len(s) > 128 else plain(s))
    # Spelled with \u, a text that is short enough has up to six times its bytes in a message.
    long_escaped = lambda s: escaped(rng, s) if len(s) > 128 else plain(s)
    for c, count in (("x", 2600), ("é", 2008), ("\n", 2008), ('"', 2008), ("€", 1338), ("😀", 1004), ("\x01", 2600)):
        each = len(text_of(made(content=c))) - BASE_TEXT
        full = each * (count + 1) > room
        yield 0, offer(made(content=c * count), long_escaped)
        yield 10, offer(made(content=c * count), long_escaped, "0" * 64)
        yield 9 * full, offer(made(content=c * (count + 1)), long_escaped)
    yield 0, offer(made(tags=[["é" * 245] * 8], content="x" * 21), long_escaped)
    for strings in (14, 15, 16):
        # 64 tags, each string one character that is spelled with six.
        fields = made(tags=[["x"] * strings] * 64)
        yield 9 * (len(text_of(fields)) > 4096), offer(fields, lambda s: escaped(rng, s) if s == "x" else plain(s))
    yield 9, text(made(content="x" * 8000))
    for size in (8192, 8193, MESSAGE_BYTES - 1, MESSAGE_BYTES, MESSAGE_BYTES + 1):
        yield 9, text(made(content="x" * (size - BASE_TEXT)))
    yield 9, "T " + "x" * 4097
    yield 5, "T " + "x" * 4096
    yield 9, "T " + " " * 4097
    yield 9, "T " + text_of(made()).decode() + " " * 4017
    yield 5, "T " + text_of(made()).decode() + " " * 4016
    yield 9, "T " + "\udcff" * 4097
    yield 5, "T " + "\udcff" * 4096
    yield 9, "T " + "x" * 9000
    for size in (65535, 65536, 65537):
        yield 9, "T " + "x" * (size - 2)
    yield 1, offer(made()) + " " * 65536
    # Control characters that stand raw have one byte each.
    for extra in (0, 1):
        for c in "\x00\x01\x1f":
            yield 9 * extra, text(made(content=c * (room + extra)))
            yield 9 * extra, offer(made(content=c * 600 + "x" * (room - 600 + extra)))
        yield 9 * extra, text(made(tags=[["\x0b" * (room - 4 + extra)]]))
        yield 9 * extra, offer(made(tags=[["\x0b" * 600 + "\n" * 1000 + "x" * (room - 2604 + extra)]]))
    for c in "\x00\x1f":
        yield 0, offer(made(content=c * (most // 6)))
        yield 1, offer(made(content=c * (most // 6 + 1)))
        # 4,016 of them fill a text, and no message has room for so many.
        yield 1, offer(made(content=c * room))


def wrong_ids():
    """Row 10: ids of other texts than the one that 01 gives."""
    for fields in (made(), STARRED, made(content="/A é\x7f")):
        right = id_of(fields)
        for wrong in ("0" * 64, "f" * 64, A, right[::-1], right[1:] + right[:1]):
            yield 10, offer(fields, id=wrong)
        for at in (0, 1, 31, 32, 62, 63):
            digit = "0" if right[at] != "0" else "1"
            yield 10, offer(fields, id=right[:at] + digit + right[at + 1 :])
        yield 7, offer(fields, id=right.upper())
        yield 7, offer(fields, id=right[:-1])
        yield 7, offer(fields, id=right + "0")
    minus = made(created_at=-7200)
    yield 10, offer(minus, id=id_of({**minus, "created_at": str(2**64 - 7200)}))
    yield 10, offer(minus, id=id_of({**minus, "created_at": "7200"}))
    clients = {"A": "\\u0041", "/": "\\/", "\n": "\\u000a", "é": "\\u00e9", "\x7f": "\\u007f", "😀": "\\ud83d\\ude00"}
    clients.update({"\x00": "\\u0000", "\x01": "\\u0001", "\x0b": "\\u000B", "\x1f": "\\u001F"})
    for decoded, client in clients.items():
        spellings = {**spelled_fields(made(content=decoded), plain), "content": '"%s"' % client}
        hashed_as_spelled = sha256(('[0,"%s",0,0,[],"%s"]' % (A, client)).encode())
        yield 0, event(spellings.items())
        yield 10, event({**spellings, "id": plain(hashed_as_spelled)}.items())
        spellings = {**spelled_fields(made(tags=[["t", decoded]]), plain), "tags": '[["t","%s"]]' % client}
        hashed_as_spelled = sha256(('[0,"%s",0,0,[["t","%s"]],""]' % (A, client)).encode())
        yield 0, event(spellings.items())
        yield 10, event({**spellings, "id": plain(hashed_as_spelled)}.items())
    for form in ('[0, "%s", 0, 0, [], ""]', '[0,"%s",0,0,[],""]\n', '["0","%s",0,0,[],""]', '["%s",0,0,[],""]'):
        yield 10, offer(made(), id=sha256((form % A).encode()))


def other_messages():
    """Rows 1 to 8 of an offer, and messages that are no EVENT."""
    good = offer(made())
    for size in (8192, 8193, MESSAGE_BYTES - 1, MESSAGE_BYTES):
        yield 0, good + " " * (size - len(good))
        yield 0, " " * (size - len(good)) + good
    yield 1, good + " " * (MESSAGE_BYTES + 1 - len(good))
    yield 1, " " * (MESSAGE_BYTES + 1 - len(good)) + good
    for row, name, value in EVENT_FAULTS:
        yield row, event({**spelled_fields(made(), plain), name: value}.items())
        yield row, event({**spelled_fields(made(content="x" * 4017), plain, A), name: value}.items())
    yield 10, event_with()
    yield 5, event(list(GOOD.items())[1:])
    yield 6, event_with(kind="65536")
    for line in '["CLOSE","s"] ["CLOSE",""] ["CLOSE",1] ["AUTH","s"] {} [] 1 "T" ["EVENT"] ["EVENT","s",{}]'.split():
        yield 5, line
    for one in '{} {"limit":-0} {"limit":65536} {"ids":[""]} {"kinds":[]} {"x":1} 1'.split():
        yield 5, req(one)
    yield 5, req()
    yield 5, req(*["{}"] * 5)
    yield 5, req("{}", sub='""')
    yield 4, req('{"#a":["\\ud800"]}')
    yield 5, '["CLOSE","\\u0000"]'
    yield 4, '["CLOSE","\\u0000\\udc00"]'
    yield 4, req('{"limit":-0,"\\udc00":1}')
    for line in ('["REQ","s",{}', "", "T", "t [0]", " T [0]", "T\t[0]", "Tx", "TT ", "true", "[9]]"):
        yield (5 if line == "true" else 3), line
    yield 2, '["CLOSE","\udcff"]'
    yield 2, "T\udcff"
    yield 3, "x" * MESSAGE_BYTES
    yield 1, "x" * (MESSAGE_BYTES + 1)
    # Counts far over their bounds, in messages that are long enough for them.
    yield 8, event({**spelled_fields(made(), plain), "tags": many('["t"]', 2600)}.items())
    yield 8, event({**spelled_fields(made(), plain), "tags": "[%s]" % many('""', 5000)}.items())
    yield 5, event({**spelled_fields(made(), plain), "tags": "[" + '["t"],' * 2600 + "1]"}.items())
    yield 6, event({**spelled_fields(made(), plain), "created_at": "9" * 16000}.items())
    yield 6, event({**spelled_fields(made(), plain), "kind": "-" + "1" * 16000}.items())
    yield 7, event({**spelled_fields(made(), plain), "sig": plain("b" * 15900)}.items())


def near_texts():
    """Texts that differ from a serialisation in little: all 5."""
    start, end = '[0,"%s"' % A, ',[["d","t\\n1"],["e"]],"a\\"b"]'
    whole = start + ",-7200,1" + end
    yield ""
    yield " "
    for cut in (" ", "\t", "\r", ",", "]", "0", '"', "\x00", "x", "\udcff", "\ufeff", "[]"):
        yield whole + cut
        yield cut + whole
    tokens = ('[ 0 , "%s" , 0 , 1 , [ [ "d" , "t" ] , [ "e" ] ] , "x" ]' % A).split()
    for at in range(len(tokens) + 1):
        yield "".join(tokens[:at]) + " " + "".join(tokens[at:])
        yield "".join(tokens[:at]) + "\t" + "".join(tokens[at:])
    yield whole.replace(",", ", ")
    for number in '-0 00 01 -01 +1 1.0 1e0 0.0 0e0 "1" null true [] 1. 0x1 １'.split() + ["", " 1", "1 "]:
        yield start + "," + number + ",1" + end
        yield start + ",1," + number + end
    for kind in (-1, 65536, 65537, 99999, 2**32, 2**32 + 1, 2**64, 2**64 + 1, 10**400):
        yield start + ",0,%d" % kind + end
    for time in (MAX_TIME + 1, -MAX_TIME - 1, 2**63, -(2**63), 2**64, 2**64 - 7200, 2**64 + 1, 10**400, -(10**400)):
        yield start + ",%d,1" % time + end
    for zero in ["1", "-0", "00", "0.0", "0e0", '"0"', '""', "null", "false", "[]", "", "-1"]:
        yield whole.replace("[0,", "[%s," % zero, 1)
    for key in ["", "a", A[1:], A + "a", A.upper(), A[2:] + "é"]:
        yield whole.replace(A, key)
    for last in ["A", "g", "\\u0061", "é", " ", "\\n"]:
        yield whole.replace(A, A[1:] + last)
    yield whole.replace('"%s"' % A, "null")
    yield whole.replace('"%s"' % A, A)
    for tags in (
        '[[]] [["a"],[]] [[],["a"]] [[[]]] [1] ["a"] [[1]] [null] [[null]] [["a",1]] [{}] {} "" null 0 [,] [["a"],] '
        '[["a",]] [["a"] ["a"]] [["a"]["b"]] [["a""b"]] [["a"]_] [_["a"]] [["a"_]] [[_"a"]] [_] [["a"],_["b"]] _'
    ).split(" "):
        yield start + ",0,1," + tags.replace("_", " ") + ',""]'
    for tags in [[1] * 65, [1] * 66, [17], [1, 17], [17] * 64, [16] * 65, [1] * 64 + [0]]:
        yield start + ",0,1,[" + ",".join(many('""', count) for count in tags) + '],""]'
    for inner in (
        r"\/ \u0041 \u000a \u000A \u0022 \u005c \u00e9 \u007f \u2028 \ud83d\ude00 \ud800 \u0000 \u001f \v \a \0 "
        r'\x41 \ \\\ \N \U0041 \u " a"b "",""'.split(" ")
        + ["\x08", "\x09", "\x0c", "\x0d"]
        + ["\udc80", "\udcff", "\udcc3", "\udcc0\udc80", "\udce2\udc82", "\udced\udca0\udc80"]
    ):
        yield start + ',0,1,[],"%s"]' % inner
        yield start + ',0,1,[["%s"]],""]' % inner
    for content in ("null", "1", "[]", "{}", "true", "", "x", "''", "'x'", '"', '"x', 'x"'):
        yield start + ",0,1,[],%s]" % content
    for end in ("", "]", ",0]", ",0,1]", ",0,1,[]]", ',0,1,[],""', ',0,1,[],"",""]', ',0,1,[],"",0]', ',0,1,[],"",]'):
        yield start + end
    for end in (',0,1,"",[]]', ',1,[],0,""]', ';0;1;[];""]', ',0,1,[],""}', ',0,1,[],""]]'):
        yield start + end
    yield from ["[]", "{}", "0", '""', "null", "[0]", "[[0]]", "[" * 9, offer(made())]
    yield from ['["%s",0,1,[],""]' % A, '[0,0,"%s",1,[],""]' % A]
    yield from ["[%s]" % whole, "{" + whole[1:-1] + "}", whole[1:], whole + whole, whole + "\\n", "T " + whole]


def one_spelling():
    """02, Wish 3: whatever the spelling of a control character is in the message, the text and the id are the same."""
    for c in BELOW:
        fields = made(kind=1, tags=[["t", c]], content=c + "A")
        for s in u_escapes(c):
            spellings = spelled_fields(fields, plain)
            yield event({**spellings, "tags": '[["t","%s"]]' % s, "content": '"%sA"' % s}.items())
            yield event({**spellings, "tags": '[["\\u0074","%s"]]' % s, "content": '"%s\\u0041"' % s}.items())


def control_texts():
    """(row, text): control characters raw in the strings of a text, spelled, outside its strings, and at a text's end."""
    forms = ['[0,"%s",0,1,[],"_"]', '[0,"%s",0,1,[],"x_"]', '[0,"%s",0,1,[["_"]],""]', '[0,"%s",0,1,[["d","_x","_"]],""]']
    forms = [form % A for form in forms]
    outside = ['_[0,"%s",0,1,[],""]', '[0,_"%s",0,1,[],""]', '[0,"%s",0,1_,[],""]', '[0,"%s",0,1,[["a"_]],""]']
    outside += ['[0,"%s",0,1,[],""_]', '[0,"%s",0,1,[],""]_']
    outside = [form % A for form in outside] + ['[0,"%s_",0,1,[],""]' % A[1:]]
    for c in BELOW:
        if c != "\n":
            yield from ((0 if c in CONTROLS else 5, form.replace("_", c)) for form in forms)
            yield from ((5, form.replace("_", c)) for form in outside)
        for s in u_escapes(c):
            yield from ((5, form.replace("_", s)) for form in forms[::2])
            if c in CONTROLS:
                yield 5, forms[0].replace("_", c + s)
    for c in "\x00\x01\x1f\x7f":
        # Raw beside what is refused, then cut off in a string, then with a string that goes on past the text's end.
        for near in ("\\ud800", "\\udc00", '"', "\\", "\\u0041", "\\/", "\udcff", "\udced\udca0\udc80", "\r"):
            yield 5, forms[0].replace("_", c + near)
            yield 5, forms[2].replace("_", near + c)
        for size in (0, 1, 31, 32, 33, 64):
            whole = forms[0].replace("_", "x" * size + c)
            yield 0, whole
            for cut in (1, 2):
                yield 5, whole[:-cut]
                yield 5, whole[:-cut] + c + c
            yield 5, forms[2].replace("_", "x" * size + c)[: -len('"]],""]')]


def one_byte_off(rng):
    """Each byte of 01's 100-byte text deleted, doubled, replaced, swapped with the next."""
    whole = text_of(STARRED)
    for at in list(range(6)) + list(range(60, len(whole))):
        head, tail = whole[:at], whole[at + 1 :]
        yield head + tail
        yield head + whole[at : at + 1] * 2 + tail
        yield head + whole[at + 1 : at + 2] + whole[at : at + 1] + whole[at + 2 :]
        for byte in rng.sample(b' "\\,:[]{}0123456789-abfnrtudexA/.+\t\r\x00\x1f\x7f\x80\xc3\xff', 6):
            yield head + bytes([byte]) + tail


def random_fields(rng, sample):
    tags = [[words(rng, 5, sample) for _ in range(rng.choice([1, 2, 2, 3, 16]))] for _ in range(rng.choice([0, 1, 2, 5]))]
    time = rng.choice([0, -7200, 1700000000, rng.randrange(-MAX_TIME, MAX_TIME + 1)])
    return made(hexes(rng, 64), time, rng.choice(KINDS + [rng.randrange(65536)]), tags, words(rng, 30, sample))


def respelled(rng, fields):
    """The same event with other escapes, white space and order of fields."""
    spellings = list(spelled_fields(fields, lambda s: spell(rng, s)).items())
    rng.shuffle(spellings)
    inner = [spell(rng, name) + space(rng) + ":" + space(rng) + value for name, value in spellings]
    return joined(rng, [spell(rng, "EVENT"), joined(rng, inner, "{}")], "[]")


def labelled():
    rng = random.Random(4)
    for fields in good_events():
        yield 0, offer(fields)
        yield 0, text(fields)
        line = respelled(rng, fields)
        if len(raw(line)) <= MESSAGE_BYTES:
            yield 0, line
    for part in (text_borders, wrong_ids, other_messages):
        yield from part()
    for near in near_texts():
        yield 5, "T " + near
    for line in one_spelling():
        yield 0, line
    # Rows 6 and 7 say where; what is no EVENT says it nowhere.
    yield from cases_offset.short("EVENT")
    for row, line in cases_offset.short("REQ")[::11]:
        yield min(row, 5), line
    for row, one in control_texts():
        yield row, "T " + one


def random_lines(rng, count, sample):
    for _ in range(count):
        fields = random_fields(rng, sample)
        line = respelled(rng, fields)
        own = text_of(fields)
        yield raw(line)
        yield raw(offer(fields, id=rng.choice([None, None, hexes(rng, 64)])))
        yield damaged(rng, raw(line))
        yield b"T " + own
        yield b"T " + damaged(rng, own)
        yield b"T " + damaged(rng, own)


def lines():
    rng = random.Random(1)
    out = [raw(line) for _, line in labelled()]
    out += [b"T " + near for near in one_byte_off(rng)]
    return out + list(random_lines(rng, 250, SAMPLE)) + list(random_lines(random.Random(2), 50, WIDE))
