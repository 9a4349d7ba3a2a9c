"""Compares this program with hashlib and json, with 01's own cases, and with the rows that cases are made for.

Exits 1 on a difference.
"""

import hashlib
import json
import random
import re
import struct
import sys
from bisect import bisect_left
from functools import cache

import cases_digest
import cases_event
import cases_message
import cases_offset
import cases_parts
import cases_query
import cases_relay
import cases_table
import old
import query
import relay
from answer import ANSWERS, lines
from cases import stdin
from json_text import NotUtf8, characters
from parts import body_faults, lowest
from rows import EVENT, IN_REPLIES, MESSAGE_BYTES, Refusal, spelled_record, text_of
from sha256 import sha256
from spell import BELOW, damaged, raw, said, u_escapes
from table import Event, Program, held, parts_event

A = "a" * 64
failures = []
stored = cache(lambda name: lines(stdin(name)))
digest_answer, json_answer, message_answer, event_answer, parts_answer = (
    cache(ANSWERS[name]) for name in ("digest_cases", "json_cases", "message_cases", "event_cases", "parts_cases")
)


def same(what, got, want):
    if got != want:
        failures.append(what)
        print("%s: got %r, want %r" % (what, got, want))


def row_of(answer):
    return int(answer.split(b" ")[0].split(b"@")[0])


def same_refusal(what, answer, row, text):
    """The row of a message, and where it is marked the offset too."""
    got, want = answer.split(b" ")[0], said(row, text)
    same("%s %s" % (what, text[:300]), got if b"@" in want else got.split(b"@")[0], want)


def test_digest():
    for message, digest in cases_digest.VECTORS:
        same("vector", sha256(message), digest)
    rng = random.Random(5)
    for length in list(range(300)) + [rng.randrange(5000) for _ in range(50)]:
        message = rng.randbytes(length)
        same("digest of %s" % message.hex(), sha256(message), hashlib.sha256(message).hexdigest())
    bad = set(cases_digest.bad_lines())
    for line in bad:
        same("line %r" % line[:80], digest_answer(line), b"bad line")
    for line in stored("digest_cases"):
        if line not in bad:
            message = bytes.fromhex(line.split(b" ")[0].decode().replace("-", ""))
            same("line %r" % line[:80], digest_answer(line), hashlib.sha256(message).hexdigest().encode())


def test_utf8():
    rng = random.Random(6)
    for _ in range(20000):
        data = damaged(rng, chr(rng.choice([rng.randrange(0xD800), rng.randrange(0xE000, 0x110000)])).encode() * 2)
        data = rng.choice([data, rng.randbytes(3)])
        try:
            want = data.decode()
        except UnicodeDecodeError:
            want = None
        try:
            got = characters(data)
        except NotUtf8:
            got = None
        same("UTF-8 %r" % data, got, want)


def refused_constant(word):
    raise ValueError


def library_value(text):
    """A text read by json: numbers are all 0, an object is a dict with the list of its names and values."""
    return json.loads(
        text,
        parse_int=lambda spelled: 0,
        parse_float=lambda spelled: 0,
        parse_constant=refused_constant,
        object_pairs_hook=lambda pairs: {"members": [part for pair in pairs for part in pair]},
    )


def depth_of(value):
    inner = value["members"] if isinstance(value, dict) else value
    return 1 + max(map(depth_of, inner), default=0) if isinstance(inner, list) else 0


def strings_of(value):
    inner = value["members"] if isinstance(value, dict) else value
    if isinstance(inner, list):
        return [s for item in inner for s in strings_of(item)]
    return [inner] if isinstance(inner, str) else []


def library_row(line):
    """Rows 1 to 4 by Python's own libraries."""
    if len(line) > MESSAGE_BYTES:
        return 1
    try:
        text = line.decode()
    except UnicodeDecodeError:
        return 2
    try:
        value = library_value(text)
    except (ValueError, RecursionError):
        return 3
    if depth_of(value) > 8:
        return 3
    return 4 if any(map(has_surrogate, strings_of(value))) else 0


def has_surrogate(s):
    return any(0xD800 <= ord(c) <= 0xDFFF for c in s)


def reply_bytes(value):
    """A value as json writes it: 01's escapes, and every other control character as \\u and four lower-case digits."""
    return json.dumps(value, ensure_ascii=False, separators=(",", ":")).encode()


def text_bytes(value):
    """The same with the control characters that have no short escape raw, as they stand in the text that is hashed."""
    return re.sub(rb"\\u00([01].)|\\.", lambda m: bytes.fromhex(m[1].decode()) if m[1] else m[0], reply_bytes(value))


def held_value(text):
    """A text in whose strings control characters stand raw, read by json."""
    return json.loads(text.decode(), strict=False)


# A string and the colon that makes it a name, or a number, in the bytes of a text.
TOKEN = re.compile(rb'("(?:[^"\\]|\\.)*")(\s*:)?|-?[0-9][-+.0-9eE]*')
HEX_LENGTHS = {"id": 64, "pubkey": 64, "sig": 128, "ids": 64, "authors": 64, "#e": 64, "#p": 64}


def library_offset(line, row):
    """02, Wish 9, by re and int: the first token of a message that breaks row 6 or 7, or None."""
    name = None
    for token in TOKEN.finditer(line):
        string, colon = token.groups()
        if colon:
            name = json.loads(string)
        elif row == 7 and string and name in HEX_LENGTHS:
            if not re.fullmatch("[0-9a-f]{%d}" % HEX_LENGTHS[name], json.loads(string)):
                return token.start()
        elif row == 6 and not string:
            most = 65535 if name in ("kind", "kinds", "limit") else 2**53 - 1
            plain = re.fullmatch(rb"0|-?[1-9][0-9]{0,18}", token.group())
            if not plain or not (0 if most == 65535 else -most) <= int(token.group()) <= most:
                return token.start()
    return None


def same_offset(line, refusal):
    """Rows 6 and 7 of a message say where, and no others do."""
    row, _, offset = refusal.split(b" ")[0].partition(b"@")
    want = b"%d" % library_offset(line, int(row)) if row in (b"6", b"7") else b""
    same("offset in %r" % line[:300], offset, want)


def test_json():
    for name in ("json_cases", "message_cases"):
        for line in stored(name):
            text, message = json_answer(line).split(b" ")
            same("JSON %r" % line[:200], int(text), library_row(line))
            same_offset(line, message)
            same("again %r" % line[:200], message_answer(line).split(b" ")[0], message)


# From 01 ("Cases on either side", "Shape", "Counts") and from its readings.
KNOWN = [
    (5, "{}"),
    (0, '["REQ","s",{}]'),
    (0, '["CLOSE","s"]'),
    (3, ""),
    (3, "\r"),
    (3, '\ufeff["CLOSE","s"]'),
    (6, '["REQ","s",{"kinds":[⑥65536]}]'),
    (0, '["REQ","s",{"kinds":[65535]}]'),
    (6, '["REQ","s",{"kinds":[⑥1e3]}]'),
    (8, '["REQ","s",{"kinds":[]}]'),
    (0, '["REQ","%s",{}]' % ("é" * 64)),
    (8, '["REQ","%s",{}]' % ("é" * 65)),
    (6, '["REQ","s",{},{},{},{},{"limit":⑥-0}]'),
    (8, '["REQ","s"]'),
    (5, '["REQ"]'),
    (5, '["REQ",{}]'),
    (8, '["CLOSE",""]'),
    (7, '["REQ","s",{"ids":[⑦""]}]'),
    (0, '["REQ","s",{"ids":["%s"]}]' % ("\\u0061" * 64)),
    (3, '["REQ","s",{"limit":01}]'),
    (0, '["CLOSE","\\u0001"]'),
    (0, '["CLOSE","\\u0000\\u001F\\u001f"]'),
    (0, '["REQ","%s",{}]' % ("\\u0000" * 64)),
    (8, '["REQ","%s",{}]' % ("\\u0000" * 65)),
    (5, '{"\\u0001":1}'),
    (5, '["REQ","s",{"\\u0001":1}]'),
    (4, '{"\\u0001\\ud800":1}'),
    (4, '["CLOSE","\\u0000\\udc00"]'),
    (3, '["CLOSE","\x01"]'),
    (3, '["CLOSE","\x00'),
    (3, '["CLOSE","s"]\x00'),
    (2, '["CLOSE","\udced\udca0\udc80"]'),
]


def test_messages():
    for row, text in KNOWN + list(cases_message.labelled()) + list(cases_offset.labelled()):
        same_refusal("message", message_answer(raw(text)), row, text)
    for line in stored("message_cases"):
        answer = message_answer(line)
        if row_of(answer) == 0:
            same("canonical %r" % line[:200], held_value(answer[2:]), json.loads(line))
            same("in short %r" % line[:200], text_bytes(held_value(answer[2:])), answer[2:])
            same("twice %r" % line[:200], message_answer(reply_bytes(held_value(answer[2:]))), answer)
    filters = '{"#z":["1"],"#a":["2"],"#Z":["3"],"limit":1,"until":2,"since":3,"kinds":[4]}'
    same(
        "order of filter fields",
        message_answer(('["REQ","a\\/\\u0062\\u000a",%s]' % filters).encode()),
        b'0 ["REQ","a/b\\n",{"kinds":[4],"since":3,"until":2,"limit":1,"#Z":["3"],"#a":["2"],"#z":["1"]}]',
    )


def test_events():
    starred = cases_event.made(created_at=-7200, kind=1, tags=[["d", "t\n1"]], content='a"b')
    same("01's text", text_of(starred).decode(), '[0,"%s",-7200,1,[["d","t\\n1"]],"a\\"b"]' % A)
    same("01's 100 bytes", len(text_of(starred)), 100)
    same("01's 80 bytes", len(text_of(cases_event.made())), 80)
    for row, line in cases_event.labelled():
        same_refusal("event", event_answer(raw(line)), row, line)
    for line in stored("event_cases"):
        answer = event_answer(line)
        if line.startswith(b"T "):
            same("text %r" % line[:300], answer, library_text_answer(line[2:]))
            continue
        same_offset(line, answer)
        if row_of(answer) in (0, 10):
            event = json.loads(line)[1]
            text = text_bytes([0] + [event[name] for name in ("pubkey", "created_at", "kind", "tags", "content")])
            digest = hashlib.sha256(text).hexdigest()
            row = 0 if event["id"] == digest else 10
            same("offer %r" % line[:300], answer, b"%d %s %s" % (row, digest.encode(), text))


# 02, Wish 3: what a content of all 32 characters below U+0020 is in the text, and in a reply.
IN_TEXT = b"\0\1\2\3\4\5\6\7\\b\\t\\n\x0b\\f\\r\x0e\x0f\x10\x11\x12\x13\x14\x15\x16\x17\x18\x19\x1a\x1b\x1c\x1d\x1e\x1f"
IN_REPLY = (
    r"\u0000\u0001\u0002\u0003\u0004\u0005\u0006\u0007\b\t\n\u000b\f\r\u000e\u000f"
    r"\u0010\u0011\u0012\u0013\u0014\u0015\u0016\u0017\u0018\u0019\u001a\u001b\u001c\u001d\u001e\u001f"
)
EVENT_LINE, OTHER_LINE = 24827, 428  # the most bytes that a reply has with its 0A: an EVENT, any other


def test_controls():
    below = cases_event.made(content=BELOW + "\x7f")
    same("32 in a text", text_of(below), b'[0,"%s",0,0,[],"%s\x7f"]' % (A.encode(), IN_TEXT))
    same("32 in a reply", relay.string(BELOW + "\x7f"), '"' + IN_REPLY + '\x7f"')
    # One text and one id of a message, however it is spelled.
    answers = {}
    for line in cases_event.one_spelling():
        answers.setdefault(json.loads(line)[1]["content"], set()).add(event_answer(raw(line)))
    same("contents", list(answers), [c + "A" for c in BELOW])
    for said, found in answers.items():
        same("one answer of %r" % said, len(found), 1)
    for c in BELOW:
        for spelled in u_escapes(c):
            same("text with %r" % spelled, event_answer(raw('T [0,"%s",0,0,[],"%s"]' % (A, spelled))), b"5")
    # The longest replies: an event whose text is all control characters, a subscription id of 64 of them.
    sub = relay.string("\x01" * 64)
    longest = cases_event.made(content="\x01" * 4016)
    same("longest text", len(text_of(longest)), 4096)
    fields = spelled_record({**longest, "id": A, "sig": A + A}, EVENT, IN_REPLIES)
    same("longest EVENT", len(relay.reply("EVENT", sub, fields)), EVENT_LINE)
    accepted = map(relay.string, relay.ACCEPTED.values())
    refused = [relay.reason(Refusal(row, MESSAGE_BYTES if row in (6, 7) else None)) for row in relay.REFUSED]
    others = [relay.reply("EOSE", sub)] + [relay.reply("OK", relay.string(A), "true", reason) for reason in accepted]
    for reason in refused:
        others += [relay.reply("CLOSED", sub, reason), relay.reply("NOTICE", reason)]
        others += [relay.reply("OK", relay.string(A), "false", reason)]
    same("longest other", max(map(len, others)), OTHER_LINE)


def test_replies():
    """Every reply is JSON, spelled as json spells it."""
    given = [stdin("relay")] + [b"".join(map(relay.fed, pieces)) for _, _, pieces in cases_relay.runs()]
    for data in given:
        for line in lines(relay.output(data)):
            try:
                same("reply %r" % line[:300], reply_bytes(json.loads(line)), line)
            except ValueError:
                same("reply %r" % line[:300], "no JSON", "JSON")
            same("length of %r" % line[:300], len(line) < (EVENT_LINE if line.startswith(b'["EVENT"') else OTHER_LINE), True)


def library_text_answer(text):
    """A text read back, by json."""
    try:
        if len(text) > 4096:
            return b"9"
        value = held_value(text)
        if text_bytes(value) != text:
            return b"5"
        zero, pubkey, time, kind, tags, content = value
        strings = [pubkey, content] + [s for tag in tags for s in tag]
        good = (
            [type(n) for n in (zero, time, kind)] == [int] * 3
            and type(tags) is list
            and all(type(tag) is list for tag in tags)
            and all(type(s) is str for s in strings)
            and zero == 0
            and abs(time) < 2**53
            and kind in range(65536)
            and len(pubkey) == 64
            and set(pubkey) <= set("0123456789abcdef")
            and len(tags) <= 64
            and all(len(tag) in range(1, 17) for tag in tags)
        )
    except (ValueError, TypeError, RecursionError):
        return b"5"
    return b"0 " + text if good else b"5"


def test_parts():
    for label, line in cases_parts.labelled():
        found = parts_answer(line).split(b" ")
        for got, want in zip(found, label or ()):
            if want is not None:
                same("parts %r" % line[:300], got, want if isinstance(want, bytes) else b"%d" % want)
    for line in stored("parts_cases"):
        letter, buffer, *numbers = line.split(b" ")
        answer = parts_answer(line)
        if letter == b"D":
            same("digest %r" % line[:80], answer.decode(),
                hashlib.sha256(bytes.fromhex(buffer.strip(b"-").decode()) * int(numbers[0])).hexdigest())
        elif letter == b"M" and len(line) < 65536:
            message = bytes.fromhex(buffer.decode())
            same("rows %r" % line[:300], row_of(answer), library_row(message))
            same_offset(message, answer.split(b" ")[1])
        elif letter == b"T":
            text = bytes.fromhex(buffer.strip(b"-").decode())
            same("text %r" % text[:300], answer.split(b" ")[0], library_text_answer(text).split(b" ")[0])
            same("d of %r" % text[:300], library_d(text) if row_of(answer) == 0 else b"",
                b" ".join(answer.split(b" ")[8:]))
        elif letter == b"L":
            same_field(bytes.fromhex(buffer.strip(b"-").decode()), *map(int, numbers), answer)


# What lent strings are made of at random.
PIECES = [b"\x00", b"\x01", b"\x0b", b"\x1f", b"\x08", b"\t", b"\n", b"\f", b"\r", b'"', b"\\"]
PIECES += [b"\\u0000", b"\\u001F", b"\\ud800", b"\\udc00", b"\\n", b"\\/", b"\x7f", b"x", b" ", b",", b"[", b"]", "é".encode(), b"\xff"]
# Each control character that has no short escape, as a character that json takes.
AS_PLAIN = {code: 0xE000 + code for code in range(32) if chr(code) not in "\b\t\n\f\r"}


def library_content_row(data):
    """A string part by json: rows 2, 5 and 4."""
    try:
        found = json.loads('"' + data.decode().translate(AS_PLAIN) + '"')
    except UnicodeDecodeError:
        return 2
    except ValueError:
        return 5
    return 4 if has_surrogate(found) else 0


def library_tags_row(data):
    """Tags that begin at the bytes' start, by json: 5 where no value begins, else rows 2, 4, 5 and 8 of that value."""
    try:
        _, end = json.JSONDecoder().raw_decode(data.decode("latin-1").translate(AS_PLAIN))
        found = json.loads(data[:end].decode().translate(AS_PLAIN))
    except UnicodeDecodeError:
        return 2
    except (ValueError, RecursionError):
        return 5
    if depth_of(found) > 8 or any(map(has_surrogate, strings_of(found))):
        return 5 if depth_of(found) > 8 else 4
    if not isinstance(found, list) or not all(isinstance(tag, list) and all(isinstance(s, str) for s in tag) for tag in found):
        return 5
    return 0 if len(found) <= 64 and all(1 <= len(tag) <= 16 for tag in found) else 8


def test_lent_strings():
    rng = random.Random(7)
    for _ in range(20000):
        inner = b"".join(rng.choice(PIECES) for _ in range(rng.randrange(5)))
        buffer = raw(A + "[]") + inner
        faults, _ = body_faults(buffer, (0, 64), 0, 1, 64, (66, len(inner)))
        same("content %r" % inner, lowest(faults), library_content_row(inner))
        data = rng.choice([b'[["%s"]]', b'[["a","%s"]]', b'[["%s', b'[["%s"', b"[%s]", b'["%s"]']) % inner
        faults, _ = body_faults(raw(A) + data, (0, 64), 0, 1, 64, (0, 0))
        same("tags %r" % data, lowest(faults), library_tags_row(data))


def library_d(text):
    """d as the bytes of the text spell it, by json."""
    values = [tag[1] if len(tag) > 1 else "" for tag in held_value(text)[4] if tag[0] == "d"]
    return text_bytes(values[0])[1:-1] if values else b""


def same_field(buffer, at, width, number, answer):
    """A field by int.to_bytes and int.from_bytes."""
    end, back, signed, unsigned, after = answer.split(b" ")
    whole = number.to_bytes(8, "little")
    same("signed %d" % number, int(signed), int.from_bytes(whole, "little", signed=True))
    same("unsigned %d" % number, int(unsigned), number)
    if at + width <= len(buffer):
        field = whole.ljust(width, b"\0")[:width]
        same("field %r" % answer, bytes.fromhex(after.decode()), buffer[:at] + field + buffer[at + width :])
        same("read %r" % answer, int(back), int.from_bytes(field[:8], "little"))
        same("end %r" % answer, int(end), at + width)


def kept(valid):
    """01's demand 3: the pairs of id and text that stay of valid events, and how many slots they need."""
    alone, of_key = [], {}
    for e in valid:
        if e.key:
            of_key.setdefault(e.key, []).append(e)
        elif not 20000 <= e.kind <= 29999:
            alone.append(e)
    newest = [min(events, key=Event.age) for events in of_key.values()]
    pairs = {(e.id, e.text) for e in alone + newest}
    return pairs, len(pairs)


class Watched(Program):
    """The program, with what was validly offered since the table was formatted; None while a byte was damaged."""

    def __init__(self):
        super().__init__()
        self.valid, self.lacked = None, False

    def watch(self, line):
        answer = self.answer(line)
        if line[:1] in b"LX":
            self.valid = None
        if line[:1] == b"F" and answer.startswith(b"0 "):
            self.valid, self.lacked = [], False
        if line[:1] in b"MP" and self.valid is not None:
            numbers = [int(n) for n in line.split(b" ")[1:]]
            offered = self.message(*numbers) if line[:1] == b"M" else parts_event(self.lent, *numbers)
            self.valid += [] if isinstance(offered, Refusal) else [offered]
            self.lacked |= answer.startswith(b"12 ")
        return answer

    def pairs(self):
        return {(e.id, e.text) for e in held(self.table())}


def same_slots(table, count):
    """Held slots by struct and json."""
    for k in range(count):
        slot = table[16 + 4208 * k : 16 + 4208 * (k + 1)]
        _, _, time, kind, size, at, length, text = struct.unpack("<32s64sqHHHH4096s", slot)
        same("rest of slot %d" % k, text[size:].strip(b"\0"), b"")
        same("fields of slot %d" % k, [time, kind], held_value(text[:size])[2:4])
        same("d of slot %d" % k, text[at : at + length], library_d(text[:size]) if 30000 <= kind <= 39999 else b"")


def test_table():
    watched = Watched()
    for want, line in cases_table.labelled():
        before, answer = watched.valid, watched.watch(line)
        same("table %r" % line[:100], answer[: len(want or b"")], want or b"")
        if watched.valid is not None and watched.valid is before and line[:1] in b"MP":
            pairs, needed = kept(watched.valid)
            capacity = int.from_bytes(watched.room[:4], "little")
            same("room after %r" % line[:100], watched.lacked, needed > capacity)
            if not watched.lacked:
                same("held after %r" % line[:100], watched.pairs(), pairs)
        if line == b"S" and answer.startswith(b"sound"):
            same_slots(watched.table(), int(answer.split(b" ")[1]))
    for first, second in cases_table.exchanges():
        relays = [Watched(), Watched()]
        for relay, part in zip(relays, (first, second)):
            for _, line in part:
                relay.watch(line)
        pairs, _ = kept(relays[0].valid + relays[1].valid)
        for relay in relays:
            same("exchange", relay.lacked, False)
            same("exchange", relay.pairs(), pairs)


def library_matches(wanted, identity, event):
    """A filter and a held text read by json, the conditions as NIP-01 gives them."""
    _, pubkey, time, kind, tags, _ = event
    singles = {"ids": identity, "authors": pubkey, "kinds": kind}
    if any(singles[name] not in wanted[name] for name in singles if name in wanted):
        return False
    if not wanted.get("since", time) <= time <= wanted.get("until", time):
        return False
    second_strings = {name: {tag[1] for tag in tags if len(tag) > 1 and "#" + tag[0] == name} for name in wanted}
    return all(second_strings[name] & set(wanted[name]) for name in wanted if name[0] == "#")


@cache
def library_event(slot):
    """The event of a slot, read by json, and its age."""
    event = held_value(slot[112 : 112 + int.from_bytes(slot[106:108], "little")])
    return event, (-event[2], slot[:32].hex())


def library_answer(table, filters):
    """A slot is listed if for some filter it is among the newest matches up to the limit: fewer are newer than the limit."""
    count = int.from_bytes(table[4:8], "little")
    events, ages = zip(*[library_event(bytes(table[16 + 4208 * k : 16 + 4208 * (k + 1)])) for k in range(count)] or [((), ())])
    out = set()
    for wanted in filters:
        found = [k for k in range(count) if library_matches(wanted, ages[k][1], events[k])]
        in_order = sorted(ages[k] for k in found)
        out |= {k for k in found if bisect_left(in_order, ages[k]) < wanted.get("limit", count)}
    return sorted(out, key=lambda k: ages[k])


def test_query():
    program = query.Program()
    for want, line in cases_query.labelled():
        answer = program.answer(line)
        want = (want or b"").split(b" ")
        if line[:1] in (b"R", b"W") and b"@" in answer:
            # Of two messages the first that is refused.
            at = [int(n) for n in line.split(b" ")[1:]][-4 if line[:1] == b"W" else -2 :]
            messages = [program.lent[start : start + length] for start, length in zip(at[::2], at[1::2])]
            same_offset(next(m for m in messages if library_offset(m, row_of(answer)) is not None), answer)
            answer = answer if b"@" in want[0] else b"%d" % row_of(answer)
        same("query %r" % line[:200], answer.split(b" ")[: len(want)] if want != [b""] else [b""], want)
        if line[:1] == b"R" and answer.startswith(b"0 "):
            fill, _, at, length = map(int, line.split(b" ")[1:])
            slots = library_answer(program.table(), json.loads(program.lent[at : at + length])[2:])
            shown = [int(n) for n in answer.split(b" ")[2:]]
            same("listed %r" % line[:200], shown + [fill] * (len(slots) - len(shown)), slots)
        if line[:1] == b"W" and answer in (b"matches", b"differs"):
            at, length, asked, asked_length = map(int, line.split(b" ")[1:])
            event = json.loads(program.lent[at : at + length])[1]
            body = [0] + [event[name] for name in ("pubkey", "created_at", "kind", "tags", "content")]
            filters = json.loads(program.lent[asked : asked + asked_length])[2:]
            fits = any(library_matches(wanted, event["id"], body) for wanted in filters)
            same("met %r" % line[:200], answer, b"matches" if fits else b"differs")


# 02, Wish 9, counted by hand.
WHERE = [
    (b'["EVENT",{"id":""', 15, 7),
    (b'["EVENT",{"kind":-0', 17, 6),
    (b' ["EVENT",{"kind":-1', 18, 6),
    (b'["EVENT",{"\\u006bind":65536', 22, 6),
    (b'["EVENT",{"content":"\xc3\xa9","kind":1e3', 32, 6),
    (b'["EVENT",{"content":"\xf0\x9f\x98\x80","kind":1.0', 34, 6),
    (b'["EVENT",{"content":"\\ud83d\\ude00","kind":99999', 42, 6),
    (b'["EVENT",{"created_at":9007199254740992,"kind":-0', 23, 6),
    (b'["EVENT",{"id":"","kind":-0', 25, 6),
    (b'["EVENT",{"kind":-0,"id":""', 17, 6),
    (b'["EVENT",{"sig":"","id":""', 16, 7),
]
# The rest of an event whose beginning stands above.
REST = {"id": '"%s"' % A, "pubkey": '"%s"' % A, "created_at": "0", "kind": "1", "tags": "[]", "content": '""', "sig": '"%s"' % (A + A)}
ASKED = [
    (b'["REQ","s",{"limit":-0}]', b"6@20"),
    (b'["REQ","",{"kinds":[1,-1]}]', b"6@22"),
    (b'["REQ","s",{"ids":["%s",""]}]' % A.encode(), b"7@86"),
    (b'["REQ","s",{"#e":["x"]},{"since":1.5,"limit":-0}]', b"6@33"),
    (b'["REQ","s",{},{},{},{},{"until":-0}]', b"6@32"),
    (b'\t["REQ", "s",\r{ "authors" : [ "" ] }]', b"7@30"),
    (b'["REQ","\xe2\x82\xac",{"limit":70000}]', b"6@22"),
    (b'["REQ","s",{"limit":%s,"since":-0}]' % (b"9" * 5000), b"6@20"),
    (b'["REQ","s",{"until":-0,"limit":%s}]' % (b"9" * 5000), b"6@20"),
    (b" " * 16363 + b'["REQ","",{"limit":-0', b"3"),
    (b" " * 16361 + b'["REQ","",{"limit":-0}]', b"6@16380"),
    (b" " * 16362 + b'["REQ","",{"limit":-0}]', b"1"),
]


def test_where():
    for begun, at, row in WHERE:
        rest = "".join(',"%s":%s' % pair for pair in REST.items() if '"%s"' % pair[0] not in begun.decode().replace("\\u006b", "k"))
        line = begun + rest.encode() + b"}]"
        same("where %r" % line, message_answer(line), b"%d@%d" % (row, at))
        same("where offered %r" % line, event_answer(line), b"%d@%d" % (row, at))
    for line, want in ASKED:
        same("where %r" % line[-60:], message_answer(line), want)
        same("where offered %r" % line[-60:], event_answer(line), b"5" if b"@" in want else want)


def test_capacity():
    """02, Wish 6: "Raise capacity from 64 to 1,024"; 14 is tested before 13."""
    for capacity, row in ((0, b"14"), (1, b"13"), (64, b"13"), (65, b"13"), (1024, b"13"), (1025, b"14")):
        same("capacity %d" % capacity, Program().answer(b"F %d" % capacity).split(b" ")[0], row)


def test_old():
    """Tables of 64 slots, as they were answered when those were the most."""
    for name, program in (("table", Program()), ("query", query.Program())):
        for want, line in old.labelled(name):
            # But for the offsets of 02, Wish 9.
            answer = re.sub(rb"^([67])@[0-9]+", rb"\1", program.answer(line))
            same("old %s %r" % (name, line[:100]), answer, want)


# From 01 and its readings: lines, and the whole output. {e} stands for a made event's object, {id} for its id.
NOTICE = '["NOTICE","invalid: %s"]\n'
RELAY = [
    ("", ""),
    ("\n", NOTICE % "not JSON"),
    ('{}\n["REQ","s",{}]\n["CLOSE","s"]\n\n', NOTICE % "wrong shape" + '["EOSE","s"]\n' + NOTICE % "not JSON"),
    ('["REQ","s",{}]', '["EOSE","s"]\n'),
    ('["CLOSE","s"]\r\n\r\n', NOTICE % "not JSON"),
    ('\0\n["CLOSE","\udcff"]', NOTICE % "not JSON" + NOTICE % "not UTF-8"),
    ("[" * 9 + "]" * 9, NOTICE % "not JSON"),
    ("x" * 16385 + "\n[]", NOTICE % "message too long" + NOTICE % "wrong shape"),
    ("x" * 16384 + "\n", NOTICE % "not JSON"),
    ("[]" + " " * 16382, NOTICE % "wrong shape"),
    ("[]" + " " * 16383, NOTICE % "message too long"),
    ("x" * 8193, NOTICE % "not JSON"),
    ("x" * 200000, NOTICE % "message too long"),
    ('["REQ","a\\/\\u0062\\n",{}]', '["EOSE","a/b\\n"]\n'),
    ('["REQ","s"]', '["CLOSED","s","invalid: count or length"]\n'),
    ('["REQ","s",{"limit":-0}]', '["CLOSED","s","invalid: number at 20"]\n'),
    ('["REQ","",{"limit":-0}]', NOTICE % "number at 19"),
    ('["REQ","s",{"limit":0,"ids":["x"]}]', '["CLOSED","s","invalid: hex at 29"]\n'),
    ('["REQ","",{"limit":0,"ids":["x"]}]', NOTICE % "hex at 28"),
    ('["REQ","s",{"a":1}]', NOTICE % "wrong shape"),
    ('["CLOSE",""]', NOTICE % "count or length"),
    ('["EVENT",{e}]\n["REQ","s",{}]', '["OK","{id}",true,""]\n["EVENT","s",{e}]\n["EOSE","s"]\n'),
    ('["REQ","s",{"limit":0}]\n["EVENT",{e}]\n["REQ","s",{"limit":0},{"since":1}]',
     '["EOSE","s"]\n["OK","{id}",true,""]\n["EOSE","s"]\n'),
    ('["REQ","\\u0001\\u001F\\u0009\x7f",{}]\n["REQ","\\u0000",{"limit":-0}]\n["CLOSE","\\u0001"]',
     '["EOSE","\\u0001\\u001f\\t\x7f"]\n["CLOSED","\\u0000","invalid: number at 25"]\n'),
    ('["REQ","%s",{}]\n["REQ","%s",{}]' % ("\\u000B" * 64, "\\u000B" * 65),
     '["EOSE","%s"]\n' % ("\\u000b" * 64) + NOTICE % "count or length"),
    ('["REQ","\x01",{}]\n{"\\u0001":1}\n["CLOSE","\\u0001\\ud800"]',
     NOTICE % "not JSON" + NOTICE % "wrong shape" + NOTICE % "string not allowed"),
    ('["EVENT",{e}]\n["EVENT",{e}]',
     '["OK","{id}",true,""]\n["OK","{id}",true,"duplicate: already have this event"]\n'),
]


def test_relay():
    event = cases_event.offer(cases_event.made(kind=1)).removeprefix('["EVENT",').removesuffix("]")
    for text, want in RELAY:
        text, want = (s.replace("{e}", event).replace("{id}", json.loads(event)["id"]) for s in (text, want))
        same("relay %r" % text[:300], relay.output(raw(text)).decode(), want)
    for want, _, given in cases_relay.runs():
        if want is not None:
            same("run %r" % given[:4], relay.output(b"".join(map(relay.fed, given))).decode(), want)


if __name__ == "__main__":
    tests = (test_digest, test_utf8, test_json, test_messages, test_events, test_controls, test_parts, test_lent_strings)
    for test in tests + (test_where, test_table, test_query, test_capacity, test_old, test_relay, test_replies):
        test()
    print("selftest: %d differences" % len(failures))
    sys.exit(1 if failures else 0)
