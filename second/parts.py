"""What parts_cases answers: parts lent by anybody (01, rows 2 and 4 to 10), calls on numbers, texts and messages.

A string part is a pair (start, length); the tags and a filter's lists and conditions are places where a JSON value
begins. In the strings of both a control character that has no short escape may stand raw (02, Wish 3). A part's faults are a
set of rows; the lowest of all parts is the answer.
"""

from json_text import (
    HELD,
    NotJson,
    NotUtf8,
    allowed,
    bytes_before,
    characters,
    parse,
    places,
    read_member,
    read_string,
    read_value,
    skip,
    strings,
    value_place,
)
from rows import (
    EVENT,
    FILTER,
    NUMBERS,
    STRING,
    SUB,
    TEXT_BYTES,
    Refused,
    content,
    counts_of_event,
    counts_of_filter,
    good_hex,
    read_json,
    read_message,
    read_text,
    record,
    refusal_of,
    row_of,
    spelled,
    test_parts,
    text_of,
    within,
)
from sha256 import sha256

TWO_64 = 2**64


# Rows 2 and 4 to 8 of one part.


def string_part(buffer, span):
    """The faults of a string part, and what it decodes to, or None."""
    start, length = span
    if start + length > len(buffer):
        return {5}, None  # "5 also if a part lies outside its buffer"
    try:
        text = '"' + characters(buffer[start : start + length]) + '"'
        decoded, end = read_string(text, 0, HELD)
    except NotUtf8:
        return {2}, None
    except NotJson:
        return {5}, None  # "or is no RFC 8259 spelling", but for what may stand raw
    if end != len(text):
        return {5}, None  # a raw quote
    return (set() if allowed(decoded) else {4}), decoded


def hex_part(buffer, span, length):
    faults, decoded = string_part(buffer, span)
    if decoded is not None and not good_hex(decoded, length):
        faults = faults | {7}
    return faults, decoded


def value_part(buffer, place, form, rows_6_to_8):
    """The faults of a JSON value that begins at a place, and its content, or None.

    How far it reaches can be told byte by byte: whatever is not ASCII can only stand inside its strings.
    """
    try:
        bytewise = buffer[place:].decode("latin-1")
        _, end = read_value(bytewise, 0, 0, HELD)
        text = characters(buffer[place : place + end])
    except NotJson:
        return {5}, None
    except NotUtf8:
        return {2}, None
    value = parse(text, HELD)
    faults = set() if all(allowed(s) for s in strings(value)) else {4}
    try:
        inner = record(value, form) if isinstance(form, dict) else content(value, form)
    except Refused:
        return faults | {5}, None
    return faults | rows_6_to_8(inner), inner


def rows_of(fields, counts):
    """Which of rows 6 to 8 is the lowest that holds of these fields."""
    row = row_of([fields], lambda records: test_parts(records, counts))
    return {row} if row else set()


def list_rows(name):
    return lambda inner: rows_of({name: inner}, counts_of_filter({name: inner}))


def number_part(name, value):
    """A number that is lent is a number: only its range can be wrong."""
    return set() if within(value, NUMBERS[name]) else {6}


# Events and filters.


def body_faults(buffer, pubkey, created_at, kind, tags, inner):
    """The faults of a body, and its event without id and signature, if every part says something."""
    key_faults, key = hex_part(buffer, pubkey, 64)
    tag_faults, tag_list = value_part(buffer, tags, EVENT["tags"], lambda t: rows_of({}, counts_of_event({"tags": t})))
    content_faults, said = string_part(buffer, inner)
    numbers = number_part("created_at", created_at) | number_part("kind", kind)
    event = dict(pubkey=key, created_at=str(created_at), kind=str(kind), tags=tag_list, content=said)
    return key_faults | tag_faults | content_faults | numbers, event


def lowest(faults):
    return min(faults, default=0)


def body_answer(buffer, start, length, created_at, kind, tags, inner, inner_length, room):
    faults, event = body_faults(buffer, (start, length), created_at, kind, tags, (inner, inner_length))
    row = lowest(faults)
    text = b"" if row else text_of(event)
    with_9 = row or (9 if len(text) > TEXT_BYTES else 0)
    with_13 = with_9 or (13 if len(text) > room else 0)
    lent = b"." * room
    out = [row, with_9, "0" * 8 if with_9 else sha256(text), with_13]
    if with_13:
        return out + [sha256(lent)[:8]]
    return out + [len(text), sha256(text + lent[len(text) :])[:8], text]


def event_answer(buffer, id_start, id_length, *rest):
    *body, sig, sig_length = rest
    start, length, created_at, kind, tags, inner, inner_length = body
    id_faults, said = hex_part(buffer, (id_start, id_length), 64)
    sig_faults, _ = hex_part(buffer, (sig, sig_length), 128)
    faults, event = body_faults(buffer, (start, length), created_at, kind, tags, (inner, inner_length))
    row = lowest(id_faults | sig_faults | faults)
    if row:
        return [row, row]
    text = text_of(event)
    return [0, 9 if len(text) > TEXT_BYTES else 0 if said == sha256(text) else 10]


def filter_part(buffer, ids, authors, kinds, since, until, limit, conditions):
    """The faults of a filter's parts, and the filter they mean, if every part says something."""
    faults, fields = set(), {}
    for name, place in (("ids", ids), ("authors", authors), ("kinds", kinds)):
        if place is not None:
            wrong, fields[name] = value_part(buffer, place, FILTER[name], list_rows(name))
            faults |= wrong
    for name, number in (("since", since), ("until", until), ("limit", limit)):
        if number is not None:
            fields[name] = str(number)
            faults |= number_part(name, number)
    if conditions is not None:
        # The place of a filter's object; its members with # are the conditions, and the others are tested too.
        wrong, inner = value_part(buffer, conditions, FILTER, lambda f: rows_of(f, counts_of_filter(f)))
        faults |= wrong
        fields.update((name, inner[name]) for name in inner or () if name[0] == "#")
    return faults, fields


def filter_answer(buffer, *parts):
    return [lowest(filter_part(buffer, *parts)[0])]


# Messages: the places of their parts, in bytes.


class Places:
    """A JSON text whose places are counted in bytes."""

    def __init__(self, line):
        self.text = characters(line)
        elements = list(places(self.text, skip(self.text, 0), read_value))
        self.elements = [i for i, _ in elements]
        self.values = [value for _, value in elements]

    def byte(self, i):
        return bytes_before(self.text, i)

    def span(self, i):
        """What stands between the quotes of the string at i."""
        _, end = read_string(self.text, i)
        return [self.byte(i + 1), self.byte(end - 1) - self.byte(i + 1)]

    def members(self, i):
        """The places of an object's values, by name."""
        return {name: value_place(self.text, at) for at, (name, _) in places(self.text, i, read_member)}


def named(line, row):
    """01, "Filters and replies": what the reply to a message that rows 6 to 12 refuse names."""
    if 1 <= row <= 5:
        return ["none"]
    found = Places(line)
    word, second = found.values[0][1], found.values[1]
    if word == "EVENT":
        names = dict(second[1])
        if good_hex(names["id"][1], 64):
            return ["id"] + found.span(found.members(found.elements[1])["id"])
    if word == "REQ" and within(len(second[1]), SUB):
        return ["sub"] + found.span(found.elements[1])
    return ["none"]


def parts(line, message):
    """Where the parts of an accepted message stand."""
    found = Places(line)
    at = found.elements[1]
    if message[0] == "CLOSE":
        return ["CLOSE"] + found.span(at)
    if message[0] == "EVENT":
        members, fields = found.members(at), message[1]
        numbers = [int(fields["created_at"]), int(fields["kind"]), found.byte(members["tags"])]
        spans = {name: found.span(members[name]) for name in ("id", "pubkey", "content", "sig")}
        return ["EVENT"] + spans["id"] + spans["pubkey"] + numbers + spans["content"] + spans["sig"]
    first, fields = found.elements[2], message[2][0]
    members = found.members(first)
    lists = [found.byte(members[name]) if name in members else "x" for name in ("ids", "authors", "kinds")]
    bounds = [int(fields[name]) if name in fields else "x" for name in ("since", "until", "limit")]
    return ["REQ"] + found.span(at) + lists + bounds + [found.byte(first)]


def message_answer(line):
    refusal = refusal_of(line, read_message)
    out = [row_of(line, read_json), refusal] + named(line, refusal.row)
    return out + ([refusal] if refusal.row else parts(line, read_message(line)))


# A text read back, kinds, order, numbers in bytes, long digests.


def text_answer(text):
    """01, "A text read back alone", and the places of its parts; d's is 0, 0 where d is empty."""
    row, event = read_text(text)
    if row:
        return [row]
    fields = [spelled(event[name], EVENT[name]).encode() for name in ("pubkey", "created_at", "kind", "tags",
        "content")]
    tags = len(b"[0," + b",".join(fields[:3]) + b",")
    inner = tags + len(fields[3]) + len(b',"')
    at, length = d_place(event["tags"])
    at = at + tags if length else 0
    numbers = [0, int(event["created_at"]), int(event["kind"]), tags, inner, len(fields[4]) - 2, at, length]
    return numbers + [text[at : at + length]]


def d_place(tags):
    """01, "Kinds and keys": the second string of the first tag named d, as escaped in the text of the tags."""
    at = 1
    for tag in tags:
        if tag[0] == "d":
            if len(tag) == 1:
                return 0, 0
            return at + len('["d","'), len(spelled(tag[1], STRING).encode()) - 2
        at += len(spelled(tag, [STRING]).encode()) + 1
    return 0, 0


def class_answer(_, kind):
    if kind in (0, 3) or 10000 <= kind <= 19999:
        return ["replaceable"]
    if 20000 <= kind <= 29999:
        return ["ephemeral"]
    return ["addressable" if 30000 <= kind <= 39999 else "regular"]


def newer_answer(ids, length, time, other_time):
    """ "created_at compares as a signed number; between equal times the lower id is newer"."""
    first, second = ids[:length], ids[length:]
    newer = first < second if time == other_time else time > other_time
    return ["newer" if newer else "not"]


def field_answer(buffer, at, width, number):
    """A little-endian field written as far as the buffer goes, and read back; the number as two's complement."""
    end = min(at + width, len(buffer))
    room = max(end - at, 0)
    written = bytes(number >> 8 * i & 255 if i < 8 else 0 for i in range(room))
    after = buffer[:at] + written + buffer[at + room :]
    back = sum(b << 8 * i for i, b in enumerate(after[at : at + min(width, 8)]))
    signed = number - TWO_64 if number >= TWO_64 // 2 else number
    return [end, back, signed, number, after.hex()]


def digest_answer(message, times):
    return [sha256(message * times)]


COMMANDS = {
    b"B": (body_answer, 8),
    b"E": (event_answer, 11),
    b"F": (filter_answer, 7),
    b"M": (message_answer, 0),
    b"N": (newer_answer, 3),
    b"K": (class_answer, 1),
    b"T": (text_answer, 0),
    b"L": (field_answer, 3),
    b"D": (digest_answer, 1),
}
LINE_BYTES = 65536  # a case program takes shorter lines only


def number(spelled_number):
    if spelled_number == b"x":
        return None
    value = int(spelled_number)
    assert b"%d" % value == spelled_number and -(2**63) <= value < TWO_64
    return value


def shown(one):
    return one if isinstance(one, bytes) else str(one).encode()


def parts_answer(line):
    """The answer to a line of parts_cases. A line that breaks the program's form is not answered but an error here."""
    if len(line) >= LINE_BYTES:
        return b"too long"
    letter, spelled_buffer, *numbers = line.split(b" ")
    answer, count = COMMANDS[letter]
    assert len(numbers) == count
    buffer = b"" if spelled_buffer == b"-" else bytes.fromhex(spelled_buffer.decode())
    assert buffer == b"" or buffer.hex().encode() == spelled_buffer
    return b" ".join(map(shown, answer(buffer, *map(number, numbers))))
