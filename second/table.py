"""What table_cases answers: 01, "The table" and "Verdicts of an offer", over one room of bytes.

A held slot is judged by making it anew: from its own id, signature and text there is just one slot. So no field has a
test of its own here. What was offered is an Event, or the Refusal of it.
"""

import hashlib
from functools import lru_cache
from typing import NamedTuple

from parts import LINE_BYTES, body_faults, class_answer, d_place, hex_part, lowest, number
from rows import EVENT, TEXT_BYTES, Refusal, offered, read_message, read_text, spelled, text_of
from sha256 import sha256

HEADER, SLOT, MOST = 16, 4208, 1024  # MOST: 02, Wish 6
LENT = 65536  # the lent bytes of table_cases
ROOM = HEADER + MOST * SLOT + 256  # its room
BEHIND = 64  # so many bytes behind the table are printed too
ZEROS = bytes(MOST * SLOT)


class Event(NamedTuple):
    id: bytes
    sig: bytes
    text: bytes
    time: int
    kind: int
    key: tuple  # None if it has none
    d: tuple  # place and length of d in the text
    fields: dict  # as rows.py reads them

    def slot(self):
        fields = self.time.to_bytes(8, "little", signed=True)
        for short in (self.kind, len(self.text), *self.d):
            fields += short.to_bytes(2, "little")
        return self.id + self.sig + fields + self.text + bytes(TEXT_BYTES - len(self.text))

    def age(self):
        """The newer of two events is the one of less age: "between equal times the lower id is newer"."""
        return -self.time, self.id


def event_of(identity, sig, fields):
    """From 32 and 64 bytes, and an event's decoded fields."""
    kind = int(fields["kind"])
    kind_class = class_answer(b"", kind)[0]
    key, d = None, (0, 0)
    if kind_class == "replaceable":
        key = (kind, fields["pubkey"])
    if kind_class == "addressable":
        key = (kind, fields["pubkey"], d_of(fields["tags"]))
        at, length = d_place(fields["tags"])
        before = "[0," + "".join(spelled(fields[name], EVENT[name]) + "," for name in ("pubkey", "created_at", "kind"))
        d = (len(before) + at, length) if length else (0, 0)
    return Event(identity, sig, text_of(fields), int(fields["created_at"]), kind, key, d, fields)


def d_of(tags):
    """01, "Kinds and keys": the second string of the first tag named d, or empty."""
    for tag in tags:
        if tag[0] == "d":
            return tag[1] if len(tag) > 1 else ""
    return ""


# What is offered.


@lru_cache(maxsize=None)
def message_event(message):
    """A message: its event, or the Refusal."""
    refusal, _ = offered(message)
    if refusal.row:
        return refusal
    fields = read_message(message)[1]
    return event_of(bytes.fromhex(fields["id"]), bytes.fromhex(fields["sig"]), fields)


@lru_cache(maxsize=None)
def parts_event(lent, identity, id_length, start, length, time, kind, tags, inner, inner_length, sig, sig_length):
    """Parts of lent bytes: their event, or the Refusal, which has no offset."""
    id_faults, said = hex_part(lent, (identity, id_length), 64)
    sig_faults, signature = hex_part(lent, (sig, sig_length), 128)
    faults, fields = body_faults(lent, (start, length), time, kind, tags, (inner, inner_length))
    row = lowest(id_faults | sig_faults | faults)
    if row:
        return Refusal(row)
    text = text_of(fields)
    if len(text) > TEXT_BYTES:
        return Refusal(9)
    if said != sha256(text):
        return Refusal(10)
    return event_of(bytes.fromhex(said), bytes.fromhex(signature), fields)


# The table.


def numbers_of(table):
    """The four numbers of the header."""
    return [int.from_bytes(table[at : at + 4], "little") for at in (0, 4, 8, 12)]


def slot_bytes(table, k):
    return bytes(table[HEADER + k * SLOT : HEADER + (k + 1) * SLOT])


@lru_cache(maxsize=None)
def slot_event(slot):
    """The event of a held slot whose fields and text agree, or None."""
    size = int.from_bytes(slot[106:108], "little")
    row, fields = read_text(slot[112 : 112 + size])
    if row:
        return None
    event = event_of(slot[:32], slot[32:96], fields)
    return event if event.slot() == slot else None


def held(table):
    """The events in slots 0 to C-1 of a sound table, or None if it is not sound."""
    if len(table) < HEADER:
        return None
    capacity, count, size, first = numbers_of(table)
    if not 1 <= capacity <= MOST or len(table) < HEADER + capacity * SLOT or count > capacity:
        return None
    if (size, first) != (SLOT, HEADER):
        return None
    events = [slot_event(slot_bytes(table, k)) for k in range(count)]
    if None in events or any(class_answer(b"", e.kind) == ["ephemeral"] for e in events):
        return None
    keys = [e.key for e in events if e.key]
    if len({e.id for e in events}) < count or len(set(keys)) < len(keys):
        return None
    later = table[HEADER + count * SLOT : HEADER + capacity * SLOT]
    return events if ZEROS.startswith(later) else None


def formatted(table, capacity):
    """The row, and what is written: places with their bytes. 14 is tested before 13."""
    if not 1 <= capacity <= MOST:
        return 14, {}
    if len(table) < HEADER + capacity * SLOT:
        return 13, {}
    header = b"".join(n.to_bytes(4, "little") for n in (capacity, 0, SLOT, HEADER))
    return 0, {0: header + bytes(capacity * SLOT)}


def verdict(events, capacity, event):
    """01, "Verdicts of an offer": the answer in words, and the slot that the event fills, or None."""
    if class_answer(b"", event.kind) == ["ephemeral"]:
        return "0 ephemeral", None
    if event.id in [e.id for e in events]:
        return "0 duplicate", None
    place = len(events)
    if event.key in [e.key for e in events if e.key]:
        place = [e.key for e in events].index(event.key)
        if events[place].age() < event.age():
            return "0 older", None
    return ("12 refused", None) if place == capacity else ("0 stored", place)


def offer(table, event):
    """The answer in words, and what is written, for an Event or the Refusal of one."""
    if isinstance(event, Refusal):
        return "%s refused" % str(event), {}
    events = held(table)
    if events is None:
        return "11 refused", {}
    answer, place = verdict(events, numbers_of(table)[0], event)
    if place is None:
        return answer, {}
    count = max(len(events), place + 1)
    return answer, {4: count.to_bytes(4, "little"), HEADER + place * SLOT: event.slot()}


def shown(table, slot):
    events = held(table)
    row = 11 if events is None else 14 if slot >= len(events) else 0
    if row:
        return [row, print_of(b"")]
    text = events[slot].text
    return [0, HEADER + slot * SLOT + 112, len(text), print_of(text)]


def print_of(data):
    """What stands for many bytes in an answer: it says nothing of 01, so a library computes it."""
    return hashlib.sha256(data).hexdigest()[:16]


class Program:
    """table_cases: a line changes its room, and is answered. Of the room only what an answer shows is kept here."""

    def __init__(self):
        self.lent, self.room, self.size = bytes(LENT), bytearray(BEHIND), 0

    def table(self):
        return memoryview(self.room)[: self.size]

    def fill(self, size, byte):
        assert size + BEHIND <= ROOM
        self.room, self.size = bytearray([byte]) * (size + BEHIND), size

    def turn_over(self, at, bits):
        self.room[at] ^= bits
        return self.sound()

    def sound(self):
        return ["unsound" if held(self.table()) is None else "sound"]

    def written(self, answer, places):
        for at, data in places.items():
            self.room[at : at + len(data)] = data
        return [answer]

    def message(self, at, length):
        return message_event(self.lent[at : at + length])

    def call(self, letter, numbers):
        calls = {
            b"L": lambda size, byte: self.fill(size, byte),
            b"F": lambda capacity: self.written(*formatted(self.table(), capacity)),
            b"M": lambda at, length: self.written(*offer(self.table(), self.message(at, length))),
            b"J": lambda at, length: [offer(self.table(), self.message(at, length))[0]],
            b"P": lambda *parts: self.written(*offer(self.table(), parts_event(self.lent, *parts))),
            b"S": self.sound,
            b"H": lambda slot: shown(self.table(), slot),
            b"X": self.turn_over,
        }
        return calls[letter](*numbers) or []

    def answer(self, line):
        """A line that breaks the program's form is not answered but an error here."""
        if len(line) >= LINE_BYTES:
            return b"too long"
        out = []
        if line.startswith(b"B "):
            self.lent = line[2:] + self.lent[len(line) - 2 :]
        else:
            letter, *fields = line.split(b" ")
            numbers = [number(field) for field in fields]
            assert all(abs(n) < 10**18 for n in numbers)
            out = self.call(letter, numbers)
        out = out + [int.from_bytes(self.room[4:8], "little"), print_of(self.room)]
        return " ".join(map(str, out)).encode()
