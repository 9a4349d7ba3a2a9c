"""Filters: whether one matches an event, and which slots answer a REQ (01, "Filters and replies").

A filter is a dict as rows.py reads it, an event is an Event of table.py; the events of a table stand in the order of its
slots. Below stands what query_cases answers.
"""

import table
from parts import LINE_BYTES, body_faults, filter_part, hex_part, lowest, number
from rows import FILTERS, TEXT_BYTES, Refused, read_message, within
from table import event_of, held


def holds(name, wanted, event):
    """One condition of a filter. limit is none: it only cuts a REQ's list."""
    if name == "ids":
        return event.id.hex() in wanted
    if name == "authors":
        return event.fields["pubkey"] in wanted
    if name == "kinds":
        return event.kind in [int(kind) for kind in wanted]
    if name == "since":
        return int(wanted) <= event.time
    if name == "until":
        return event.time <= int(wanted)
    if name == "limit":
        return True
    return any(len(tag) >= 2 and tag[0] == name[1:] and tag[1] in wanted for tag in event.fields["tags"])


def matches(wanted, event):
    """ "All conditions of a filter hold"."""
    return all(holds(name, wanted[name], event) for name in wanted)


def matches_some(filters, event):
    """ "any filter suffices"."""
    return any(matches(wanted, event) for wanted in filters)


def answer(filters, events):
    """The slots that answer a REQ: of each filter its newest matches up to its limit; the union, newest first."""
    newest_first = sorted(range(len(events)), key=lambda slot: events[slot].age())
    listed = set()
    for wanted in filters:
        found = [slot for slot in newest_first if matches(wanted, events[slot])]
        listed.update(found[: int(wanted["limit"])] if "limit" in wanted else found)
    return [slot for slot in newest_first if slot in listed]


# What is lent: filters as parts, seven numbers each, and events as parts.

FILTER_NUMBERS, EVENT_NUMBERS = 7, 11


def lent_filters(lent, numbers, n):
    """The faults of the first n of lent filters, and what they mean. Numbers that are missing are absent."""
    numbers = numbers + [None] * (FILTERS[1] * FILTER_NUMBERS - len(numbers))
    found = []
    for k in range(min(n, FILTERS[1])):
        found.append(filter_part(lent, *numbers[k * FILTER_NUMBERS : (k + 1) * FILTER_NUMBERS]))
    faults = set() if within(n, FILTERS) else {8}
    return faults.union(*(wrong for wrong, _ in found)), [wanted for _, wanted in found]


def lent_event(lent, identity, id_length, start, length, time, kind, tags, inner, inner_length, sig, sig_length):
    """The faults of an event's parts, and the event, or None. An event that is not offered may have any id."""
    id_faults, said = hex_part(lent, (identity, id_length), 64)
    sig_faults, signature = hex_part(lent, (sig, sig_length), 128)
    faults, fields = body_faults(lent, (start, length), time, kind, tags, (inner, inner_length))
    faults = faults | id_faults | sig_faults
    return faults, None if faults else event_of(bytes.fromhex(said), bytes.fromhex(signature), fields)


def match_answer(faults, event, filters):
    """Rows 2 and 4 to 8 of both, then 9 of the event."""
    if faults:
        return [lowest(faults)]
    if len(event.text) > TEXT_BYTES:
        return [9]
    return ["matches" if matches_some(filters, event) else "differs"]


NUMBERS = table.MOST + 16  # of the row that query_cases lends, or its beginning


class Program(table.Program):
    """query_cases: filters asked of its table, or of an event that is lent."""

    events = None  # of the table, () for one that is not sound; None if it may have changed

    def listing(self, fill, size, faults, filters):
        """The row, the count, and the numbers up to the last that is not `fill`."""
        assert size <= NUMBERS
        if self.events is None:
            found = held(self.table())
            self.events = () if found is None else found
        sound = isinstance(self.events, list)
        slots = [] if faults or not sound else answer(filters, self.events)
        row = lowest(faults) or (11 if not sound else 13 if len(slots) > size else 0)
        numbers = [] if row else slots
        while numbers and numbers[-1] == fill:
            numbers = numbers[:-1]
        return ([row] if row else [0, len(slots)]) + numbers

    def read(self, word, at, length):
        """The message there if it has that first word, else what is answered to it."""
        try:
            message = read_message(self.lent[at : at + length])
        except Refused as refused:
            return None, [refused.refusal]
        return (message, None) if message[0] == word else (None, ["no " + word])

    def req(self, fill, size, at, length):
        message, refused = self.read("REQ", at, length)
        return refused or self.listing(fill, size, set(), message[2])

    def met(self, at, length, other, other_length):
        """An EVENT message and a REQ."""
        message, refused = self.read("EVENT", at, length)
        asked, no_req = (None, None) if refused else self.read("REQ", other, other_length)
        if refused or no_req:
            return refused or no_req
        fields = message[1]
        return match_answer(set(), event_of(bytes.fromhex(fields["id"]), bytes.fromhex(fields["sig"]), fields), asked[2])

    def matched(self, *numbers):
        """Parts of an event, then lent filters."""
        faults, event = lent_event(self.lent, *numbers[:EVENT_NUMBERS])
        filter_faults, filters = lent_filters(self.lent, list(numbers[EVENT_NUMBERS + 1 :]), numbers[EVENT_NUMBERS])
        return match_answer(faults | filter_faults, event, filters)

    def change(self, letter, numbers):
        """A line that changes the table."""
        self.events = None
        if letter == b"L":
            return self.fill(*numbers)
        if letter == b"F":
            return self.written(*table.formatted(self.table(), *numbers))
        if letter == b"X":
            return self.turn_over(*numbers)
        words = self.written(*table.offer(self.table(), self.message(*numbers)))
        return [words[0].split(" ")[0], int.from_bytes(self.room[4:8], "little")]

    def call(self, letter, numbers):
        calls = {
            b"R": self.req,
            b"Q": lambda fill, size, n, *parts: self.listing(fill, size, *lent_filters(self.lent, list(parts), n)),
            b"W": self.met,
            b"E": self.matched,
        }
        return calls[letter](*numbers) if letter in calls else self.change(letter, numbers)

    def answer(self, line):
        """A line that breaks the program's form is not answered but an error here."""
        if len(line) >= LINE_BYTES:
            return b"too long"
        if line.startswith(b"B "):
            self.lent = line[2:] + self.lent[len(line) - 2 :]
            return b""
        letter, *fields = line.split(b" ")
        return " ".join(map(str, self.call(letter, [number(field) for field in fields]) or [])).encode()
