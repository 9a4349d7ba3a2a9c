"""Lines for table_cases: (answer, line), where the answer's first words are plain from how the line is made, else None."""

import random
from itertools import combinations, permutations, product

import cases_offset
import old
from cases_event import KINDS, MAX_TIME, STARRED, id_of, made, offer, spelled_fields
from cases_message import A, EVENT_FAULTS, event, event_with, req
from rows import EVENT, MESSAGE_BYTES, read_text, spelled, text_of
from spell import BELOW, CONTROLS, SAMPLE, WIDE, escaped, hexes, plain, raw, said, spell, verbatim, words
from table import HEADER, MOST, SLOT, Program, event_of, held

FIRST, SECOND, B = "b" * 128, "c" * 128, "b" * 64
NAMES = ["id", "pubkey", "created_at", "kind", "tags", "content", "sig"]
SIZES = (1, 2, 8)
STORED, DUPLICATE, OLDER, EPHEMERAL, FULL = b"0 stored", b"0 duplicate", b"0 older", b"0 ephemeral", b"12 refused"


def size_of(capacity):
    return HEADER + capacity * SLOT


def line(letter, *numbers):
    return b" ".join([letter] + [b"%d" % n for n in numbers])


class Lent:
    """The lent bytes, and where the messages and parts stand in them."""

    def __init__(self):
        self.bytes = b""

    def add(self, data):
        at = len(self.bytes)
        self.bytes += data + b"\x7f"  # no spelling goes on over it
        return at

    def set(self):
        assert len(self.bytes) < 65000 and b"\n" not in self.bytes
        return None, b"B " + self.bytes

    def event(self, fields, sig=FIRST, string=plain, id=None):
        """Its EVENT message, whose fields are lent as parts too."""
        values = {**spelled_fields(fields, string, id), "sig": string(sig)}
        text = b'["EVENT",{'
        places = {}
        for name in NAMES:
            text += raw('"%s":' % name)
            value = raw(values[name])
            places[name] = (len(text), value)
            text += value + b","
        text = text[:-1] + b"}]"
        at = self.add(text)
        numbers = []
        for name in NAMES:
            start, value = places[name]
            if EVENT[name] == "number":
                numbers.append(int(value))
            elif name == "tags":
                numbers.append(at + start)
            else:
                numbers += [at + start + 1, len(value) - 2]
        return Offer((at, len(text)), numbers, fields)

    def held(self, found):
        """A held event, its strings as the table's text spells them."""
        fields = read_text(found.text)[1]
        spellings = [spelled(fields[name], EVENT[name]).encode() for name in NAMES[1:6]]
        at = self.add(found.text)
        tags = len(b"[0," + b",".join(spellings[:3]) + b",")
        inner = tags + len(spellings[3]) + 2
        ends = self.add(found.id.hex().encode() + found.sig.hex().encode())
        numbers = [ends, 64, at + 4, 64, found.time, found.kind, at + tags, at + inner, len(spellings[4]) - 2]
        return Offer((at, 0), numbers + [ends + 64, 128], fields)


class Offer:
    def __init__(self, message, numbers, fields):
        self.place, self.numbers, self.fields = message, numbers, fields

    def message(self):
        return line(b"M", *self.place)

    def judged(self):
        return line(b"J", *self.place)

    def parts(self):
        return line(b"P", *self.numbers)

    def either(self, rng):
        return self.message() if rng.randrange(2) else self.parts()


def fresh(capacity, extra=40, fill=170):
    yield None, line(b"L", size_of(capacity) + extra, fill)
    yield b"0", line(b"F", capacity)


def both(want, one):
    """Judged, then offered."""
    yield want, one.judged()
    yield want, one.message()


# Formatting.


def formats():
    near = [128, 255, 256, 257, 1000, MOST - 1, MOST, MOST + 1, MOST + 2]
    for capacity in (0, 1, 2, 3, 8, 63, 64, 65, 66, *near, 2**16, 2**16 + 1, 2**32, 2**32 + 1, 10**17):
        sizes = {0, 1, 15, 16, 17, 4223, 4224, size_of(64) - 1, size_of(64), size_of(64) + 100}
        if capacity <= MOST:
            sizes |= {size_of(capacity) + by for by in (-1, 0, 1, 9)} - {size_of(0) - 1}
        else:
            sizes |= {size_of(MOST), size_of(MOST) + 150}
        for size in sorted(sizes):
            if capacity > 66 and 17 < size < size_of(64):
                continue
            yield None, line(b"L", size, 170)
            wrong = 14 if not 1 <= capacity <= MOST else 13 if size < size_of(capacity) else 0
            yield b"%d " % wrong, line(b"F", capacity)
            yield (b"unsound" if wrong else b"sound"), line(b"S")
            if size < 10000:
                yield b"11 " if wrong else b"14 ", line(b"H", 0)
    # A formatted table formatted anew, smaller and larger.
    yield None, line(b"L", size_of(8), 0)
    for capacity, row in ((8, 0), (2, 0), (8, 0), (9, 13), (0, 14), (1, 0), (65, 13), (MOST, 13), (MOST + 1, 14)):
        yield b"%d " % row, line(b"F", capacity)
        yield b"sound", line(b"S")
    for size in (0, 3, 4, 8, 12, 15, 16, 100, size_of(1) - 1, size_of(1)):
        for fill in (0, 255):
            yield None, line(b"L", size, fill)
            yield b"unsound", line(b"S")
            yield b"11 ", line(b"H", 0)


# Verdicts.


def classes():
    """Each kind at a border of its class: stored or ephemeral, duplicate, then a newer one of its key or another."""
    lent = Lent()
    sets = []
    for kind in KINDS + [19998, 20001, 29998, 30001, 39998, 40001, 10001, 65534]:
        tags = [["d", "tile"]]
        sets.append((kind, [lent.event(made(kind=kind, created_at=time, tags=tags)) for time in (5, 4, 6)]))
    yield lent.set()
    for kind, (middle, old, new) in sets:
        keyed = kind in (0, 3) or 10000 <= kind <= 19999 or 30000 <= kind <= 39999
        for size in (1, 2, 8):
            yield from fresh(size)
            if 20000 <= kind <= 29999:
                for one in (middle, old, middle):
                    yield from both(EPHEMERAL, one)
                    yield EPHEMERAL, one.parts()
                yield b"14 ", line(b"H", 0)
                continue
            yield from both(STORED, middle)
            yield DUPLICATE, middle.parts()
            yield from both(OLDER if keyed else STORED if size > 1 else FULL, old)
            yield (STORED if keyed or size > 2 else FULL), new.parts()
            for slot in (0, 1, 2):
                yield None, line(b"H", slot)
            yield None, middle.message()
            yield b"sound", line(b"S")


def keys():
    """Which events have one key: pubkey, kind, and d of addressable kinds as decoded."""
    lent = Lent()
    rng = random.Random(1)
    tags = {
        "none": [], "one": [["d"]], "empty": [["d", ""]], "second": [["e", "x"], ["d", ""], ["d", "a"]],
        "a": [["d", "a"]], "first a": [["x"], ["d", "a", "z"], ["d", "b"]], "b": [["d", "b"]], "D": [["D", "a"]],
        "ab": [["d", "ab"]], "line": [["d", "\n"]], "letter n": [["d", "n"]], "spelled": [["d", "\\n"]], "é": [["d", "é"]],
        "quote": [["d", '"']], "last": [["t", "d"]] * 63 + [["d", "a"]],
        "long": [["d", "a" * 3000]], "long b": [["d", "a" * 2999 + "b"]],
    }
    same_d = {"none": "", "one": "", "empty": "", "second": "", "D": "", "a": "a", "first a": "a", "last": "a"}
    first = {name: lent.event(made(kind=30000, tags=value), string=lambda s: spell(rng, s)) for name, value in tags.items()}
    small = [name for name in tags if "long" not in name]
    second = {name: lent.event(made(kind=30000, created_at=1, tags=tags[name])) for name in tags}
    others = [lent.event(made(**{"kind": 30000, "tags": tags["a"], "created_at": 1, **other}))
              for other in ({"kind": 30001}, {"pubkey": B}, {"kind": 39999}, {"pubkey": A[:-1] + "b"}, {"pubkey": "b" + A[1:]})]
    replaceable = [(lent.event(made(kind=kind, tags=tags["a"])), lent.event(made(kind=kind, created_at=1, tags=tags["b"])))
                   for kind in (0, 3, 10000, 19999)]
    yield lent.set()
    for name in small + ["long"]:
        for other in small if name != "long" else ["long", "long b"]:
            same = same_d.get(name, name) == same_d.get(other, other)
            yield from fresh(2)
            yield STORED, first[name].message()
            yield STORED, second[other].parts()
            yield (b"14 " if same else b"0 "), line(b"H", 1)
    for other in others:
        yield from fresh(2)
        yield STORED, first["a"].parts()
        yield STORED, other.message()
        yield b"0 ", line(b"H", 1)
    for old, new in replaceable:
        yield from fresh(1)
        yield STORED, old.parts()
        yield STORED, new.parts()
        yield OLDER, old.message()


def ties():
    """Equal times: the lower id stays, whichever comes first; times at both ends, negative ones among them."""
    lent = Lent()
    tied = [lent.event(made(kind=kind, created_at=time, content=str(n))) for kind in (0, 10000, 30000) for time in (0, -7200)
            for n in range(4)]
    times = [0, 1, -1, -7200, 7200, 2**31, -(2**31), 2**32, MAX_TIME, -MAX_TIME, MAX_TIME - 1, 1 - MAX_TIME, 255, 256, -256]
    at_times = [lent.event(made(kind=10000, created_at=time)) for time in times]
    yield lent.set()
    for group in range(0, len(tied), 4):
        for order in permutations(tied[group : group + 4], 3):
            yield from fresh(1)
            for one in order:
                yield None, one.message()
            yield b"0 ", line(b"H", 0)
    for i, first in enumerate(at_times):
        for j, second in enumerate(at_times):
            yield from fresh(1, 0)
            yield STORED, first.message()
            yield (DUPLICATE if i == j else STORED if times[i] < times[j] else OLDER), second.parts()


def signatures():
    """One id and text with other signatures is one event; the signature first stored stays."""
    lent = Lent()
    events = (made(kind=1), made(kind=10000), STARRED, made(kind=30000))
    pairs = [[lent.event(fields, sig) for sig in (FIRST, SECOND)] for fields in events]
    newer = lent.event(made(kind=10000, created_at=1))
    yield lent.set()
    for size in SIZES:
        for first, second in pairs:
            for one, other in ((first, second), (second, first)):
                yield from fresh(size)
                yield STORED, one.message()
                yield DUPLICATE, other.parts()
                yield DUPLICATE, other.message()
        yield from fresh(size)
        yield STORED, pairs[1][0].parts()
        yield STORED, newer.parts()
        yield OLDER, pairs[1][0].message()


def tile(n):
    return dict(kind=30000, created_at=5, tags=[["d", "floor-3/tile-%04d" % n]])


def full_tables():
    """01: "Full table: a held id is duplicate, a newer event of a held key is stored, any other regular event gives 12"."""
    for size in (1, 2, 8, 64):
        lent = Lent()
        tiles = [lent.event(made(**tile(n))) for n in range(size)]
        newer = [lent.event(made(**{**tile(n), "created_at": 6})) for n in (0, size - 1)]
        older = lent.event(made(**{**tile(size - 1), "created_at": 4}))
        other_sig = lent.event(tiles[0].fields, SECOND)
        regular = lent.event(made(kind=1))
        other_key = lent.event(made(**tile(9999)))
        ephemeral = lent.event(made(kind=20000))
        wrong = lent.event(made(kind=1), id="0" * 64)
        yield lent.set()
        for extra in (0, 77):
            yield from fresh(size, extra)
            for n, one in enumerate(tiles):
                yield STORED, one.parts() if n % 2 else one.message()
            yield b"sound", line(b"S")
            yield from both(FULL, regular)
            yield from both(FULL, other_key)
            yield FULL, regular.parts()
            yield DUPLICATE, other_sig.message()
            yield DUPLICATE, tiles[-1].parts()
            yield OLDER, older.message()
            yield EPHEMERAL, ephemeral.message()
            yield b"10 ", wrong.message()
            for one in newer[: min(size, 2)]:
                yield from both(STORED, one)
            yield OLDER, tiles[0].message()
            for slot in (0, size - 1):
                yield b"0 ", line(b"H", slot)
            for slot in (size, size + 1, 64, MOST, 2**32, 10**17):
                yield b"14 ", line(b"H", slot)
            # One byte of the last slot, or behind it; the last key made the first one.
            last = HEADER + (size - 1) * SLOT
            for want, at in ((b"unsound", last + 112), (b"unsound", last + SLOT - 1), (b"sound", last + SLOT)):
                yield from turned(want, at, 255)
            if size > 1:
                names = [slot_of({**tile(n), "created_at": 6}, A) for n in (size - 1, 0)]
                steps = list(changes(size - 1, *names))
                for step in steps[:-1]:
                    yield None, step
                yield b"unsound", steps[-1]
                yield b"11 refused", regular.message()
            # A regular event held in a full table.
            yield from fresh(size, extra)
            yield STORED, regular.message()
            for one in tiles[1:]:
                yield STORED, one.message()
            yield DUPLICATE, regular.parts()
            yield FULL, tiles[0].parts()


# Rows 1 to 11 of an offer.


def refusals():
    """Rows 1 to 10 go before 11, and 11 before every verdict; 5 for no EVENT goes before 6 to 8."""
    lent = Lent()
    good = [lent.event(made(kind=kind)) for kind in (1, 10000, 20000, 30000)]
    wanted = []
    for row, name, value in EVENT_FAULTS:
        if len(value) < 300:
            text = event({**spelled_fields(made(kind=1), plain), name: value}.items())
            wanted.append((said(row, text), lent.add(raw(text)), len(raw(text))))
    no_events = ['["CLOSE","s"]', '["CLOSE",""]', "{}", "[]", '["EVENT"]', '["EVENT",{}]', req("{}"), req('{"limit":-0}'),
        req('{"ids":[""]}'), req('{"kinds":[]}'), req(), req(*["{}"] * 5), req("{}", sub='""')]
    messages = [(5, text) for text in no_events]
    messages += [(5, '["CLOSE","\\u0000"]'), (4, req('{"limit":-0,"#a":["\\ud800"]}')), (3, ""), (3, "[")]
    messages += [(2, '["CLOSE","\udcff"]'), (6, event_with(kind="⑥65536")), (6, event_with(created_at="⑥1e3"))]
    messages += [(10, event_with()), (10, offer(made(kind=20000), id=A))]
    messages += [(9, offer(made(content="x" * 4017))), (9, offer(made(content="x" * 4017), id=A))]
    wanted += [(said(row, text), lent.add(raw(text)), len(raw(text))) for row, text in messages]
    taken, large = [lent.event(made(content="x" * size)) for size in (4016, 4017)]
    long = lent.add(raw(offer(made()) + " " * MESSAGE_BYTES))
    wanted += [(b"1", long, MESSAGE_BYTES + 1)]
    yield lent.set()
    for state in ("sound", "full", "unsound", "unformatted"):
        yield from fresh(1)
        if state == "full":
            yield STORED, taken.message()
        if state == "unsound":
            yield b"unsound", line(b"X", 8, 1)
        if state == "unformatted":
            yield None, line(b"L", size_of(1), 0)
        bad = state.startswith("un")
        for refusal, at, length in wanted:
            yield refusal + b" refused", line(b"M", at, length)
            yield refusal + b" refused", line(b"J", at, length)
        for one in good:
            want = b"11 refused" if bad else None
            yield from both(want, one)
            yield want, one.parts()
        for size in (8191, 8192, 8193, MESSAGE_BYTES - 1, MESSAGE_BYTES):
            want = b"11 refused" if bad else OLDER if state == "full" else FULL
            yield want, line(b"M", long, size)
            yield want, line(b"J", long, size)
        if bad:
            yield b"11 refused", taken.parts()
        # Parts that break a row, each of them in an event that is good but for it.
        yield b"9 refused", large.parts()
        for one in good[:2]:
            for row, at, value in part_faults(one):
                numbers = list(one.numbers)
                numbers[at] = value
                yield b"%d refused" % row, line(b"P", *numbers)


def offsets():
    """02, Wish 9: an event refused by 6 or 7 as a message, with its place, and the same as parts, which have none."""
    lent = Lent()
    chosen = []
    for time, kind, key, sig, id in product((0, -MAX_TIME - 1), (1, 65536), (A, "x", A.upper()), (FIRST, A), (None, A[1:])):
        one = lent.event(made(key, time, kind), sig, id=id)
        start = one.place[0]
        numbers = [wrong for wrong, value in ((b'"created_at":', time), (b'"kind":', kind)) if value not in (0, 1)]
        strings = [wrong for wrong, right in ((b'"id":', not id), (b'"pubkey":', key == A), (b'"sig":', sig == FIRST)) if not right]
        if numbers + strings:
            name = (numbers + strings)[0]
            row = b"6" if numbers else b"7"
            chosen.append((row, b"%d" % (lent.bytes.index(name, start) + len(name) - start), one))
    texts = cases_offset.short("EVENT")[::12] + cases_offset.short("REQ")[::60]
    messages = [(said(row if "EVENT" in text else min(row, 5), text), lent.add(raw(text)), len(raw(text))) for row, text in texts]
    yield lent.set()
    for state in (b"sound", b"unsound"):
        yield from fresh(1)
        if state == b"unsound":
            yield state, line(b"X", 8, 1)
        for row, offset, one in chosen:
            yield from both(row + b"@" + offset + b" refused", one)
            yield row + b" refused", one.parts()
        for refusal, *place in messages:
            yield refusal + b" refused", line(b"M", *place)
            yield refusal + b" refused", line(b"J", *place)


def part_faults(one):
    """(row, which number, value): one number of the parts changed."""
    yield from ((7, 1, 63), (7, 1, 0), (7, 3, 63), (7, 10, 127), (7, 10, 64), (5, 0, 65536), (5, 9, 10**17), (5, 8, 65537))
    yield from ((6, 4, MAX_TIME + 1), (6, 4, -MAX_TIME - 1), (6, 5, 65536), (6, 5, -1), (5, 6, 65535), (5, 6, 10**17))
    yield from ((10, 4, one.numbers[4] + 1), (10, 5, one.numbers[5] + 1), (10, 4, -1), (10, 4, 2**53 - 1))


# Soundness.

# Place and length of a slot's fields; a change of the first two cannot be told.
FIELDS = {"id": (0, 32), "sig": (32, 64), "time": (96, 8), "kind": (104, 2), "text length": (106, 2), "d": (108, 4)}


def turned(want, at, bits):
    """A byte changed, and back."""
    yield want, line(b"X", at, bits)
    yield b"sound", line(b"X", at, bits)


def each_byte():
    """A table of three slots that holds two, with every byte that soundness names changed one at a time."""
    lent = Lent()
    addressable = lent.event(made(kind=30000, created_at=-7200, tags=[["e", "x"], ["d", "t\n1"]], content='a"b'))
    regular = lent.event(made(kind=1, created_at=7, content="x"))
    probe = lent.event(made(kind=2))
    yield lent.set()
    for extra in (0, 40):
        yield from fresh(3, extra, 0)
        yield STORED, addressable.message()
        yield STORED, regular.message()
        for at in range(16):
            for bit in range(8):
                # A capacity of 2 is sound too.
                yield from turned(b"sound" if (at, bit) == (0, 0) else b"unsound", at, 1 << bit)
    yield b"unsound", line(b"X", 12, 1)
    yield b"11 refused", probe.message()
    yield b"11 refused", probe.judged()
    yield b"11 ", line(b"H", 0)
    yield b"sound", line(b"X", 12, 1)
    sizes = [len(text_of(one.fields)) for one in (addressable, regular)]
    for slot in (0, 1):
        base = HEADER + slot * SLOT
        for name, (at, length) in FIELDS.items():
            for i in range(length):
                for bit in range(8) if length <= 8 else (i % 8,):
                    yield from turned(b"sound" if name in ("id", "sig") else b"unsound", base + at + i, 1 << bit)
        for i in range(sizes[slot]):
            for bits in (1, 255):
                yield from turned(None if bits == 1 else b"unsound", base + 112 + i, bits)
        behind = {sizes[slot] + by for by in (0, 1, 2, 7, 8, 63, 64)}
        for i in sorted(behind | set(range(300, 4096, 397)) | {4088, 4094, 4095}):
            for bits in (1, 128):
                yield from turned(b"unsound", base + 112 + i, bits)
    later = HEADER + 2 * SLOT
    for i in [0, 1, 31, 32, 95, 96, *range(103, 114), *range(200, SLOT, 501), SLOT - 2, SLOT - 1]:
        for bits in (1, 16, 255):
            yield from turned(b"unsound", later + i, bits)
    for i in (0, 1, 15, 39, 40, 63, 100):
        yield from turned(b"sound", HEADER + 3 * SLOT + i, 255)


def header_numbers():
    """Header numbers with the buffer's length."""
    for capacity in (1, 2, 8):
        for other in (capacity - 1, capacity, capacity + 1, capacity + 2):
            for size in (size_of(other) - 1, size_of(other), size_of(other) + 1):
                if size >= size_of(capacity):
                    yield None, line(b"L", size, 0)
                    yield b"0", line(b"F", capacity)
                    yield (b"sound" if other and size >= size_of(other) else b"unsound"), line(b"X", 0, capacity ^ other)
                    yield b"unsound", line(b"X", 4, 1)
                    yield b"unsound", line(b"X", 4, 1 ^ 255)
    # All slots fit, and those behind a smaller capacity are not looked at.
    lent = Lent()
    ones = [lent.event(made(kind=1, content=str(n))) for n in range(5)]
    yield lent.set()
    yield None, line(b"L", size_of(4), 0)
    yield b"0", line(b"F", 2)
    for one in ones[:2]:
        yield STORED, one.message()
    yield FULL, ones[2].message()
    yield b"sound", line(b"X", 0, 2 ^ 4)
    yield STORED, ones[2].message()
    yield STORED, ones[3].parts()
    yield FULL, ones[4].message()
    yield b"unsound", line(b"X", 0, 4 ^ 5)
    yield None, line(b"X", 0, 4 ^ 5)
    yield None, line(b"X", 4, 4 ^ 2)
    yield b"sound", line(b"X", 0, 4 ^ 2)
    yield b"sound", line(b"X", HEADER + 2 * SLOT + 9, 255)
    yield FULL, ones[3].message()
    yield b"14 ", line(b"H", 2)


def changes(slot, old, new):
    """The lines that make of one slot's bytes others of them."""
    for i, (a, b) in enumerate(zip(old, new)):
        if a != b:
            yield line(b"X", HEADER + slot * SLOT + i, a ^ b)


def slot_of(fields, identity):
    return event_of(bytes.fromhex(identity), bytes.fromhex(FIRST), made(**fields)).slot()


def slot_changes():
    """One held slot made into another that agrees with itself, byte by byte: at the end sound or not by what else is held."""
    base = dict(kind=30000, created_at=3, tags=[["d", "a"]])
    other = dict(kind=30000, created_at=4, tags=[["d", "b"]])
    wanted = [
        (b"unsound", base, other, {**other, "tags": [["d", "a"]]}, None),  # key held twice
        (b"sound", base, other, {**other, "tags": [["d", "c"]]}, None),
        (b"unsound", base, other, {**other, "tags": [["d", "a", "b"]]}, None),
        (b"sound", base, other, {**other, "tags": [["d", ""]]}, None),
        (b"unsound", {**base, "tags": []}, other, {**other, "tags": [["d", ""]]}, None),
        (b"unsound", {**base, "tags": [["d"]]}, other, {**other, "tags": []}, None),
        (b"sound", base, other, {**other, "tags": [["d", "a"]], "kind": 30001}, None),
        (b"sound", base, other, {**other, "tags": [["d", "a"]], "pubkey": B}, None),
        (b"sound", base, other, {**other, "tags": [["d", "a"]], "kind": 40000}, None),
        (b"sound", base, other, {**other, "tags": [["d", "a"]], "kind": 10000}, None),
        (b"unsound", base, other, {**other, "kind": 20000}, None),  # ephemeral
        (b"unsound", base, other, {**other, "kind": 29999, "tags": []}, None),
        (b"sound", base, other, {**other, "kind": 19999, "tags": []}, None),
        (b"unsound", dict(kind=10000), dict(kind=10001), dict(kind=10000, created_at=1), None),
        (b"unsound", dict(kind=0), dict(kind=3), dict(kind=0, content="x"), None),
        (b"sound", dict(kind=1), dict(kind=2), dict(kind=1, content="x"), None),
        (b"unsound", dict(kind=1), dict(kind=2), dict(kind=2), made(kind=1)),  # id held twice, with another text
        (b"unsound", dict(kind=1), dict(kind=10000), dict(kind=10000), made(kind=1)),
        (b"sound", dict(kind=1), dict(kind=2), dict(kind=2), made(kind=4)),  # "Ids are not hashed again"
        (b"sound", dict(kind=1), dict(kind=2, created_at=MAX_TIME), dict(kind=2, created_at=-MAX_TIME), None),
    ]
    for want, first, second, last, id_from in wanted:
        lent = Lent()
        ones = [lent.event(made(**fields)) for fields in (first, second, last)]
        yield lent.set()
        yield from fresh(2, 8)
        yield STORED, ones[0].message()
        yield STORED, ones[1].message()
        own = id_of(made(**second))
        old, new = slot_of(second, own), slot_of(last, id_of(id_from) if id_from else own)
        steps = list(changes(1, old, new))
        for step in steps[:-1]:
            yield None, step
        yield want, steps[-1]
        for one in ones:
            yield None, one.judged()
            yield None, one.parts()
        yield None, line(b"H", 1)


# 02, Wish 6: messages of up to 16,384 bytes, tables of up to 1,024 slots.


def long_offers():
    """Messages that have more than 8,192 bytes, whose texts have up to 4,096 or more; as parts they are the same events."""
    rng = random.Random(14)
    long_escaped = lambda s: escaped(rng, s) if len(s) > 128 else plain(s)
    for c, most in (("x", 2600), ("é", 2008), ("\n", 2008), ("€", 1338), ("\x00", 2600)):
        lent = Lent()
        full = len(text_of(made(content=c * (most + 1)))) > 4096
        first, newer, more = [lent.event(made(kind=0, created_at=time, content=c * count), string=long_escaped)
                              for time, count in ((0, most), (1, most), (2, most + 1))]
        again = lent.event(first.fields, SECOND, string=verbatim)
        yield lent.set()
        assert all(8192 < one.place[1] <= MESSAGE_BYTES for one in (first, newer, more))
        yield from fresh(1)
        yield from both(STORED, first)
        yield DUPLICATE, first.parts()
        yield DUPLICATE, again.parts()
        yield b"0 ", line(b"H", 0)
        yield STORED, newer.parts()
        yield OLDER, first.message()
        yield from both(b"9 refused" if full else STORED, more)
        yield (b"9 refused" if full else DUPLICATE), more.parts()
    # What is too long for a message can be offered as parts, and is then too long for a text.
    lent = Lent()
    sizes = (4017, 8000, 16000, MESSAGE_BYTES - len(offer(made())), MESSAGE_BYTES - len(offer(made())) + 1)
    ones = [lent.event(made(content="x" * size)) for size in sizes]
    yield lent.set()
    for one in ones:
        yield from both(b"9 refused" if one.place[1] <= MESSAGE_BYTES else b"1 refused", one)
        yield b"9 refused", one.parts()


def set_number(at, old, new):
    """The lines that make of a number of the header another, with the number after each."""
    for i in range(4):
        bits = (old ^ new) >> 8 * i & 255
        if bits:
            old ^= bits << 8 * i
            yield old, line(b"X", at + i, bits)


def large_headers():
    """Capacities on both sides of the most, in buffers that have the slots or lack a byte of them."""
    capacity = MOST
    yield from fresh(MOST, 150, 0)
    for other in (MOST - 1, MOST, MOST + 1, 1000, 257, 256, 255, 128, 66, 65, 64, 63, 1, 0, 2048, 65536 + 1, 2**31, MOST):
        for now, step in set_number(0, capacity, other):
            yield (b"sound" if 1 <= now <= MOST else b"unsound"), step
        capacity = other
    for other in (65, 66, 128, 256, 257, 1000, MOST - 1, MOST):
        for by in (-1, 0, 1):
            yield None, line(b"L", size_of(other) + by, 0)
            yield b"0", line(b"F", 64)
            for now, step in set_number(0, 64, other):
                yield (b"sound" if now and size_of(now) <= size_of(other) + by else b"unsound"), step
        # One slot counted that holds nothing; as many as there are, and one more.
        count = 0
        for wrong in (1, other, other + 1):
            for now, step in set_number(4, count, wrong):
                yield (b"unsound" if now else b"sound"), step
            count = wrong


SLOTS = (0, 63, 64, 255, 256, 511, MOST - 2, MOST - 1)  # of the large table, each the slot of a tile


def large_event(n):
    """What slot n of the large table holds: every kind of event, and in some slots a tile."""
    if n in SLOTS or n % 4 == 0:
        return tile(n)
    return [
        dict(kind=1, created_at=n, content=str(n)),
        dict(kind=10000 + n, created_at=-n, tags=[["d", "x"]]),
        dict(kind=30001 + n % 8, pubkey=B, created_at=7, tags=[["e", "x"], ["d", "\n%d" % n]], content="é\x01"),
    ][n % 4 - 1]


def lent_in_turn(offers):
    """Many events lent, as many at a time as fit: of each how it is lent, and its lines once it is."""
    lent, pending = Lent(), []
    for lend, lines_of in offers:
        if len(lent.bytes) > 60000:
            yield lent.set()
            for one, after in pending:
                yield from after(one)
            lent, pending = Lent(), []
        pending.append((lend(lent), lines_of))
    yield lent.set()
    for one, after in pending:
        yield from after(one)


def filling(n):
    """Slot n filled, with what is asked at some counts."""

    def lines_of(one):
        yield STORED, one.parts() if n % 2 else one.message()
        if n + 1 in (64, 65, 256, 257, MOST - 1):
            yield b"sound", line(b"S")
            yield DUPLICATE, one.judged()
            for slot, want in ((n, b"0 "), (n + 1, b"14 ")):
                yield want, line(b"H", slot)
        if n + 1 == MOST - 2:
            # Two later slots: a byte of either, and the byte behind the table.
            for slot in (MOST - 2, MOST - 1):
                for i in (0, 112, SLOT - 1):
                    yield from turned(b"unsound", HEADER + slot * SLOT + i, 128)
            yield from turned(b"sound", size_of(MOST), 128)

    return lambda lent: lent.event(made(**large_event(n))), lines_of


def large_verdicts():
    """On the full table: duplicate, older, stored over a slot, 12."""

    def asked(want, fields, sig=FIRST, stored=False, id=None):
        def lines_of(one):
            yield want, one.judged()
            yield want, one.message()
            yield (DUPLICATE if stored else want), one.parts()

        return lambda lent: lent.event(fields, sig, id=id), lines_of

    for n in SLOTS:
        held_one = made(**large_event(n))
        yield asked(DUPLICATE, held_one, SECOND)
        yield asked(OLDER, {**held_one, "created_at": "4"})
        yield asked(STORED, {**held_one, "created_at": "6"}, stored=True)
        yield asked(OLDER, held_one)
    for n in (1, 2, 3, 1018, 1019, 1021):
        yield asked(DUPLICATE, made(**large_event(n)), SECOND)
    for n in (1018, 1019):
        yield asked(OLDER, {**made(**large_event(n)), "created_at": "-7200"})
        yield asked(STORED, {**made(**large_event(n)), "created_at": "7200"}, stored=True)
    for fields in (made(kind=1), made(**tile(9999)), made(kind=10000), made(pubkey=B, kind=10000 + 2), made(kind=65535)):
        yield asked(FULL, fields)
    yield asked(EPHEMERAL, made(kind=20000))
    yield asked(b"10 refused", made(kind=1), id="0" * 64)


def becoming(slot, at, old, new):
    """Bytes at a place of a slot made others, one at a time, and turned back; with the last one the table is unsound."""
    steps = [line(b"X", HEADER + slot * SLOT + at + i, a ^ b) for i, (a, b) in enumerate(zip(old, new)) if a != b]
    for step in steps[:-1]:
        yield None, step
    yield b"unsound", steps[-1]
    for step in steps[:0:-1]:
        yield None, step
    yield b"sound", steps[0]


def ids_near(slot, identity, others):
    """The id of a slot made that of each other slot, a byte at a time; with the last one, which is turned back, it is held twice."""
    for other in others:
        steps = [(i, a ^ b) for i, (a, b) in enumerate(zip(identity, other)) if a != b]
        for i, bits in steps[:-1]:
            yield b"sound", line(b"X", HEADER + slot * SLOT + i, bits)
        i, bits = steps[-1]
        yield from turned(b"unsound", HEADER + slot * SLOT + i, bits)
        identity = other[:i] + identity[i:]


def tile_digits(slot, other):
    """The place of a tile's name in its slot, the name, and another tile's."""
    name, wanted = b"tile-%04d" % slot, b"tile-%04d" % other
    return slot_of(tile(slot), A).index(name), name, wanted


def large_damage():
    """On the full table: header numbers; an id or a key held twice; a byte of the last slot, and behind it."""
    last = MOST - 1
    for at, other in ((0, MOST - 1), (0, MOST + 1), (0, 2 * MOST), (0, 64), (4, MOST - 1), (4, MOST + 1), (4, 64), (4, 0)):
        steps = [step for _, step in set_number(at, MOST, other)]
        for step in steps + steps[:0:-1]:
            yield b"unsound", step
        yield b"sound", steps[0]
    # Keys and ids: the last slot's made those of another slot.
    for other in (0, 511, MOST - 2):
        yield from becoming(last, *tile_digits(last, other))
    first, *others = [bytes.fromhex(id_of({**made(**large_event(n)), "created_at": "6"})) for n in (last, 0, 511, MOST - 2)]
    yield from ids_near(last, first, others)
    for want, at in ((b"unsound", 112), (b"unsound", SLOT - 1), (b"sound", SLOT), (b"sound", 95)):
        yield from turned(want, HEADER + last * SLOT + at, 1)
    for slot in SLOTS:
        yield b"0 ", line(b"H", slot)
    for slot in (MOST, MOST + 1, 2 * MOST, 65536):
        yield b"14 ", line(b"H", slot)
    yield b"sound", line(b"S")


def large_table():
    """One table of the most slots, filled once. At the end it is formatted smaller: the slots behind are not looked at."""
    yield from fresh(MOST, 150)
    yield from lent_in_turn([filling(n) for n in range(MOST)])
    yield b"sound", line(b"S")
    yield from lent_in_turn(large_verdicts())
    yield from large_damage()
    yield b"0 0 ", line(b"F", 65)
    yield b"sound", line(b"S")
    for now, step in set_number(0, 65, MOST):
        yield b"unsound", step
    yield b"0 0 ", line(b"F", MOST)
    yield b"sound", line(b"S")


def mid_tables():
    """Tables of more than 64 slots, full: an id and a key held twice in slots on both sides of slot 64."""
    for capacity in (65, 128):
        yield from fresh(capacity)
        yield from lent_in_turn([
            (lambda lent, n=n: lent.event(made(**tile(n))), lambda one: iter([(STORED, one.message())])) for n in range(capacity)])
        yield b"sound", line(b"S")
        regular = Lent()
        one = regular.event(made(kind=1))
        yield regular.set()
        yield from both(FULL, one)
        for slot, other in ((64, 63), (63, 64), (capacity - 1, 0), (0, capacity - 1)):
            yield from becoming(slot, *tile_digits(slot, other))
        ids = [bytes.fromhex(id_of(made(**tile(n)))) for n in range(capacity)]
        yield from ids_near(64, ids[64], [ids[63], ids[0]])
        yield from ids_near(0, ids[0], [ids[capacity - 2]])
        yield from both(FULL, one)


# 02, Wish 3: control characters.


def in_capitals(s):
    """A string whose escapes are all \\u, the digits in capitals."""
    return '"' + "".join("\\u%04X" % ord(c) if c < " " or c in '"\\' else c for c in s) + '"'


def control_events():
    for time in (0, 1):
        for tags in ([["d", "\x00"]], [["d", "\x01\x1f"], ["t", CONTROLS]], [["d", BELOW]]):
            yield from (made(A, time, kind, tags, BELOW) for kind in (1, 10000, 30000))


def one_event():
    """One event however it is spelled; its text, raw, lent again is the event too. A message that has one raw is no JSON."""
    rng = random.Random(12)
    lent = Lent()
    ways = (plain, in_capitals, lambda s: spell(rng, s), verbatim)
    events = [made(kind=kind, tags=[["d", BELOW + "\x7f"], ["t", BELOW]], content=BELOW + "\x7f") for kind in (1, 10000, 30000)]
    sets = [[lent.event(fields, string=string) for string in ways] for fields in events]
    again = [lent.held(event_of(bytes.fromhex(id_of(fields)), bytes.fromhex(FIRST), fields)) for fields in events]
    yield lent.set()
    for (*spelled_out, verbatim_one), held_one in zip(sets, again):
        every = spelled_out + [verbatim_one, held_one]
        for first in [one.message() for one in spelled_out] + [one.parts() for one in every]:
            yield from fresh(2)
            yield STORED, first
            yield from ((DUPLICATE, one.parts()) for one in every)
            yield from ((DUPLICATE, one.message()) for one in spelled_out)
            yield b"0 ", line(b"H", 0)
            yield b"14 ", line(b"H", 1)
        yield b"3 refused", verbatim_one.message()
        yield b"3 refused", verbatim_one.judged()
        yield b"sound", line(b"S")


def control_keys():
    """d as decoded: spelled in either case or raw it is one key; other characters make other keys."""
    lent = Lent()
    ways = (plain, in_capitals, verbatim)
    sets = [[lent.event(made(kind=30000, created_at=time, tags=[["d", c]]), string=string) for time, string in enumerate(ways)]
            for c in BELOW]
    yield lent.set()
    for k, (first, second, third) in enumerate(sets):
        yield from fresh(2)
        yield STORED, first.message()
        yield STORED, second.message()
        yield STORED, third.parts()
        yield OLDER, first.parts()
        yield b"14 ", line(b"H", 1)
        yield STORED, sets[k ^ 1][0].message()
        yield b"0 ", line(b"H", 0)
        yield b"0 ", line(b"H", 1)
    lent = Lent()
    values = ["", "\x00", "\x01", "\x00\x01", "\x01\x00", "\\u0001", "u0001", "\x7f", "\x00" * 32, "\x00" * 33]
    ones = [[lent.event(made(kind=30000, tags=[["d", d]]), string=string) for string in (plain, verbatim)] for d in values]
    yield lent.set()
    for (first, _), (_, second) in combinations(ones, 2):
        yield from fresh(2)
        yield STORED, first.message()
        yield STORED, second.parts()


def control_slots():
    """A byte of a held text made a control character: it may stand in a string, unless it has a short escape; nowhere else."""
    lent = Lent()
    one = lent.event(made(kind=30000, tags=[["d", "xx"], ["t", "yy"]], content="zz"))
    zeros = lent.event(made(kind=1, content="\x00" * 40, tags=[["\x00"]]))
    longest, again, large = [lent.event(made(content="\x01" * size), string=string)
                             for size, string in ((4016, verbatim), (4016, plain), (4017, verbatim))]
    yield lent.set()
    yield from fresh(2)
    yield STORED, one.message()
    text = text_of(one.fields)
    inside = [text.index(b"xx"), text.index(b"xx") + 1, text.index(b"yy"), text.index(b"zz"), text.index(b"zz") + 1]
    outside = [0, 1, 2, 4, 67, 68, 69, 71, len(text) - 1]
    outside += [text.index(part) for part in (b"[[", b'"d"', b'"xx"', b',"zz')]
    for c in BELOW:
        for at in inside:
            yield from turned(b"sound" if c in CONTROLS else b"unsound", HEADER + 112 + at, text[at] ^ ord(c))
        at = outside[ord(c) % len(outside)]
        yield from turned(b"unsound", HEADER + 112 + at, text[at] ^ ord(c))
    for at in outside:
        yield from turned(b"unsound", HEADER + 112 + at, text[at])
    # Zeros in a text, and behind it; the text's length is told by its field only.
    yield STORED, zeros.parts()
    second, size = HEADER + SLOT, len(text_of(zeros.fields))
    for by in (1, 2, 3, 4, 32, 64):
        yield from turned(b"unsound", second + 106, size ^ (size - by))
        yield from turned(b"unsound", second + 106, size ^ (size + by))
    for at in range(size - 5, size + 2):
        yield from turned(b"sound" if at < size - 2 else b"unsound", second + 112 + at, 1)
    # 4,016 of them fill a text; spelled, no message has room for so many.
    yield from fresh(1)
    yield b"9 refused", large.parts()
    yield b"1 refused", again.message()
    yield STORED, longest.parts()
    yield DUPLICATE, again.parts()
    yield b"0 ", line(b"H", 0)


# Lists of offers.


def small_events():
    """Few pubkeys, kinds, times and values of d, so that ids and keys meet."""
    for kind in (1, 0, 10000, 30000, 20000, 65535):
        for time in (0, 1, -7200):
            for tags in ([], [["d", "a"]], [["d"]]):
                yield made(A, time, kind, tags)
    yield made(B, 1, 30000, [["d", "a"]])
    yield made(B, 0, 0)
    yield made(B, 0, 1, content="é\n")


def groups():
    """(capacity, lent bytes, offers): lists of them in every order end alike."""
    rng = random.Random(7)
    pool = list(small_events())
    for capacity, count in ((8, 3), (8, 3), (2, 3), (1, 3), (8, 4), (8, 4), (8, 4)):
        for _ in range(6):
            lent = Lent()
            kind = rng.choice([0, 10000, 30000])
            fields = [made(A, rng.choice([0, 1]), kind, rng.choice([[], [["d", ""]]]), str(n)) for n in range(2)]
            fields += rng.sample(pool, count - 2)
            yield capacity, lent, [lent.event(f, rng.choice([FIRST, SECOND])) for f in fields]


def orders():
    rng = random.Random(8)
    for capacity, lent, offers in groups():
        yield lent.set()
        for order in permutations(offers):
            yield from fresh(capacity, 0)
            for one in order:
                yield None, one.either(rng)
            yield None, rng.choice(order).either(rng)
            yield b"sound", line(b"S")


def run(program, lines):
    for _, one in lines:
        program.answer(one)
    return held(program.table())


def exchanges():
    """Two relays: each offers, as parts, what the other holds. (lines of one relay, lines of the other.)"""
    rng = random.Random(9)
    pool = list(small_events())
    for turn in range(26):
        if turn == 24:
            pool = list(control_events())
        lent = Lent()
        offers = [lent.event(f, rng.choice([FIRST, SECOND])) for f in rng.sample(pool, 4)]
        offers += [lent.event(offers[0].fields, SECOND)]
        for cut in (1, 2, 3):
            sizes = rng.choice([(8, 8), (8, 64), (6, 8)]) if turn % 6 == 0 else rng.choice([(8, 8), (6, 8), (8, 5)])
            orders_of = [rng.sample(offers[:cut] + offers[4:], cut + 1), rng.sample(offers[cut:], 5 - cut)]
            histories = [
                [lent.set(), *fresh(size, 0)] + [(None, one.either(rng)) for one in mine]
                for size, mine in zip(sizes, orders_of)
            ]
            left, right = [run(Program(), lines) for lines in histories]
            first = histories[0] + list(taken_over(rng, right))
            late = rng.randrange(2)
            second = histories[1] + list(taken_over(rng, run(Program(), first) if late else left))
            yield first, second


def taken_over(rng, events):
    lent = Lent()
    offers = [lent.held(e) for e in events]
    if not offers:
        return
    yield lent.set()
    offers += rng.sample(offers, rng.randrange(len(offers)))
    rng.shuffle(offers)
    for one in offers:
        yield None, one.parts()
    yield b"sound", line(b"S")


FEW_TAGS = [[], [["d"]], [["d", ""]], [["d", "a"]], [["d", "a\n"]], [["e", "x"], ["d", "a"]], [["d", "b"], ["d", "a"]]]
CONTROL_TAGS = [[["d", "\x00"]], [["d", "\x00\x00"]], [["d", "\x1f"]], [["e", "\x0b"], ["d", "\x01"]]]
CONTROL_TAGS += [[["d\x00", "a"], ["d", "a\x00"]]]


def random_event(rng, long, few=FEW_TAGS, sample=SAMPLE):
    kind = rng.choice([0, 1, 1, 3, 44, 10000, 19999, 20000, 30000, 30000, 30000, 39999, 40000])
    tags = rng.choice(few + [[["t", words(rng, 4, sample)]]])
    time = rng.choice([0, 1, 2, -1, -7200, MAX_TIME, -MAX_TIME])
    inner = words(rng, 8, sample) if not long else "x" * rng.randrange(1000, 3900)
    return made(rng.choice([A, A, A, B]), time, kind, tags, rng.choice(["", "", inner]))


def random_lists(rng):
    for turn in range(30):
        lent = Lent()
        offers = []
        for n in range(48):
            fields = random_event(rng, n % 16 == 5)
            string = plain if rng.randrange(3) else lambda s: spell(rng, s)
            wrong = {"id": hexes(rng, 64)} if rng.randrange(12) == 0 else {}
            offers.append(lent.event(fields, rng.choice([FIRST, SECOND]), string, **wrong))
        yield lent.set()
        for _ in range(70):
            yield from random_list(rng, offers)


def random_list(rng, offers):
    capacity = rng.choice([1, 2, 2, 3, 5, 8])
    yield from fresh(capacity, rng.choice([0, 0, 1, 40]), rng.choice([0, 170]))
    chosen = rng.sample(offers, rng.choice([2, 4, 6, 12]))
    for _ in range(rng.choice([3, 5, 8, 14])):
        yield None, rng.choice(chosen).either(rng)
    if rng.randrange(3) == 0:
        yield None, line(b"H", rng.randrange(capacity + 1))
    if rng.randrange(4) == 0:
        at, bits = rng.randrange(size_of(rng.choice([0, 1, 1, capacity]))), 1 << rng.randrange(8)
        yield None, line(b"X", at, bits)
        yield None, rng.choice(chosen).either(rng)
        yield None, line(b"X", at, bits)
        yield None, rng.choice(chosen).either(rng)
    else:
        yield b"sound", line(b"S")


def control_lists(rng):
    lent = Lent()
    ways = (plain, in_capitals, verbatim, lambda s: spell(rng, s), lambda s: spell(rng, s, True))
    events = [random_event(rng, False, FEW_TAGS + 2 * CONTROL_TAGS, WIDE) for _ in range(24)]
    offers = [lent.event(fields, rng.choice([FIRST, SECOND]), rng.choice(ways)) for fields in events + events]
    yield lent.set()
    for _ in range(50):
        yield from random_list(rng, offers)


def large_lists(rng):
    """64 slots."""
    for turn in range(3):
        lent = Lent()
        offers = [lent.event(random_event(rng, False)) for _ in range(100)]
        yield lent.set()
        yield from fresh(64, turn)
        for one in offers:
            yield None, one.either(rng)
        for slot in (0, 31, 63):
            yield None, line(b"H", slot)
        yield b"sound", line(b"S")


def labelled():
    for part in (formats, classes, keys, ties, signatures, full_tables, refusals, offsets, long_offers):
        yield from part()
    for part in (each_byte, header_numbers, large_headers, slot_changes, orders, one_event, control_keys, control_slots):
        yield from part()
    for part in (mid_tables, large_table):
        yield from part()
    for first, second in exchanges():
        yield from first
        yield from second
    yield from random_lists(random.Random(10))
    yield from large_lists(random.Random(11))
    yield from control_lists(random.Random(13))
    yield from old.labelled("table")


def lines():
    return [one for _, one in labelled()]
