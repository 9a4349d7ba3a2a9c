"""Lines for query_cases: (answer, line), where the answer's first words are plain from how the line is made, else None."""

import random
from itertools import combinations, permutations, product

import cases_offset
import old
from cases_event import MAX_TIME, id_of, made, offer
from cases_message import A, members, req
from cases_table import B, FIRST, Lent, fresh, in_capitals, size_of, turned
from rows import LETTERS, MESSAGE_BYTES
from spell import BELOW, CONTROLS, escaped, hexes, plain, raw, said, spell, u_escapes, verbatim, words
from table import HEADER, MOST, SLOT

NONE = 65535  # no slot has this number
LISTS, BOUNDS = ("ids", "authors", "kinds"), ("since", "until", "limit")


def line(letter, *numbers):
    return b" ".join([letter] + [b"x" if n is None else b"%d" % n for n in numbers])


def listing(slots):
    return b" ".join(b"%d" % n for n in [0, len(slots), *slots])


def strings(*values, string=plain):
    return "[" + ",".join(map(string, values)) + "]"


class Filter:
    """A filter, its values as spelled, and the numbers that lend its parts."""

    def __init__(self, fields=(), **more):
        self.fields = {**dict(fields), **more}

    def text(self):
        return members(self.fields.items())

    def lend(self, lent):
        """Lists and conditions as places of the filter's text."""
        text, places = "{", {}
        for name, value in self.fields.items():
            text += '"%s":' % name
            places[name] = len(raw(text))
            text += value + ","
        at = lent.add(raw(text.removesuffix(",") + "}"))
        lists = [at + places[name] if name in places else None for name in LISTS]
        bounds = [int(self.fields[name]) if name in places else None for name in BOUNDS]
        tagged = set(places) - set(LISTS + BOUNDS)
        return lists + bounds + [at if tagged else None]


def filters_of(*fields):
    return [Filter(one) for one in fields]


def req_of(filters, sub='"s"'):
    return req(*[one.text() for one in filters], sub=sub)


class Asked:
    """Questions about one table, with the bytes that they lend: (answer, line) once these are set."""

    def __init__(self):
        self.lent, self.lines = Lent(), []

    def full(self):
        return len(self.lent.bytes) > 50000

    def message(self, text):
        data = raw(text)
        return self.lent.add(data), len(data)

    def req(self, want, filters, size=8, fill=NONE, text=None):
        self.lines.append((want, line(b"R", fill, size, *self.message(text or req_of(filters)))))

    def parts(self, want, filters, size=8, fill=NONE, n=None):
        numbers = [number for one in filters for number in one.lend(self.lent)]
        self.lines.append((want, line(b"Q", fill, size, len(filters) if n is None else n, *numbers)))

    def both(self, want, filters, size=8, fill=NONE):
        self.req(want, filters, size, fill)
        self.parts(want, filters, size, fill)

    def flush(self):
        if self.lines:
            yield self.lent.set()
            yield from self.lines
        self.lent, self.lines = Lent(), []


def filled(capacity, events, extra=40):
    """A table that holds these events, in their order."""
    yield from fresh(capacity, extra)
    for k in range(0, len(events), 40):
        lent = Lent()
        offers = [lent.event(fields) for fields in events[k : k + 40]]
        yield lent.set()
        for n, one in enumerate(offers):
            yield b"0 %d" % (k + n + 1), one.message()


# The table of most cases. Slot 3 and slot 0 have equal times, as have 1, 2 and 7.
# What a tag e or p says stays a free string; what is asked by #e or #p is hex.
H = "0123456789abcdef" * 4
EVENTS = [
    made(A, 0, 1, [["g", "x"], ["e", H]]),
    made(B, 5, 1, [["G", "x"], ["q", "y"], ["E", H], ["p", H]]),
    made(A, 5, 2, [["g"], ["q", "x"], ["e"], ["e", H[1:]]], "text"),
    made(A, 0, 0, [["g", "xy"], ["t"], ["g", "z"], ["g", "x", "w"], ["e", "x"], ["e", H.upper()], ["e", B]]),
    made(A, -7200, 30000, [["d", "t\n1"], ["t", "\\"], ["t", "é\"/\U0001f600"]]),
    made(B, MAX_TIME, 65535, [["q", "x", "z"], ["g", "y"], ["", "x"], ["p", H, A], ["e", "y", H]]),
    made(B, -MAX_TIME, 10000, [["gg", "x"], ["x", "g"], ["g", ""], ["#g", "x"], ["ee", H], ["#e", H], ["", H]]),
    made(A, 5, 40000, []),
]
IDS = [id_of(fields) for fields in EVENTS]
NEWEST_FIRST = sorted(range(8), key=lambda k: (-int(EVENTS[k]["created_at"]), IDS[k]))


def newest_first(slots):
    return [k for k in NEWEST_FIRST if k in slots]


def other(identity, at):
    """An id that differs in one character."""
    return identity[:at] + ("0" if identity[at] != "0" else "1") + identity[at + 1 :]


# (condition as spelled, the slots it takes): every condition alone, on both sides of its border.
def single():
    every = range(8)
    for k in every:
        yield "ids", strings(IDS[k]), [k]
        yield "ids", strings(other(IDS[k], 63)), []
        yield "ids", strings(other(IDS[k], 0)), []
    yield "ids", strings(IDS[1], A, IDS[6]), [1, 6]
    yield "ids", strings(*[A] * 15, IDS[2]), [2]
    yield "ids", strings(*IDS[:8], *IDS[:8]), every
    yield "ids", "[%s]" % escaped(random.Random(1), IDS[4]), [4]
    of_a = [0, 2, 3, 4, 7]
    yield "authors", strings(A), of_a
    yield "authors", strings(B), [1, 5, 6]
    yield "authors", strings(B, A), every
    yield "authors", strings(A[:-1] + "b"), []
    yield "authors", strings("b" + A[1:]), []
    yield "authors", strings(*["c" * 64] * 15, A), of_a
    kinds = [int(fields["kind"]) for fields in EVENTS]
    for kind in sorted({near for kind in kinds for near in (kind - 1, kind, kind + 1)} & set(range(65536))):
        yield "kinds", "[%d]" % kind, [k for k in every if kinds[k] == kind]
    yield "kinds", "[3,4,5,6,7,8,9,10,11,12,13,14,15,16,17,1]", [0, 1]
    yield "kinds", "[0,0,1,1]", [0, 1, 3]
    times = [int(fields["created_at"]) for fields in EVENTS]
    for time in sorted({near for time in times for near in (time - 1, time, time + 1)}):
        if abs(time) <= MAX_TIME:
            yield "since", "%d" % time, [k for k in every if times[k] >= time]
            yield "until", "%d" % time, [k for k in every if times[k] <= time]
    for limit in (0, 1, 2, 3, 6, 7, 8, 9, 255, 256, 65535):
        yield "limit", "%d" % limit, NEWEST_FIRST[:limit]
    tags = [
        ("g", ["x"], [0, 3]), ("G", ["x"], [1]), ("q", ["x"], [2, 5]), ("Q", ["x"], []), ("g", ["xy"], [3]),
        ("g", ["z"], [3]), ("g", ["w"], []), ("g", [""], [6]), ("g", ["g"], []), ("t", [""], []), ("x", ["g"], [6]),
        ("g", ["y", "z", ""], [3, 5, 6]), ("g", ["xyz"], []), ("g", ["X"], []), ("g", ["x "], []), ("d", ["t\n1"], [4]),
        ("d", ["t\\n1"], []), ("d", ["tn1"], []), ("d", ["t"], []), ("d", [""], []), ("t", ["\\"], [4]), ("t", ["\\\\"], []),
        ("t", ["é\"/\U0001f600"], [4]), ("t", ["e\u0301\"/\U0001f600"], []), ("g", ["k"] * 15 + ["x"], [0, 3]),
        ("q", ["y", "x"], [1, 2, 5]), ("q", ["z"], []),
        ("e", [H], [0]), ("E", [H], [1]), ("p", [H], [1, 5]), ("P", [H], []), ("e", [B], [3]), ("e", [A], []), ("p", [A], []),
        ("e", [other(H, 63)], []), ("e", [other(H, 0)], []), ("e", [A] * 15 + [H], [0]), ("e", [B, H], [0, 3]),
        ("E", [H[1:]], []), ("E", ["x"], []), ("P", [""], []),
    ]
    for letter, values, slots in tags:
        yield "#" + letter, strings(*values), slots
        yield "#" + letter, strings(*values, string=lambda s: escaped(random.Random(len(s)), s)), slots


def conditions():
    """Every condition alone, as a REQ and as parts; the same asked of each event that is lent."""
    asked = Asked()
    yield from filled(8, EVENTS)
    asked.both(listing(NEWEST_FIRST), [Filter()])
    for name, value, slots in single():
        asked.both(listing(newest_first(slots)), [Filter({name: value})])
        if asked.full():
            yield from asked.flush()
    yield from asked.flush()
    lent = Lent()
    events = [lent.event(fields) for fields in EVENTS]
    for name, value, slots in single():
        at = lent.add(raw(req_of([Filter({name: value})])))
        for k, one in enumerate(events):
            if k in slots or len(slots) < 8 and (k + len(value)) % 4 == 0:
                want = b"matches" if k in slots or name == "limit" else b"differs"
                asked.lines.append((want, line(b"W", *one.place, at, len(lent.bytes) - at - 1)))
        if len(lent.bytes) > 60000:
            break
    yield lent.set()
    yield from asked.lines


def pairs():
    """Two conditions in one filter: both hold. The same two in two filters: the union."""
    rng = random.Random(2)
    asked = Asked()
    yield from filled(8, EVENTS, 0)
    chosen = {}
    for name, value, slots in single():
        chosen.setdefault(name, []).append((value, list(slots)))
    chosen = {name: rng.sample(values, min(len(values), 4)) for name, values in chosen.items()}
    for (name, values), (other_name, others) in combinations(chosen.items(), 2):
        for (value, slots), (other_value, other_slots) in product(values, others):
            if rng.randrange(3) and name != "limit" != other_name:
                continue
            one = Filter({name: value, other_name: other_value})
            both_hold = newest_first(set(slots) & set(other_slots))
            if "limit" in (name, other_name):
                limit, rest = (int(value), other_slots) if name == "limit" else (int(other_value), slots)
                both_hold = newest_first(rest)[:limit]
            two = filters_of({name: value}, {other_name: other_value})
            (asked.req if rng.randrange(2) else asked.parts)(listing(both_hold), [one])
            (asked.req if rng.randrange(2) else asked.parts)(listing(newest_first(set(slots) | set(other_slots))), two)
            if asked.full():
                yield from asked.flush()
    yield from asked.flush()


def letters():
    """Each of the 52 letters: one event has all small ones, one all capitals, and each filter names one."""
    value = lambda c: "%064x" % ord(c) if c in "epEP" else "v" + c
    small, capital = [[[c, value(c)] for c in group] for group in (LETTERS[26:], LETTERS[:26])]
    yield from filled(2, [made(A, 1, 1, small), made(A, 2, 1, capital)])
    asked = Asked()
    for c in LETTERS:
        asked.both(listing([0 if c.islower() else 1]), filters_of({"#" + c: strings(value(c))}))
        asked.req(listing([]), filters_of({"#" + c.swapcase(): strings(value(c))}))
        asked.both(b"7" if c in "ep" else listing([]), filters_of({"#" + c: strings("w" + c, "x")}))
    four = {"#a": strings("va"), "#z": strings("vz"), "#m": strings("vm")}
    asked.both(listing([0]), filters_of({**four, "#q": strings("vq")}))
    asked.both(listing([]), filters_of({**four, "#q": strings("va")}))
    asked.both(listing([]), filters_of({**four, "#Q": strings("vQ")}))
    asked.both(b"8", filters_of({**four, "#q": strings("vq"), "#r": strings("vr")}))
    yield from asked.flush()


def fitting_tags():
    """A fitting tag at the beginning, in the middle, at the end, with others of its name; a member at each place."""
    for letter, yes, others in (("g", "yes", ["k%d" % n for n in range(16)]), ("e", H, [other(H, n) for n in range(16)])):
        places = (0, 1, 2, 31, 62, 63)
        events = []
        for at in places:
            tags = [[letter, "no%d" % n] if n % 2 else [letter] for n in range(64)]
            tags[at] = [letter, yes, "no"]
            events.append(made(A, at, 1, tags))
        events.append(made(A, 99, 1, [[letter, "no"] * 8, [letter] + ["no"] * 15, ["f", yes], [letter.upper(), yes]]))
        yield from filled(8, events)
        asked = Asked()
        want = listing([5, 4, 3, 2, 1, 0])
        asked.both(want, filters_of({"#" + letter: strings(yes)}))
        for at in range(16):
            values = list(others)
            values[at] = yes
            asked.both(want, filters_of({"#" + letter: strings(*values)}))
        for at, value in ((6, "no"), (1, "no0"), (1, "no1"), (3, "no63")):
            want = b"7" if letter == "e" else None
            asked.both(want, filters_of({"#" + letter: strings(value)}))
            asked.both(want, filters_of({"#" + letter: strings(value), "since": str(at)}))
        # Names of tags, strings behind the second, one string.
        tricky = [[["", letter]], [[letter * 2, yes]], [["#" + letter, yes]], [[letter, "x", yes]], [["x", letter, yes]],
                  [[letter], [yes]], [[yes, letter]], [[letter, yes + " "]]]
        yield from asked.flush()
        yield from filled(8, [made(A, n, 1, tags) for n, tags in enumerate(tricky)])
        asked.both(listing([]), filters_of({"#" + letter: strings(yes)}))
        asked.both(b"7" if letter == "e" else listing([7]), filters_of({"#" + letter: strings(yes + " ")}))
        asked.both(listing([4]), filters_of({"#x": strings(letter)}))
        yield from asked.flush()


def spellings():
    """One string spelled in several ways, in the event and in the filter."""
    rng = random.Random(3)
    value = 'a"b\\c/\n\té€😀\x7f'
    ways = [plain, lambda s: escaped(rng, s), lambda s: spell(rng, s), lambda s: spell(rng, s)]
    near = [value[:-1], value + " ", value.replace("/", "\\/"), value.replace("\n", "\\n"), value.upper(), value[::-1]]
    lent = Lent()
    lines = []
    for string in ways:
        one = lent.event(made(A, 3, 1, [["t", value], ["t", "other"]]), string=string)
        for asked_string in ways:
            for text, want in [(value, b"matches")] + [(s, b"differs") for s in near]:
                # Names of conditions are spelled too.
                name = rng.choice(["#t", "\\u0023t", "#\\u0074"])
                filters = filters_of({name: strings("q", text, string=asked_string)})
                at = lent.add(raw(req_of(filters)))
                lines.append((want, line(b"W", *one.place, at, len(lent.bytes) - at - 1)))
                lines.append((want, line(b"E", *one.numbers, 1, *filters[0].lend(lent))))
        ids = filters_of({"ids": "[%s]" % escaped(rng, id_of(one.fields)), "authors": "[%s]" % spell(rng, A)})
        lines.append((b"matches", line(b"E", *one.numbers, 1, *ids[0].lend(lent))))
    yield lent.set()
    yield from lines
    yield from filled(1, [made(A, 3, 1, [["t", value], ["t", "other"]])])
    asked = Asked()
    for string in ways:
        asked.both(listing([0]), filters_of({"#t": strings(value, string=string)}))
        for text in near:
            asked.both(listing([]), filters_of({"#t": strings(text, string=string)}))
    yield from asked.flush()


def control_conditions():
    """02, Wish 3: each control character asked for, spelled with digits in either case, and raw where the filter is lent."""
    four = lambda k: BELOW[4 * k : 4 * k + 4]
    events = [made(A, k, 1, [tag for c in four(k) for tag in (["t", c], ["t", c + "x"])], BELOW) for k in range(7)]
    events.append(made(A, 7, 30000, [["t", c] for c in four(7)] + [["x", BELOW], ["d", "\x00\x01"]]))
    yield from filled(8, events)
    asked = Asked()
    for at, c in enumerate(BELOW):
        want = listing([at // 4])
        for s in u_escapes(c):
            asked.both(want, filters_of({"#t": '["no","%s"]' % s}))
            asked.both(b"5", filters_of({"#" + s: '["x"]'}))
            asked.req(b"7", filters_of({"#e": '["%s%s"]' % (A[1:], s)}))
            asked.parts(b"4", filters_of({"#t": '["%s\\ud800"]' % s}))
        asked.both(listing([]), filters_of({"#t": strings(c * 2, "\\u%04x" % at, "u%04x" % at)}))
        if c != "\n":
            asked.req(b"3", filters_of({"#t": '["%s"]' % c}))
            asked.parts(want if c in CONTROLS else b"5", filters_of({"#t": '["%s"]' % c}))
            asked.parts(b"7" if c in CONTROLS else b"5", filters_of({"ids": '["%s%s"]' % (A[1:], c)}))
            asked.parts(b"4" if c in CONTROLS else b"5", filters_of({"#t": '["%s","\\udc00"]' % c}))
            asked.parts(b"5", filters_of({"#t": '["x"]', "#" + c: '["x"]'}))
        if asked.full():
            yield from asked.flush()
    for string in (plain, in_capitals, verbatim):
        for value, slots in ((BELOW, [7]), (BELOW[:-1], []), (BELOW[1:], []), (BELOW + "\x00", []), ("\x00" + BELOW, [])):
            asked.parts(listing(slots), filters_of({"#x": strings("\x01", value, string=string)}))
            if string != verbatim:
                asked.req(listing(slots), filters_of({"#x": strings(value, "\x00", string=string)}))
        asked.parts(listing([7]), filters_of({"#d": strings("\x00\x01", string=string)}))
        asked.parts(listing([]), filters_of({"#d": strings("", "\x00", "\x01", "\x00\x01\x00", string=string)}))
        asked.parts(listing([7, 6, 5, 4]), filters_of({"#t": strings(*BELOW[16:], string=string)}))
    yield from asked.flush()
    # An event that is lent, and filters, each spelled in several ways.
    rng = random.Random(9)
    value = "\x00a" + CONTROLS + "\n\x7f"
    near = [value[:-1], value + "\x00", value.replace("\x00", ""), value.replace("\x1f", "\\u001f"), value[::-1]]
    ways = [plain, in_capitals, verbatim, lambda s: spell(rng, s, True)]
    lent, lines = Lent(), []
    for string in ways:
        one = lent.event(made(A, 3, 1, [["t", "\x00"], ["t", value]], value), string=string)
        for asked_string in ways:
            for text, want in [(value, b"matches")] + [(s, b"differs") for s in near]:
                filters = filters_of({"#t": strings("q", text, string=asked_string)})
                lines.append((want, line(b"E", *one.numbers, 1, *filters[0].lend(lent))))
            at = lent.add(raw(req_of(filters_of({"#t": strings(value, string=asked_string)}))))
            want = b"matches" if {string, asked_string} <= {plain, in_capitals} else None
            lines.append((want, line(b"W", *one.place, at, len(lent.bytes) - at - 1)))
    yield lent.set()
    yield from lines


def unions():
    """Filters that overlap, each cut to its own limit first; the order is over the whole union."""
    rng = random.Random(4)
    yield from filled(8, EVENTS)
    asked = Asked()
    pool = [(Filter({name: value}), list(slots)) for name, value, slots in single() if name != "limit" and len(value) < 80]
    for count in (2, 3, 4):
        for _ in range(110):
            chosen, union = [], set()
            for one, slots in rng.sample(pool, count):
                if rng.randrange(2):
                    limit = rng.choice([0, 1, 1, 2, 3, 8, 65535])
                    one, slots = Filter(one.fields, limit=str(limit)), newest_first(slots)[:limit]
                chosen.append(one)
                union |= set(slots)
            (asked.req if rng.randrange(2) else asked.parts)(listing(newest_first(union)), chosen)
            if asked.full():
                yield from asked.flush()
    for limits in product((0, 1, 2, 8), repeat=2):
        for chosen in permutations([Filter(limit=str(limits[0])), Filter(until="0", limit=str(limits[1]))]):
            union = set(NEWEST_FIRST[: limits[0]]) | set(newest_first([0, 3, 4, 6])[: limits[1]])
            asked.both(listing(newest_first(union)), chosen)
    asked.both(listing(NEWEST_FIRST), [Filter()] * 4)
    asked.both(b"8", [])
    asked.req(b"8", [Filter()] * 5)
    asked.parts(b"8", [Filter()] * 4, n=5)
    yield from asked.flush()


def equal_times():
    """Eight events of one time: the lower id first."""
    rng = random.Random(5)
    for time in (0, -7200, 1700000000):
        events = [made(rng.choice([A, B]), time, 1, [["n", str(n)]], hexes(rng, 4)) for n in range(8)]
        order = sorted(range(8), key=lambda k: id_of(events[k]))
        yield from filled(8, events)
        asked = Asked()
        for limit in range(10):
            asked.both(listing(order[:limit]), [Filter(limit=str(limit))])
        for _ in range(20):
            chosen = rng.sample(range(8), 3)
            asked.both(listing([k for k in order if k in chosen]), filters_of({"#n": strings(*map(str, chosen))}))
            asked.both(listing([k for k in order if k in chosen]), filters_of(*({"#n": strings(str(k))} for k in chosen)))
        yield from asked.flush()


def rows_of_numbers():
    """Rows of numbers too short by one, exactly long, longer."""
    yield from filled(8, EVENTS)
    asked = Asked()
    for count in range(9):
        for size in sorted({0, 1, 7, 8, 9, 64, 65, 80} | {n for n in (count - 1, count, count + 1) if n >= 0}):
            for fill in (NONE, 0, 3):
                want = b"13" if size < count else b"0 %d" % count
                (asked.req if (count + size) % 2 else asked.parts)(want, [Filter(limit=str(count))], size, fill)
    two = filters_of({"kinds": "[40000]"}, {"ids": strings(IDS[0])})
    for size in (0, 1, 2, 3):
        asked.both(listing([]), [Filter(kinds="[7]")], size)
        asked.both(b"13" if size < 2 else listing([7, 0]), two, size)
    yield from asked.flush()
    yield from filled(1, [])
    asked.both(b"0 0", [Filter()], 0)
    asked.both(b"0 0", [Filter(), Filter(limit="0")], 80)
    yield from asked.flush()


def large_table():
    """64 slots; the answer's length against the row's."""
    rng = random.Random(6)
    events = [made(rng.choice([A, B]), rng.choice([n, n % 5, -n]), 1, [["n", str(n % 7)]], str(n)) for n in range(64)]
    order = sorted(range(64), key=lambda k: (-int(events[k]["created_at"]), id_of(events[k])))
    yield from filled(64, events, 0)
    asked = Asked()
    for size in (0, 1, 62, 63, 64, 65, 80):
        asked.both(b"13" if size < 64 else listing(order), [Filter()], size)
    for limit in (0, 1, 2, 31, 32, 62, 63, 64, 65, 255, 256, 257, 65535):
        asked.both(listing(order[:limit]), [Filter(limit=str(limit))], 64)
        few = [k for k in order if k % 7 == 3]
        asked.both(listing(few[:limit]), filters_of({"#n": strings("3"), "limit": str(limit)}), 9 if limit >= 9 else limit)
    for _ in range(40):
        asked.req(None, [random_filter(rng, events) for _ in range(rng.randrange(1, 5))], rng.choice([64, 64, 8]))
        asked.parts(None, [random_filter(rng, events) for _ in range(rng.randrange(1, 5))], rng.choice([64, 64, 8]))
    yield from asked.flush()


# 02, Wish 6: messages of up to 16,384 bytes, tables of up to 1,024 slots.


def long_messages():
    """REQs and EVENTs on both sides of the most bytes of a message; as many members and filters as the bounds allow."""
    yield from filled(8, EVENTS)
    asked = Asked()
    everything = req_of([Filter()])
    for size in (8192, 8193, MESSAGE_BYTES - 1, MESSAGE_BYTES):
        asked.req(listing(NEWEST_FIRST), [], text=everything.ljust(size))
    yield from asked.flush()
    asked.req(b"1", [], text=everything.ljust(MESSAGE_BYTES + 1))
    asked.req(b"1", [], text=everything.rjust(MESSAGE_BYTES + 1))
    asked.req(listing(NEWEST_FIRST), [], text=everything.rjust(MESSAGE_BYTES))
    yield from asked.flush()
    # The last member of the last list of the last filter fits.
    lists = {"ids": strings(*[A] * 16), "authors": strings(*["c" * 64] * 16), "#p": strings(*[A] * 16), "#e": strings(*[A] * 16)}
    never = [{**lists, "kinds": "[%s]" % ",".join(["9"] * 16)} for _ in range(3)]
    kinds = "[%s]" % ",".join(["7"] * 15 + ["1"])
    lasts = [({"ids": strings(*[A] * 15, IDS[5])}, [5]), ({"#e": strings(*[A] * 15, H)}, [0]), ({"ids": strings(*[A] * 16)}, [])]
    for last, slots in lasts + [({"kinds": kinds}, newest_first([0, 1])), ({"limit": "1"}, NEWEST_FIRST[:1])]:
        filters = filters_of(*never, last)
        asked.both(listing(slots), filters)
        text = req_of(filters)
        asked.req(listing(slots), [], text=text[:-1].ljust(MESSAGE_BYTES - 1) + "]")
        yield from asked.flush()
    for count in (16, 17):
        asked.req(listing([]) if count == 16 else b"8", filters_of({"#g": strings(*["x" * 900] * count)}))
    long_escaped = lambda s: escaped(random.Random(12), s) if len(s) > 128 else plain(s)
    asked.both(listing([]), filters_of({"#g": "[%s]" % long_escaped("é€" * 1300)}))
    yield from asked.flush()
    # An EVENT and a REQ of which each is as long as a message may be, or a byte longer.
    value = "x" * 2600
    event = asked.message(offer(made(A, 3, 1, [["t", value]]), long_escaped).ljust(MESSAGE_BYTES + 1))[0]
    fits = asked.message(req_of(filters_of({"#t": strings(value)})).rjust(MESSAGE_BYTES))
    other_letter = asked.message(req_of(filters_of({"#T": "[%s]" % long_escaped(value)})).ljust(MESSAGE_BYTES + 1))[0]
    for size, row in ((MESSAGE_BYTES - 1, None), (MESSAGE_BYTES, None), (MESSAGE_BYTES + 1, b"1")):
        asked.lines.append((row or b"matches", line(b"W", event, size, *fits)))
        asked.lines.append((row or b"differs", line(b"W", event, MESSAGE_BYTES, other_letter, size)))
        asked.lines.append((row or b"differs", line(b"W", event, size, other_letter, MESSAGE_BYTES)))
    yield from asked.flush()


def large_event(n):
    """What slot n of a table of the most slots holds: tiles, most of them of one time; one of its own kind."""
    time = 5 if n % 8 else n - 512
    kind = 31000 if n == 700 else 30000 + n % 2
    return made((A, B)[n % 3 == 0], time, kind, [["d", "tile-%04d" % n], ["g", "%d" % (n % 100)], ["e", "%064x" % (n % 256)]])


def most_slots():
    """A table of the most slots: the answer's length against the row's, limits, and the order over all slots."""
    rng = random.Random(14)
    events = [large_event(n) for n in range(MOST)]
    ids = [id_of(fields) for fields in events]
    order = sorted(range(MOST), key=lambda k: (-int(events[k]["created_at"]), ids[k]))
    yield from filled(MOST, events, 9)
    asked = Asked()
    for size in (0, 64, 255, 256, MOST - 1):
        asked.both(b"13", [Filter()], size)
    for size in (MOST, MOST + 1, MOST + 16):
        asked.both(listing(order), [Filter()], size)
    for fill in (0, order[-1], order[0]):
        asked.req(b"0 %d" % MOST, [Filter()], MOST, fill)
    for limit in (0, 1, 63, 64, 65, 255, 256, 257, MOST - 2, MOST - 1, MOST, MOST + 1, 65535):
        count = min(limit, MOST)
        asked.parts(listing(order[:limit]), [Filter(limit=str(limit))], count)
        asked.req(listing(order[:limit]), [Filter(limit=str(limit))], MOST)
        if count:
            asked.both(b"13", [Filter(limit=str(limit))], count - 1)
    # One tile, in slots of one, two and more bytes.
    for n in (0, 1, 63, 64, 255, 256, 257, 511, 512, 700, MOST - 2, MOST - 1):
        asked.both(listing([n]), filters_of({"#d": strings("tile-%04d" % n)}), 1)
        asked.both(listing([n]), filters_of({"ids": strings(A, ids[n])}), 1)
        more = {"ids": strings(ids[n]), "#d": strings("x", "tile-%04d" % n), "kinds": "[%s]" % events[n]["kind"]}
        asked.req(listing([n]), filters_of(more), 8)
        asked.both(listing([]), filters_of({"#d": strings("tile-%04d" % n, "tile-%05d" % n), "until": "-1000"}), 0)
        asked.req(listing([]), filters_of({"ids": strings(other(ids[n], 63))}), 0)
    asked.both(listing([700]), filters_of({"kinds": "[31000]"}), 1)
    asked.both(listing([]), filters_of({"kinds": "[31001]"}), 1)
    asked.both(b"13", filters_of({"#d": strings("tile-0255", "tile-0256")}), 1)
    pair = [k for k in order if k in (255, 256)]
    asked.both(listing(pair), filters_of({"#d": strings("tile-0256", "tile-0255")}), 2)
    yield from asked.flush()
    # Equal times, by id; a hundredth, a half.
    fives = [k for k in order if events[k]["created_at"] == "5"]
    for limit in (1, 2, 255, 256, 257, len(fives) - 1, len(fives), MOST):
        asked.both(listing(fives[:limit]), filters_of({"since": "5", "until": "5", "limit": str(limit)}), MOST)
    for name, value, test in (("#g", strings("7"), lambda n: n % 100 == 7), ("kinds", "[30001]", lambda n: n % 2 and n != 700),
                              ("authors", strings(B), lambda n: n % 3 == 0), ("#e", strings("%064x" % 255), lambda n: n % 256 == 255)):
        found = [k for k in order if test(k)]
        asked.both(listing(found), filters_of({name: value}), len(found))
        asked.both(b"13", filters_of({name: value}), len(found) - 1)
        asked.both(listing(found[:9]), filters_of({name: value, "limit": "9"}), 9)
    yield from asked.flush()
    # Unions of filters, each cut to its own limit.
    for count in (2, 3, 4, 4, 4, 4) * 4:
        chosen, union = [], set()
        for _ in range(count):
            g, limit = str(rng.randrange(100)), rng.choice([0, 1, 5, 11, 100, 600, MOST - 1, MOST])
            time = rng.choice([-512, -8, 0, 5, 6, 400])
            fields, found = rng.choice([
                ({"#g": strings(g)}, [k for k in order if str(k % 100) == g]),
                ({"since": str(time)}, [k for k in order if int(events[k]["created_at"]) >= time]),
                ({"until": str(time)}, [k for k in order if int(events[k]["created_at"]) <= time]),
                ({"authors": strings(B)}, [k for k in order if k % 3 == 0]),
                ({}, order),
            ])
            chosen.append(Filter(fields, limit=str(limit)))
            union |= set(found[:limit])
        want = listing([k for k in order if k in union])
        (asked.req if rng.randrange(2) else asked.parts)(want, chosen, MOST)
        (asked.req if rng.randrange(2) else asked.parts)(b"13" if union else b"0 0", chosen, max(len(union) - 1, 0))
    asked.both(listing(order), [Filter(limit=str(MOST))] * 4, MOST)
    yield from asked.flush()
    asked.both(listing(order[:3]), [Filter(limit="3")], 3)
    asked.both(b"13", [Filter()], MOST - 1)
    lines = asked.lines
    yield asked.lent.set()
    last = HEADER + (MOST - 1) * SLOT
    spots = [(0, 1), (1, 4), (4, 1), (5, 1), (last + 96, 1), (last + 112, 255), (last + SLOT - 1, 1)]
    for at, bits in spots + [(HEADER + 256 * SLOT + 104, 64)]:
        yield b"unsound", line(b"X", at, bits)
        for _, one in lines:
            yield b"11", one
        yield b"sound", line(b"X", at, bits)
    yield from lines


def unsound_tables():
    """11 goes after the filters' rows and before 13."""
    held = [made(A, 3, 1), made(A, 4, 30000, [["d", "a"]])]
    yield from filled(3, held, 0)
    good, wrong = [Filter()], [Filter(limit="65536")]
    asked = Asked()
    asked.both(listing([1, 0]), good)
    asked.both(b"13", good, 1)
    asked.parts(b"6", wrong)
    asked.req(b"6", wrong)
    lines = asked.lines
    spots = [0, 4, 5, 8, 12, HEADER + 96, HEADER + 104, HEADER + 106, HEADER + 112, HEADER + 112 + 300, HEADER + SLOT - 1]
    spots += [HEADER + SLOT + 108, HEADER + 2 * SLOT, HEADER + 3 * SLOT - 1]
    yield asked.lent.set()
    yield from lines
    for at in spots:
        yield b"unsound", line(b"X", at, 64)
        for want, one in lines:
            yield (want if want == b"6" else b"11"), one
        yield b"sound", line(b"X", at, 64)
    yield lines[0]
    # Bytes that cannot be told: the signature, an id (the order of equal times goes by it), bytes behind the table.
    for at in (HEADER + 32, HEADER, HEADER + 3 * SLOT):
        yield from turned(b"sound", at, 255)
    yield b"sound", line(b"X", HEADER, 255)
    yield from lines
    for size in (0, 1, 15, 16, 100, size_of(1) - 1, size_of(1)):
        for byte in (0, 255):
            yield None, line(b"L", size, byte)
            for want, one in lines:
                yield (want if want == b"6" else b"11"), one


# Hostile parts.

FAR = (65535, 65536, 65537, 10**6, 2**32, 2**63 - 1, 2**63, 2**64 - 65536, 2**64 - 2, 2**64 - 1)
# (row, which part, the text that stands at its place)
BAD_LISTS = [
    (5, "ids", "x"), (5, "ids", ""), (5, "ids", "{}"), (5, "ids", '"%s"' % A), (5, "ids", "[1]"), (5, "ids", "["),
    (7, "ids", '["a"]'), (7, "ids", '[""]'), (7, "ids", strings(A.upper())), (7, "ids", strings(A[1:])),
    (7, "ids", strings(A + "a")), (8, "ids", "[]"), (8, "ids", strings(*[A] * 17)), (7, "ids", strings(*[A] * 16, "x")),
    (4, "ids", '["\\ud800"]'), (7, "ids", '["\\u0001"]'), (7, "ids", '["\x01"]'), (2, "ids", '["\udcff"]'),
    (5, "ids", '["\x0d"]'), (4, "ids", '["\x01\\ud800"]'), (5, "ids", "[\x01]"), (5, "conditions", '{"#g":["\x08"]}'),
    (2, "ids", '["\udced\udca0\udc80"]'), (5, "ids", '["%s' % A), (5, "ids", '["\\x"]'), (5, "ids", '["%s",]' % A),
    (5, "ids", '[["%s"]]' % A), (5, "ids", "null"),
    (7, "authors", '["a"]'), (8, "authors", "[]"), (8, "authors", strings(*[A] * 17)), (5, "authors", "[true]"),
    (2, "authors", '["\udcc0"]'),
    (6, "kinds", "[65536]"), (6, "kinds", "[-1]"), (6, "kinds", "[-0]"), (6, "kinds", "[1.0]"), (6, "kinds", "[1e3]"),
    (5, "kinds", "[01]"), (5, "kinds", '["1"]'), (8, "kinds", "[]"), (8, "kinds", "[" + "1," * 16 + "1]"),
    (6, "kinds", "[" + "1," * 16 + "-0]"), (6, "kinds", "[" + "9" * 400 + "]"), (5, "kinds", "[1"), (5, "kinds", "1"),
    (5, "conditions", "[]"), (5, "conditions", "{"), (5, "conditions", '{"a":1}'), (5, "conditions", '{"#ab":["x"]}'),
    (5, "conditions", '{"#":["x"]}'), (5, "conditions", '{"#1":["x"]}'), (5, "conditions", '{"#e":["x"],"#\\u0065":["y"]}'),
    (5, "conditions", '{"#e":"x"}'), (8, "conditions", '{"#e":[]}'), (8, "conditions", '{"#g":%s}' % strings(*["x"] * 17)),
    (7, "conditions", '{"#e":%s}' % strings(*["x"] * 17)), (8, "conditions", '{"#e":%s}' % strings(*[A] * 17)),
    (7, "conditions", '{"#e":%s}' % strings(*[A] * 16, "x")), (7, "conditions", '{"#\\u0070":%s}' % strings(A, A[1:])),
    (7, "conditions", '{"#e":["x"]}'), (7, "conditions", '{"#p":[""],"#E":["x"]}'), (7, "conditions", '{"#p":%s}' % strings(A.upper())),
    (8, "conditions", '{"#a":["x"],"#b":["x"],"#c":["x"],"#d":["x"],"#g":["x"]}'), (4, "conditions", '{"#e":["\\udc00"]}'),
    (2, "conditions", '{"#e":["\udc80"]}'), (6, "conditions", '{"limit":-0}'), (7, "conditions", '{"ids":["x"]}'),
    (8, "conditions", '{"kinds":[]}'), (5, "conditions", '{"since":1,"since":1}'), (5, "conditions", '{"\\u0000":1}'),
    (5, "conditions", '{"\x00":1}'), (4, "conditions", '{"\x00\\ud800":1}'), (4, "conditions", '{"#g":["\x1f\\udc00"]}'),
]
BAD_BOUNDS = [(6, name, value) for name in ("since", "until") for value in (MAX_TIME + 1, -MAX_TIME - 1, 2**63 - 1, -(2**63))]
BAD_BOUNDS += [(6, "limit", value) for value in (-1, 65536, 2**32, 2**63 - 1, -(2**63))]
PART = {name: k for k, name in enumerate(LISTS + BOUNDS + ("conditions",))}


def part_faults(lent):
    """(row, which number of a filter's parts, its value)."""
    for row, name, text in BAD_LISTS:
        yield row, PART[name], lent.add(raw(text))
    for row, name, value in BAD_BOUNDS:
        yield row, PART[name], value
    for name in LISTS + ("conditions",):
        for place in FAR:
            yield 5, PART[name], place


def hostile_filters():
    """One part wrong; several wrong at once; counts of filters from 0 to 2^64 - 1; only the first n are looked at."""
    rng = random.Random(7)
    yield from filled(8, EVENTS)
    lent = Lent()
    event = lent.event(EVENTS[0])
    good = Filter(authors=strings(A), kinds="[1,0]", since="0", until="5", limit="7", **{"#g": strings("x")}).lend(lent)
    nothing = [None] * 7
    lines = [(listing(newest_first([0, 3])), line(b"Q", NONE, 8, 1, *good))]
    faults = list(part_faults(lent))
    for row, at, value in faults:
        wrong = list(rng.choice([good, nothing]))
        wrong[at] = value
        k = rng.randrange(1, 5)
        before = [number for _ in range(k - 1) for number in good]
        lines.append((b"%d" % row, line(b"Q", NONE, 8, k, *before, *wrong)))
        if k > 1:
            lines.append((listing(newest_first([0, 3])), line(b"Q", NONE, 8, k - 1, *before, *wrong)))
        lines.append((b"%d" % row, line(b"E", *event.numbers, k, *before, *wrong)))
    for _ in range(150):
        chosen = rng.sample(faults, 2)
        two = [list(good), list(good)]
        for (_, at, value), wrong in zip(chosen, two):
            wrong[at] = value
        lines.append((b"%d" % min(row for row, _, _ in chosen), line(b"Q", NONE, 8, 2, *two[0], *two[1])))
    for n in (0, 5, 6, 7, 8, 9, 255, 256, 65535, 2**32, 2**63, 2**64 - 1):
        for numbers in (good, nothing, good * 4, nothing * 4):
            lines.append((b"8", line(b"Q", NONE, 8, n, *numbers)))
            lines.append((b"8", line(b"E", *event.numbers, n, *numbers)))
        wrong = [None, None, None, MAX_TIME + 1, None, None, None]
        lines.append((b"6" if n else b"8", line(b"Q", NONE, 8, n, *good * 3, *wrong)))
    for n in (1, 2, 3, 4):
        lines.append((listing(NEWEST_FIRST), line(b"Q", NONE, 8, n, *nothing)))
        lines.append((b"matches", line(b"E", *event.numbers, n, *nothing)))
    # Of the object that has the conditions only those count; lists and numbers are the lent ones.
    at = lent.add(raw('{"#g":["x"],"limit":0,"since":5,"kinds":[7],"ids":%s}' % strings(A)))
    kinds = lent.add(b"[ 1 ,\t2]")
    lines.append((listing(newest_first([0, 3])), line(b"Q", NONE, 8, 1, *nothing[:6], at)))
    lines.append((listing([0]), line(b"Q", NONE, 8, 1, None, None, kinds, None, None, None, at)))
    lines.append((listing(newest_first([0, 1, 2])), line(b"Q", NONE, 8, 1, None, None, kinds)))
    lines.append((b"matches", line(b"E", *event.numbers, 1, None, None, kinds, None, None, 0, at)))
    yield lent.set()
    yield from lines


# (row, which of an event's eleven numbers, its value)
BAD_EVENTS = [
    (7, 1, 63), (7, 1, 0), (7, 3, 63), (7, 10, 127), (5, 0, 65536), (5, 9, 2**64 - 1), (5, 8, 65537), (5, 8, 2**64 - 1),
    (5, 1, 2**64 - 1), (6, 4, MAX_TIME + 1), (6, 4, -MAX_TIME - 1), (6, 4, -(2**63)), (6, 5, 65536), (6, 5, -1),
    (6, 5, 2**63 - 1), (5, 6, 65535), (5, 6, 2**64 - 1), (5, 2, 2**63), (5, 7, 2**64 - 1),
]


def hostile_events():
    """Rows 2 and 4 to 8 of the event and of the filters, the lowest of all; then 9; an id need not be the digest."""
    lent = Lent()
    one = lent.event(EVENTS[3])
    made_up = lent.event(EVENTS[3], id=A)
    largest, large = [lent.event(made(content="x" * size)) for size in (4016, 4017)]
    everything, wrong = [None] * 7, [None, None, None, None, None, -1, None]
    all_of_a = Filter(ids=strings(A)).lend(lent)
    texts = ['"\\ud800"', '"\udcff"', "[[]]", "[[1]]", '[["\\u0000"]]', '[["e","\\ud800"]]', '[["e","\udcff"]]',
             "[" + '["e"],' * 64 + '["e"]]', "[[" + '"e",' * 16 + '"e"]]', "[", "{}", '[["e"]', "[]"]
    places = [lent.add(raw(text)) for text in texts]
    yield lent.set()
    for row, at, value in BAD_EVENTS:
        numbers = list(one.numbers)
        numbers[at] = value
        yield b"%d" % row, line(b"E", *numbers, 1, *everything)
        yield b"%d" % min(row, 6), line(b"E", *numbers, 1, *wrong)
        yield b"%d" % min(row, 8), line(b"E", *numbers, 0)
    for row, place in zip((4, 2, 8, 5, 0, 4, 2, 8, 8, 5, 5, 5, 0), places):
        numbers = list(one.numbers)
        numbers[6] = place
        yield (b"%d" % row if row else b"matches"), line(b"E", *numbers, 1, *everything)
        yield None, line(b"E", *numbers, 1, *wrong)
    yield b"matches", line(b"E", *largest.numbers, 1, *everything)
    yield b"9", line(b"E", *large.numbers, 1, *everything)
    yield b"6", line(b"E", *large.numbers, 1, *wrong)
    yield b"8", line(b"E", *large.numbers, 5, *everything)
    yield b"matches", line(b"E", *made_up.numbers, 1, *all_of_a)
    yield b"differs", line(b"E", *one.numbers, 1, *all_of_a)
    # Messages that are something else, or refused.
    lent = Lent()
    texts = [b"", b"{}", b'["CLOSE","s"]', b'["REQ","s"]', b'["REQ","s",{}]', b'["REQ","s",{"limit":-0}]', b'["EVENT",{}]',
             b"\xff", b'["REQ","",{}]', b'["REQ","s",{},{},{},{},{"since":1.0}]', b'["REQ","s",{"#e":["\\ud800"]}]',
             b'["REQ","s",{"#e":[]}]', b'["REQ","s",{"#e":["x"]}]', b'["REQ","",{"#p":["x"]}]', b'["REQ","s",{},{},{},{},{"#e":["x"]}]']
    one = lent.event(EVENTS[3])
    large = lent.event(made(content="x" * 4017))
    ephemeral = lent.event(made(A, 1, 20000, [["g", "x"], ["e", H]]))
    spots = [(lent.add(text), len(text)) for text in texts]
    asked = [(want, req_of(filters_of(one))) for want, one in (
        (b"matches", {"kinds": "[20000]"}), (b"differs", {"kinds": "[20001]"}), (b"matches", {"#g": strings("x"), "limit": "0"}),
        (b"matches", {"#e": strings(H)}), (b"7", {"#e": strings("x")}))]
    asked = [(want, lent.add(raw(text)), len(raw(text))) for want, text in asked]
    yield lent.set()
    for want, *spot in asked:
        yield want, line(b"W", *ephemeral.place, *spot)
    for spot in spots + [one.place]:
        yield None, line(b"R", NONE, 8, *spot)
        yield None, line(b"W", *one.place, *spot)
        yield None, line(b"W", *spot, *one.place)
        yield None, line(b"W", *spot, *spots[4])
        yield None, line(b"W", *large.place, *spot)


def offsets():
    """02, Wish 9: rows 6 and 7 of a message that is asked, matched or offered say where."""
    yield from filled(2, EVENTS[:1])
    asked = Asked()
    for row, text in cases_offset.short("REQ")[::5]:
        event = asked.lent.event(EVENTS[0])
        spot = asked.message(text)
        asked.lines.append((said(row, text), line(b"R", NONE, 8, *spot)))
        asked.lines.append((said(row, text), line(b"W", *event.place, *spot)))
        asked.lines.append((said(min(row, 5), text) + b" 1", line(b"M", *spot)))
        if asked.full():
            yield from asked.flush()
    for row, text in cases_offset.short("EVENT")[::6]:
        spot, good, wrong = [asked.message(one) for one in (text, req("{}"), req('{"limit":-0,"ids":["x"]}'))]
        asked.lines.append((said(row, text), line(b"W", *spot, *good)))
        asked.lines.append((said(row, text), line(b"W", *spot, *wrong)))
        asked.lines.append((said(row, text), line(b"R", NONE, 8, *spot)))
        asked.lines.append((said(row, text) + b" 1", line(b"M", *spot)))
        if asked.full():
            yield from asked.flush()
    yield from asked.flush()


# Generated tables and filters: few values of everything, so that filters match.

FEW_TAGS = ["x", "y", "", "xy", "é", "\n", '"']
CONTROL_TAGS = ["\x00", "\x01", "", "\x00\x00", "\x1f", "\x0b\x7f", "\\u0001", "x"]
FEW_HEX = [A, B, H, H]


def random_tags(rng, few):
    out = []
    for _ in range(rng.choice([0, 1, 1, 2, 3, 5])):
        name = rng.choice("ggGeptd")
        values = FEW_HEX + ["x"] if name in "ep" else few
        out.append([name] + [rng.choice(values) for _ in range(rng.choice([0, 1, 1, 1, 2]))])
    return out


def random_event(rng, few):
    kind = rng.choice([0, 1, 1, 1, 2, 10000, 30000, 40000, 65535])
    return made(rng.choice([A, A, B]), rng.choice([0, 1, 2, 2, -1, -7200, MAX_TIME]), kind, random_tags(rng, few), words(rng, 3))


def random_list(rng, values, string):
    return "[" + ",".join(string(rng.choice(values)) for _ in range(rng.choice([1, 1, 1, 2, 3]))) + "]"


def random_filter(rng, events, string=plain, few=FEW_TAGS):
    names = rng.sample(LISTS + BOUNDS + ("#g", "#g", "#G", "#e", "#p", "#t", "#d"), rng.choice([0, 1, 1, 1, 2, 2, 3, 4]))
    fields = {}
    for name in names:
        if name == "ids":
            fields[name] = random_list(rng, [id_of(e) for e in rng.sample(events, min(4, len(events)))] + [A], string)
        elif name == "authors":
            fields[name] = random_list(rng, [A, A, B, "c" * 64], string)
        elif name == "kinds":
            fields[name] = random_list(rng, [0, 1, 1, 2, 10000, 30000, 65535, 3], str)
        elif name == "limit":
            fields[name] = str(rng.choice([0, 1, 1, 2, 3, 8, 65535]))
        elif name in BOUNDS:
            fields[name] = str(rng.choice([0, 1, 2, 3, -1, -7200, MAX_TIME, -MAX_TIME]))
        elif name in ("#e", "#p") and rng.randrange(10):
            fields[name] = random_list(rng, FEW_HEX, string)
        else:
            fields[name] = random_list(rng, few, string)
    return Filter(fields)


def generated():
    rng = random.Random(8)
    yield from tables(rng, 90, FEW_TAGS, [plain, plain, lambda s: spell(rng, s)])
    rng = random.Random(10)
    yield from tables(rng, 8, CONTROL_TAGS, [plain, verbatim, lambda s: spell(rng, s, True)])


def tables(rng, count, few, ways):
    """Of the ways to spell a string, events have the first and the last."""
    for _ in range(count):
        events = [random_event(rng, few) for _ in range(rng.choice([2, 5, 8, 8, 10]))]
        capacity = rng.choice([1, 3, 8, 8])
        yield from fresh(capacity, rng.choice([0, 40]))
        asked = Asked()
        offers = [asked.lent.event(fields, string=rng.choice(ways[::2])) for fields in events]
        asked.lines += [(None, one.message()) for one in offers]
        for _ in range(45):
            string = rng.choice(ways)
            filters = [random_filter(rng, events, string, few) for _ in range(rng.choice([1, 1, 1, 2, 3, 4]))]
            size, fill = rng.choice([8, 8, 8, 64, 2, 1]), rng.choice([NONE, NONE, 0, 1])
            way = rng.randrange(5)
            if way < 2:
                asked.req(None, filters, size, fill)
            elif way < 4:
                asked.parts(None, filters, size, fill)
            else:
                one = rng.choice(offers)
                if rng.randrange(2):
                    asked.lines.append((None, line(b"W", *one.place, *asked.message(req_of(filters)))))
                else:
                    numbers = [number for f in filters for number in f.lend(asked.lent)]
                    asked.lines.append((None, line(b"E", *one.numbers, len(filters), *numbers)))
        yield from asked.flush()


def labelled():
    parts = (conditions, pairs, letters, fitting_tags, spellings, unions, equal_times, rows_of_numbers, large_table)
    parts += (unsound_tables, hostile_filters, hostile_events, control_conditions, generated, long_messages, most_slots)
    for part in parts + (offsets,):
        yield from part()
    yield from old.labelled("query")


def lines():
    return [one for _, one in labelled()]
