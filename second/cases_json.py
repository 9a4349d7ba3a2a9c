"""Lines for json_cases: every production of RFC 8259 and RFC 3629 with its near misses, then random texts."""

import itertools
import random

from rows import MESSAGE_BYTES
from spell import BELOW, SAMPLE, WIDE, damaged, joined, raw, space, spell, u_escape, u_escapes, words

BYTES = [bytes([b]) for b in range(256) if b != 10]

LITERALS = (
    "true false null True TRUE tru truee nul nulll fals falsee t f n undefined NaN Infinity -Infinity nan "
    "true\x00 true\xa0 tr\\u0075e 'true' yes None"
).split(" ")

NUMBERS = (
    "0 -0 1 -1 9 10 19 123 00 01 -00 -01 007 +0 +1 - -- -a --1 1- 1+1 0x1 0X1F 1_0 1,0 0b1 "
    "0.0 0.5 -0.5 1.0 1.50 00.5 . .5 -.5 1. 0. -1. 1.e1 1.. 1..2 1.2.3 1.a 1.-2 "
    "0e0 0E0 1e1 1E1 1e+1 1e-1 1E+01 1e00 1e 1E 1e+ 1e- 1e1.0 1e1e1 e1 -e1 .e1 1.5e10 1.5E-10 1e0x1 1ee1 1e++1 "
    "１ ٣ ½ 1e１ 9007199254740993 18446744073709551616 1e400 -1e-400 0.1e2 1f 1L 1d0"
).split(" ")

# "_" stands for a space.
STRUCTURES = (
    '[] {} [1] [1,2] [1,2,3] [[]] [{}] [[],[]] [,] [1,] [,1] [1,,2] [1_2] [1;2] [1:2] [_] [ ] [[ ]] []] [[] [} ][ [1]] '
    '[1} { } {_} }{ {"a":1} {"a":1,"b":2} {"a":1,"a":2} {"":0} {"a":{}} {"a":[]} {,} {"a":1,} {,"a":1} {"a":1,,"b":2} '
    '{"a"} {"a":} {:1} {a:1} {1:1} {null:1} {[]:1} {"a"=1} {"a",1} {"a"::1} {"a":1:2} {"a":1_"b":2} {"a":1;"b":2} '
    '{"a"_"b"} {"a":"b" {"a":1] {{}} {[]} {"a":1}} {\'a\':1} [1]// [1]/**/ /**/1 #1 [1]x x[1] [1][2] 1,2 1; '
    '"a" "" """ "a""b" "a "a\' \'a\' a `a` "a"b "a":1 [...] [*] [true,false,null] [tru] [nullnull] [1true] ["a"1] '
    '[1"a"] [1_2] true_false 1_2 "a"_"b" []_[] [1,_] {"a":1,_} [_1_,_2_] {_"a"_:_1_} -_1 1_.5 1e_5 tr_ue'
)
STRUCTURES = [text.replace("_", " ") for text in STRUCTURES.split(" ")]

STRINGS = [
    '"' + inner + '"'
    for inner in (
        ["\\" + c for c in "\"\\/bfnrtuxaev0'NRTU1. "]
        + ["\\u" + h for h in "0 00 004 0041 00e9 00E9 00412 fFfF g041 0g41 00g4 004g +041 -041 0x41 ００４１ {41}".split()]
        + ["\x7f", "\u2028\u2029", "\ufeff", "\ufffe\uffff", "e\u0301", "\U000e0041"]
        + ["\\u 041", "\\u004 ", "\\ud83d \\ude00"]
        + (
            r"/ ' [[[[[[[[[ }}}}}}}}}{{{{{{{{{ \u0\41 \uFEFF \ufffe \uffff \U0041 \u\u0041 \\u0041 \\\u0041 \ \\ "
            r"\\\ a\ \\\\ \\u \ud83d\ude00 \uD83D\uDE00 \ud83d\\ude00 \ud83d\nude00 \ud83d\u00e9 \ud83d\ude0 "
            r"\ud83dude00 \udbff\udfff \ud800\udc00 \u0000\ud800 \ud800\q \u0001\q \u000a\u0008\u0009\u000c\u000d "
            r"\u000A\u000D\u000C"
        ).split()
    )
] + ['"', '"\\"', '"\\u004', '"\\u0041', '"\\ud800', '"\x00', '"a\\', '\\"a"', '\\u0022a"', "\\", '"\\u0022a']

# Row 4, and control characters that are no fault, in names, in nested values, beside other faults.
ROW_4 = [
    text.replace("BAD", bad)
    for bad in ["\\ud800", "\\udc00", "\\u0000", "\\u001f", "\\u000b", "\\n"]
    for text in (
        '"BAD" "aBAD" "BADa" ["BAD"] [1,["BAD"]] {"BAD":1} {"a":"BAD"} {"a":1,"BAD":2} {"BAD":1,"BAD":2} '
        '[{"a":{"BAD":[]}}] [[[[[[[["BAD"]]]]]]]] [[[[[[[[["BAD"]]]]]]]]] [[[[[[[{"BAD":0}]]]]]]] '
        '[[[[[[[[{"BAD":0}]]]]]]]] ["BAD"} ["BAD",] "BAD"x ["BAD",01] ["BAD" {"BAD"}'
    ).split(" ")
]

SURROGATES = ["\\ud800", "\\uDBFF", "\\udc00", "\\uDFFF", "\\ud7ff", "\\ue000", "\\n", "\\\\", "a", "😀"]


def depths():
    """8 and 9 open brackets and braces, and strings and siblings that do not count."""
    opens = {"a": ("[", "]"), "o": ('{"n":', "}")}
    for deep in (7, 8, 9, 10):
        for inner in ("", "1", '"]"', '"[[[[[[[[["', "[]", "{}", "[],[]"):
            yield "[" * deep + inner + "]" * deep
        for inner in ("1", '"}"', '{"a":1}', "{}", "[]"):
            yield '{"a":' * deep + inner + "}" * deep
            yield '{"]":' * deep + inner + "}" * deep
        yield "[" * (deep - 1) + "{}" + "]" * (deep - 1)
        yield " [" * deep + " ]" * deep
        yield "[" * deep
        yield "]" * deep
        yield "[[]," + "[" * (deep - 1) + "]" * (deep - 1) + ",[]]"
    for order in itertools.product("ao", repeat=4):
        for last in ("", "[]", "{}"):
            heads = [opens[c] for c in order + order]
            yield "".join(h[0] for h in heads) + (last or "0") + "".join(h[1] for h in reversed(heads))
    yield "[" + ",".join(["[[[[[[[]]]]]]]"] * 40) + "]"
    yield "[" + ",".join(["[[[[[[[]]]]]]]"] * 40 + ["[[[[[[[[]]]]]]]]"]) + "]"
    yield "[" + "[]," * 300 + "[]]"
    yield "[" * 4000 + "]" * 4000
    yield "[" * MESSAGE_BYTES
    yield "[" * (MESSAGE_BYTES // 2) + "]" * (MESSAGE_BYTES // 2)
    for deep in (1000, 2700):
        yield '{"a":' * deep + "1" + "}" * deep
    # Many siblings, the last of them too deep.
    for deep in (7, 8):
        yield "[" + "[]," * 5400 + "[" * deep + "]" * deep + "]"
        yield "[" + '{"a":[]},' * 1800 + '{"a":' * deep + "1" + "}" * deep + "]"


def utf8_runs():
    """Lead bytes with tail bytes on both sides of every border of RFC 3629, section 4; cut-off characters."""
    tails = [0x7F, 0x80, 0x8F, 0x90, 0x9F, 0xA0, 0xBF, 0xC0]
    for lead in [0xC0, 0xC1, 0xC2, 0xDF]:
        yield from (bytes([lead, t]) for t in tails)
    for lead in [0xE0, 0xE1, 0xEC, 0xED, 0xEE, 0xEF]:
        yield from (bytes([lead, s, t]) for s in tails for t in (0x7F, 0x80, 0xBF, 0xC0))
        yield from (bytes([lead, s]) for s in tails)
    for lead in [0xF0, 0xF1, 0xF3, 0xF4, 0xF5, 0xF8, 0xFC]:
        yield from (bytes([lead, s, 0x80, 0xBF]) for s in tails)
        yield from (bytes([lead, s, t]) for s in (0x8F, 0x90) for t in (0x80, 0xBF, 0x22))
    for lead in (0xF0, 0xF1, 0xF4):
        second = 0x90 if lead == 0xF0 else 0x80
        yield from (bytes([lead, second, s, t]) for s in (0x7F, 0x80, 0xBF, 0xC0) for t in (0x7F, 0x80, 0xBF, 0xC0))
    for code in (0x7F, 0x80, 0x7FF, 0x800, 0xD7FF, 0xE000, 0xFDD0, 0xFFFD, 0xFFFE, 0xFFFF, 0x10000, 0x1FFFE, 0x10FFFF):
        yield chr(code).encode()
    yield b"\xf4\x90\x80\x80"
    yield b"\xed\xa0\xbd\xed\xb8\x80"
    yield b"\xf8\x88\x80\x80\x80"
    yield b"\xfc\x84\x80\x80\x80\x80"


def long_lines():
    """Both sides of the most bytes that a message has, and row 1 beside rows 2 to 4; 8,193 bytes, which once were too many."""
    for size in (8193, MESSAGE_BYTES - 1, MESSAGE_BYTES, MESSAGE_BYTES + 1):
        yield b'"' + b"x" * (size - 2) + b'"'
        yield b"1" * size
        yield b"[]" + b" " * (size - 2)
        yield b"\xff" * size
        yield b"[" * size
        yield b'"\\ud800' + b"x" * (size - 8) + b'"'
        yield b'"' + b"x" * (size - 8) + b'\\udc00"'
        yield b'"' + b"x" * (size - 5) + "€".encode() + b'"'
        yield b'"' + b"x" * (size - 2) + "€".encode()[:1]
        yield b"\xc3" * size
        yield b"0." + b"0" * (size - 2)
        yield b" " * (size - 1) + b"1"
        yield b" " * (size - 1) + b"\x80"
    # The last byte decides: all that stands before it is read.
    for last in (b"", b"]", b",", b"\xff", b"\x00", b" "):
        yield b"[" + b"0," * (MESSAGE_BYTES // 2 - 1) + b"0" + last
    yield b'"' + b"\\u0041" * ((MESSAGE_BYTES - 2) // 6) + b'"'
    yield b'"' + b"\\ud83d\\ude00" * ((MESSAGE_BYTES - 2) // 12) + b'"'
    yield b'"' + b"\\ud83d\\ude00" * ((MESSAGE_BYTES - 2) // 12 - 1) + b'\\ud83d"'
    yield b"-" + b"9" * 16000 + b"." + b"9" * 100 + b"e+" + b"9" * 100
    yield b"1e" + b"0" * 16000
    yield b"-" + b"0" * 16000
    yield b"x" * 20000
    for size in (65535, 65536, 65537):
        yield b"[]" + b" " * (size - 2)


# Where a control character may stand in a text and in a message.
CONTROL_FORMS = (
    '"%s" "a%s" "%sa" ["%s"] {"%s":1} {"a":"%s"} {"a":1,"%s":2} [[[[[[[["%s"]]]]]]]] ["CLOSE","%s"] ["CLOSE%s","s"] '
    '["REQ","s%s",{}] ["REQ","s",{"#t":["%s"]}] ["REQ","s",{"#t%s":["s"]}] ["REQ","s",{"ids":["%s"]}] '
    '"\\ud800%s" "%s\\udc00" {"%s\\ud800":1} ["CLOSE","%s\\udfff"] "\\ud83d%s\\ude00"'
).split(" ")
RAW_FORMS = (
    '"a%s" "%sa" {"%s":1} {"a":"%s"} ["CLOSE","%s"] ["REQ","s",{"#t":["%s"]}] "\\ud800%s" "%s\\udc00" '
    '"%s "a%s "%s\\" ["%s "\\u%s001"'
).split(" ")


def controls():
    """Every character below U+0020, spelled with digits in either case, and raw: row 3 wherever it stands in a string."""
    for c in BELOW:
        for spelled in u_escapes(c):
            yield from (raw(form.replace("%s", spelled)) for form in CONTROL_FORMS)
            yield raw('"%s"' % (spelled * 40))
        if c != "\n":
            yield from (raw(form.replace("%s", c)) for form in RAW_FORMS)
    yield raw('"%s"' % "".join("\\u%04x" % ord(c) for c in BELOW))
    # At each place of a long string, which may be read in blocks.
    for c in "\x00\x08\x0b\x1f\x7f":
        for at in (0, 1, 7, 8, 15, 16, 30, 31, 32, 33, 62, 63, 64, 65, 95, 96, 97, 98, 99):
            yield raw('"%s%s%s"' % ("x" * at, c, "x" * (99 - at)))
        for size in (30, 31, 32, 33, 64):
            for end in ("", '"]', '\\"'):
                yield raw('["' + "x" * size + c + end)
                yield raw('["' + "x" * size + end + c)
        yield raw('["CLOSE","s"]' + c)
        yield raw('["CLOSE","s' + c)
    # A message of nothing else, on both sides of the most bytes.
    most, rest = divmod(MESSAGE_BYTES - 2, 6)
    for extra in (0, 1):
        yield raw('"%s%s"' % ("\\u0001" * most, "x" * (rest + extra)))
        yield b'"' + bytes(MESSAGE_BYTES - 2 + extra) + b'"'


def random_value(rng, depth, sample):
    way = rng.randrange(10 if depth < 7 + rng.randrange(3) else 5)
    if way < 2:
        return spell(rng, words(rng, 6, sample))
    if way == 2:
        return rng.choice(["0", "-0", "1", "-12", "3.25", "1e5", "2E-7", "-0.0e+0", str(rng.randrange(10**9))])
    if way == 3:
        return rng.choice(["true", "false", "null"])
    if way == 4:
        return rng.choice(['"s"'] * 9 + ['"%s"' % u_escape(rng, rng.choice("\x00\x0b\x1f\x7f\ud800\udc00"))])
    values = [random_value(rng, depth + 1, sample) for _ in range(rng.choice([0, 1, 1, 1, 2, 3]))]
    if way % 2:
        return joined(rng, values, "[]")
    name = lambda: spell(rng, words(rng, 3, sample))
    return joined(rng, [name() + space(rng) + ":" + space(rng) + value for value in values], "{}")


def random_lines(rng, count, sample):
    for _ in range(count):
        value = random_value(rng, rng.randrange(3), sample)
        for _ in range(rng.choice([0, 0, 1, 4, 7, 8])):
            value = rng.choice([joined(rng, [value], "[]"), joined(rng, ['"n":' + value], "{}")])
        line = raw(space(rng) + value + space(rng))
        if len(line) < 600:
            yield line
            yield damaged(rng, line)
            yield damaged(rng, line)


def lines():
    rng = random.Random(1)
    out = [b"", b" ", b"\t", b"\r", b" \t\r ", b"[]\r", b"\r[]", b"[\r\t ]"]
    out += [b"\xef\xbb\xbf", b"\xef\xbb\xbf[]", b"[]\xef\xbb\xbf", b"\xef\xbb[]"]  # byte order marks
    out += [raw(text) for text in LITERALS + NUMBERS + STRUCTURES + STRINGS + ROW_4]
    out += [raw(form % number) for number in NUMBERS for form in ("[%s]", '{"a":%s}', " %s ", "[0,%s ]")]
    out += [raw(form % literal) for literal in LITERALS[:12] for form in ("[%s]", '{"a":%s}', " %s ")]
    out += [raw('{%s:1}' % s) for s in STRINGS] + [raw("[%s]" % s) for s in STRINGS]
    forms = rb'%s "%s" "\%s" %s[] []%s [%s] [1%s] [1%s2] ["a"%s] {"a"%s1} 1%s -%s true%s'
    for form in (forms + rb' "\u00%s1" "\u%s041" "\u0%s41" "\u004%s"').split(b" "):
        out += [form % byte for byte in BYTES]
    out += [raw('"\\u%04x"' % code) for code in list(range(0x30)) + [0x7E, 0x7F, 0x80, 0x9F, 0xA0]]
    out += [raw('"\\u%04X"' % code) for code in range(0x20)]
    for count in (1, 2, 3):
        out += [raw('"%s"' % "".join(run)) for run in itertools.product(SURROGATES, repeat=count)]
    for form in (b'"%s"', b"%s", b'"a%s', b'["%sx"]', b'{"%s":1}', b'"%s\\ud800"'):
        out += [form % run for run in utf8_runs()]
    out += [raw(text) for text in depths()]
    out += list(long_lines())
    out += list(random_lines(rng, 1600, SAMPLE))
    out += list(controls()) + list(random_lines(random.Random(2), 120, WIDE))
    return out + [b'"the last line has no 0A"']
