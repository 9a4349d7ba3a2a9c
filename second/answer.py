"""answer.py NAME < stdin > stdout: what the case program NAME prints for these bytes."""

import re
import sys

import query
import relay
import table
from parts import LINE_BYTES, parts_answer
from rows import Refused, canonical, offered, read_json, read_message, read_text, refusal_of, row_of, text_of
from sha256 import sha256

LINE = re.compile(rb"(-|([0-9a-f]{2})+)( [0-9]+(,[0-9]+)*)?")
LENGTH = re.compile(rb"0|[1-9][0-9]{0,3}")
DIGEST_BYTES = 8192  # the buffer of digest_cases


def digest_answer(line):
    """A message in hex, then the lengths of pieces: the digest of the whole (01, "The text that is hashed")."""
    if len(line) >= LINE_BYTES or not LINE.fullmatch(line):
        return b"bad line"
    spelled, _, pieces = line.partition(b" ")
    message = b"" if spelled == b"-" else bytes.fromhex(spelled.decode())
    lengths = pieces.split(b",") if pieces else []
    if not all(LENGTH.fullmatch(n) for n in lengths):
        return b"bad line"
    if len(message) > DIGEST_BYTES or sum(int(n) for n in lengths) > len(message):
        return b"bad line"
    return sha256(message).encode()


def json_answer(line):
    """The lowest of rows 1 to 4, or 0, and of rows 1 to 8 with the offset."""
    return ("%d %s" % (row_of(line, read_json), refusal_of(line, read_message))).encode()


def message_answer(line):
    """The lowest of rows 1 to 8 with the offset, or 0 and the canonical spelling."""
    try:
        return b"0 " + canonical(read_message(line))
    except Refused as refused:
        return str(refused.refusal).encode()


def event_answer(line):
    """A message offered (rows 1 to 10), or after `T ` a text read back alone (9, 5, 0)."""
    if line.startswith(b"T "):
        row, event = read_text(line[2:])
        return b"%d" % row if row else b"0 " + text_of(event)
    refusal, text = offered(line)
    said = str(refusal).encode()
    return said if text is None else b"%s %s %s" % (said, sha256(text).encode(), text)


ANSWERS = {
    "digest_cases": digest_answer,
    "json_cases": json_answer,
    "message_cases": message_answer,
    "event_cases": event_answer,
    "parts_cases": parts_answer,
    "table_cases": table.Program().answer,  # what a line answers goes by the lines before it
    "query_cases": query.Program().answer,
}

# Programs whose lines have no answer of their own: all that they write.
OUTPUTS = {"relay": relay.output, "relay_cases": relay.runs}


def lines(data):
    """0A ends a line; a last line without it counts if it is not empty."""
    out = data.split(b"\n")
    return out if out[-1] else out[:-1]


def stdout(name, data):
    if name in OUTPUTS:
        return OUTPUTS[name](data)
    return b"".join(ANSWERS[name](line) + b"\n" for line in lines(data))


if __name__ == "__main__":
    sys.stdout.buffer.write(stdout(sys.argv[1], sys.stdin.buffer.read()))
