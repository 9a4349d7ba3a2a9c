"""relay.py < input > output: 01's program over a fresh table of 8 slots, one message a line, each reply ended with 0A.

The digest is hashlib's here, for long inputs; selftest.py compares sha256.py with it.
"""

import hashlib
import io
import sys

from query import answer
from rows import (
    EVENT,
    IN_REPLIES,
    MESSAGE_BYTES,
    STRING,
    SUB,
    TEXT_BYTES,
    Refused,
    good_hex,
    read_json,
    refuse_if,
    shape,
    spelled,
    spelled_record,
    test_message,
    within,
)
from table import event_of, verdict

CAPACITY = 8

# 01, "Numbers the relay answers with". Rows 11, 13 and 14 cannot hold here.
REFUSED = {
    1: "invalid: message too long",
    2: "invalid: not UTF-8",
    3: "invalid: not JSON",
    4: "invalid: string not allowed",
    5: "invalid: wrong shape",
    6: "invalid: number",
    7: "invalid: hex",
    8: "invalid: count or length",
    9: "invalid: event too large",
    10: "invalid: id does not match",
    12: "error: no room",
}
# 01, "Verdicts of an offer".
ACCEPTED = {
    "0 ephemeral": "",
    "0 stored": "",
    "0 duplicate": "duplicate: already have this event",
    "0 older": "duplicate: have a newer version",
}


def reply(word, *parts):
    return ("[" + ",".join(['"' + word + '"', *parts]) + "]\n").encode()


def string(s):
    return spelled(s, STRING, IN_REPLIES)


def reason(refusal):
    """02, Wish 9: "The reply text gains ` at ` and the decimal offset"."""
    where = "" if refusal.offset is None else " at %d" % refusal.offset
    return string(REFUSED[refusal.row] + where)


def notice(refusal):
    return reply("NOTICE", reason(refusal))


def refused_reply(message, refusal):
    """Rows 6 to 12: OK with false, CLOSED or NOTICE, by what the message names."""
    if message[0] == "EVENT" and good_hex(message[1]["id"], 64):
        return reply("OK", string(message[1]["id"]), "false", reason(refusal))
    if message[0] == "REQ" and within(len(message[1]), SUB):
        return reply("CLOSED", string(message[1]), reason(refusal))
    return notice(refusal)


def valid_event(fields):
    """Rows 9 and 10: the event of a message that rows 1 to 8 let pass."""
    event = event_of(bytes.fromhex(fields["id"]), bytes.fromhex(fields["sig"]), fields)
    refuse_if(len(event.text) > TEXT_BYTES, 9)
    refuse_if(hashlib.sha256(event.text).digest() != event.id, 10)
    return event


class Relay:
    """The held events and what replies say of them, both in the order of the slots."""

    def __init__(self):
        self.events, self.spelled = [], []

    def offer(self, event):
        """The verdict in words."""
        words, slot = verdict(self.events, CAPACITY, event)
        refuse_if(words == "12 refused", 12)
        if slot is not None:
            self.events[slot : slot + 1] = [event]
            self.spelled[slot : slot + 1] = [spelled_record(event.fields, EVENT, IN_REPLIES)]
        return words

    def accepted(self, message, line):
        """The replies to a message that has its shape, read from that line, unless a row refuses it."""
        test_message(message, line)
        if message[0] == "EVENT":
            words = self.offer(valid_event(message[1]))
            return reply("OK", string(message[1]["id"]), "true", string(ACCEPTED[words]))
        if message[0] == "CLOSE":
            return b""
        sub = string(message[1])
        events = [reply("EVENT", sub, self.spelled[slot]) for slot in answer(message[2], self.events)]
        return b"".join(events) + reply("EOSE", sub)

    def replies(self, line):
        try:
            message = shape(read_json(line))
        except Refused as refused:
            return notice(refused.refusal)
        try:
            return self.accepted(message, line)
        except Refused as refused:
            return refused_reply(message, refused.refusal)


def messages(stream):
    """The lines without their 0A, a last one without it too; of an overlong one a beginning that is too long."""
    while line := stream.readline(MESSAGE_BYTES + 2):
        rest = line
        while rest and not rest.endswith(b"\n"):
            rest = stream.readline(65536)
        yield line.removesuffix(b"\n")


def output(data):
    """What the program writes, of its whole input."""
    relay = Relay()
    return b"".join(map(relay.replies, messages(io.BytesIO(data))))


def fed(line):
    """The bytes that a line of relay_cases feeds: L bytes and 0A, P bytes, R a byte so many times."""
    if line[:1] == b"L":
        return line[1:] + b"\n"
    return line[1:] if line[:1] == b"P" else line[1:2] * int(line[2:])


def runs(data):
    """What relay_cases prints: the output of each run, from N to E, then a line E. How the input is cut makes no difference."""
    out, given = [], []
    for line in data.split(b"\n"):
        if line == b"E":
            out.append(output(b"".join(given)) + b"E\n")
        elif line[:1] == b"N":
            given = []
        elif line:
            given.append(fed(line))
    return b"".join(out)


def main():
    relay = Relay()
    for line in messages(sys.stdin.buffer):
        sys.stdout.buffer.write(relay.replies(line))
        if sys.stdin.isatty():
            sys.stdout.buffer.flush()


if __name__ == "__main__":
    main()
