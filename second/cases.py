"""cases.py NAME > stdin: the stored input of the case program NAME, the same bytes at every run."""

import sys

import cases_digest
import cases_event
import cases_json
import cases_message
import cases_offset
import cases_parts
import cases_query
import cases_relay
import cases_table

# The lines, and what stands after the last one: three files end without 0A.
CASES = {
    "digest_cases": (cases_digest.lines, b"\n"),
    "json_cases": (lambda: cases_offset.lines()[::6] + cases_json.lines(), b""),
    "message_cases": (lambda: cases_offset.lines() + cases_message.lines(), b""),
    "event_cases": (cases_event.lines, b"\n"),
    "parts_cases": (cases_parts.lines, b"\n"),
    "table_cases": (cases_table.lines, b"\n"),
    "query_cases": (cases_query.lines, b"\n"),
    "relay": (cases_relay.relay_lines, b""),
    "relay_cases": (cases_relay.lines, b"\n"),
}


def stdin(name):
    lines, end = CASES[name]
    return b"\n".join(lines()) + end


if __name__ == "__main__":
    sys.stdout.buffer.write(stdin(sys.argv[1]))
