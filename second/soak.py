"""soak.py PROGRAM [LINES] [SEED]: generated lines, a thousand to each fresh run, through PROGRAM and through relay.py.

Prints the first input on which they differ and exits 1. A million lines take some ten minutes.
"""

import random
import subprocess
import sys

from cases_message import random_lines
from cases_offset import random_texts
from cases_relay import CONTROL_TAGS, FEW_TAGS, LONGEST, random_fields, random_text
from relay import output
from rows import MESSAGE_BYTES
from spell import CONTROLS, WIDE, raw

RUN = 1000


def one_run(rng, strays):
    """Lines about few events or many, so that tables fill slowly or at once; some lines too long, at times a last one without 0A.
    Every eighth line or so breaks row 6 or 7, at one place or more.

    Control characters stand in all strings, at times in one event or in eight about as many as a message holds.
    """
    events = [random_fields(rng, FEW_TAGS + CONTROL_TAGS, WIDE) for _ in range(rng.choice([4, 8, 12, 40]))]
    for fields in events[: rng.choice([0] * 12 + [1, 2, 8])]:
        fields["content"] = rng.choice(CONTROLS) * (LONGEST + 10 - rng.randrange(rng.choice([100, LONGEST])))
    pool = [random_text(rng, events, strays, WIDE).replace(b"\n", b" ") for _ in range(400)]
    pool += [raw(text) for text in random_texts(rng, 60)]
    lines = [rng.choice(pool) for _ in range(RUN)]
    lines[rng.randrange(RUN)] = b" " * rng.choice([8193, MESSAGE_BYTES - 1, MESSAGE_BYTES, MESSAGE_BYTES + 1, 40000])
    return b"\n".join(lines) + rng.choice([b"\n", b""])


def main(program, count=1000000, seed=1):
    rng = random.Random(seed)
    strays = [line for line in random_lines(rng, 460, WIDE) if b"\n" not in line]
    written = 0
    for turn in range(count // RUN):
        given = one_run(rng, strays)
        got = subprocess.run([program], input=given, stdout=subprocess.PIPE, check=True).stdout
        want = output(given)
        written += len(want)
        if got != want:
            sys.stdout.buffer.write(given)
            sys.exit("run %d of seed %d differs" % (turn, seed))
    print("%d lines, %d bytes of replies, no difference" % (count // RUN * RUN, written))


if __name__ == "__main__":
    main(sys.argv[1], *map(int, sys.argv[2:]))
