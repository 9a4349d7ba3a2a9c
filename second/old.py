"""Tables from the time before 02's Wish 6: lines of table_cases and query_cases with the answers that were printed then."""

import pathlib


def labelled(name):
    """(answer, line): the whole answers, as old_table.txt and old_query.txt have them."""
    data = pathlib.Path(__file__).with_name("old_%s.txt" % name).read_bytes()
    stored = [line for line in data.split(b"\n")[:-1] if not line.startswith(b"#")]
    return list(zip(stored[1::2], stored[::2]))
