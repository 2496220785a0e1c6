"""Tells the zone that each label gives with its START_TIME.

    python3 zones.py LABEL...

For each file it prints `no zone`, `Z` or a signed zone such as `+07:00`; or `no
time`, where there is no START_TIME outside all blocks, or one that is not a single
value with a time. Files that are refused are listed with their reason, and make the
program end with status 1.

`no zone` is a camera whose clock's zone was never set. Ask it of the camera's
own label: the canonical one has a zone with every time.
"""

import datetime
import sys

import odl
import sessions


def start_time(label: bytes):
    """The value of the first START_TIME outside all blocks; None if there is none."""
    values = (
        statement.value
        for statement in odl.read(label)
        if isinstance(statement, odl.Attribute) and statement.name == "START_TIME"
    )
    return next(values, None)


def zone(label: bytes) -> str:
    """The zone's text, or "no time"."""
    value = start_time(label)
    if isinstance(value, odl.Moment):
        return str(value.zone)
    # A bare date is neither of these.
    has_time = isinstance(value, (datetime.time, datetime.datetime))
    return str(value.tzinfo) if has_time else "no time"


def main(files) -> int:
    answers, refused = sessions.ask(files, zone)
    for file, answer in answers:
        print(f"{file}: {answer}")
    return sessions.end(refused)


if __name__ == "__main__":
    sys.exit(main(sys.argv[1:]))
