"""Counts labels by the weekday of their START_TIME, as written.

    python3 weekdays.py LABEL...

Undated labels (no START_TIME outside all blocks, or one that is not a single
value with a date) are counted apart. Files that are refused are listed with their
reason, counted nowhere, and make the program end with status 1: also a right
one once 1,000,000 are counted, for then the book is full.
"""

import sys

import odl
import sessions


def main(files) -> int:
    book = odl.Book()
    _, refused = sessions.ask(files, book.take)
    for name, count in book.counts.items():
        print(f"{name:<10}{count:>8}")
    return sessions.end(refused)


if __name__ == "__main__":
    sys.exit(main(sys.argv[1:]))
