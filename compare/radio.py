#!/usr/bin/env python3
"""A second reading of the radio record, request 7 of document 02; the rows are those of rows.py.

    python3 compare/radio.py answers < records   writes what each record, a line of hexadecimal digits, is answered when it is read: the refusal
                                                 number, or 0 and the canonical rows, parted by semicolons

The model finds a number by its shape, counts the minutes with the calendar of Python, and types each row as text: it is valid if rows.py reads it.
"""
import datetime
import re
import sys

from rows import DESCRIPTIONS, answer

NUMBER = re.compile(rb"[\x00-\x7f]|[\x80-\xff]{1,2}[\x01-\x7f]")
# Nothing more is known of it, since the groups that would tell are missing.
BEGUN = re.compile(rb"[\x80-\xff]{0,2}")
NEW_YEAR = datetime.datetime(2024, 1, 1)
COUNTS = range(1, 9)
KINDS = ["NR"] + [kind for kind in DESCRIPTIONS if kind != "NR"]
# What each number of a row may be, and the word for it.
TIME = (range(366 * 24 * 60), lambda n: (NEW_YEAR + datetime.timedelta(minutes=n)).strftime("%m%d%H%M"))
RUNWAY = (range(4, 76), lambda n: "%02d%s" % (n // 4, ["", "L", "C", "R"][n % 4]))
CODE = (range(7), str)
COVERAGE = (range(5), lambda n: "%d" % (25 * n) if n else "NR")
DEPTH = ([0, *range(3, 1000)], lambda n: "%02d" % n if n else "NR")
KIND = (range(16), lambda n: KINDS[n])
WIDTH = (range(100), lambda n: " %02d" % n if n else "")
ROW = [TIME, RUNWAY] + [CODE] * 3 + [COVERAGE] * 3 + [DEPTH] * 3 + [KIND] * 3 + [WIDTH]


class Refused(Exception):
    """The refusal number."""


class Record:
    def __init__(self, record):
        self.record = record
        self.at = 0

    def number(self, allowed):
        shape = NUMBER.match(self.record, self.at)
        if not shape:
            raise Refused(30 if BEGUN.fullmatch(self.record, self.at) else 31)
        self.at = shape.end()
        number = sum((group & 0x7F) << 7 * place for place, group in enumerate(shape[0]))
        if number not in allowed:
            raise Refused(32)
        return number

    def row(self):
        time, runway, *thirds, width = [word(self.number(allowed)) for allowed, word in ROW]
        groups = ["/".join(thirds[place : place + 3]) for place in range(0, 12, 3)]
        return " ".join([time, runway] + groups) + width


def read(record):
    """The canonical rows of a record."""
    record = Record(record)
    rows = {}
    for _ in range(record.number(COUNTS)):
        told = answer(record.row()).split(" ", 2)
        if told[0] != "0" or told[2].split(" ")[1] in rows:
            raise Refused(32)
        rows[told[2].split(" ")[1]] = told[2]
    if record.at < len(record.record):
        raise Refused(32)
    return rows.values()


def told(record):
    try:
        return "0 " + ";".join(read(record))
    except Refused as refused:
        return str(refused)


def main(words):
    if words != ["answers"]:
        sys.exit(__doc__)
    for line in sys.stdin:
        print(told(bytes.fromhex(line)))


if __name__ == "__main__":
    main(sys.argv[1:])
