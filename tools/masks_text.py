"""Reads the text that the program masks prints, and checks all of it.
Assumes nothing of the text: whatever masks never prints is named damage."""

import re
from typing import NamedTuple

MOST_RECORDS = 2048
MOST_WIDTH = 64
MOST_BYTES = 60_000             # more than masks ever prints

NUMBER = "(0|[1-9][0-9]{0,5})"
FIRST = re.compile(f"{NUMBER} {NUMBER} {NUMBER}")
RECORD = re.compile(f"{NUMBER} {NUMBER} ([0-9a-f]{{16}})")
REFUSED = re.compile(f"refused {NUMBER} record {NUMBER}\n")


class Refused(Exception):
    """masks refused its file."""


class Damaged(Exception):
    """The text is none that masks prints."""


class Record(NamedTuple):
    number: int
    width: int
    mask: int

    def cared(self):
        return bin(self.mask).count("1")


def tally(records):
    """The sum of all widths, and the count of ones over all masks."""
    return (sum(record.width for record in records),
            sum(record.cared() for record in records))


def read_refusal(text):
    refused = REFUSED.fullmatch(text)
    if not refused:
        return
    number, record = map(int, refused.groups())
    # 1 to 5 concern the whole file and give record 0. 11 to 14 concern
    # lists, of which masks has none.
    most = MOST_RECORDS if number > 5 else 1
    if number not in (*range(1, 11), 15) or record >= most:
        raise Damaged("it never gives this refusal")
    raise Refused(f"refusal {number}, record {record}")


def read_record(number, line):
    where = f"line {number + 2}"
    fields = RECORD.fullmatch(line)
    if not fields:
        raise Damaged(f"{where} is not a number, a width and a mask")
    record = Record(int(fields[1]), int(fields[2]), int(fields[3], 16))
    if record.number != number:
        raise Damaged(f"{where} is not that of record {number}")
    if not 1 <= record.width <= MOST_WIDTH:
        raise Damaged(f"{where}: the width is not 1 to {MOST_WIDTH}")
    if record.mask >> record.width:
        raise Damaged(f"{where}: the mask has a bit at the width or above")
    return record


def read_text(data):
    """The records that the bytes list, once all of them have been checked."""
    # This code takes any byte; the patterns take none that is not ASCII.
    text = data.decode("latin-1")
    read_refusal(text)
    if not text.endswith("\n"):
        raise Damaged("the last line has no end" if text else "it is empty")
    first, *lines = text[:-1].split("\n")
    numbers = FIRST.fullmatch(first)
    if not numbers:
        raise Damaged("line 1 is not a count and two tally numbers")
    count, *tallied = map(int, numbers.groups())
    if count > MOST_RECORDS:
        raise Damaged(f"line 1 counts more than {MOST_RECORDS:,} records")
    if len(lines) != count:
        raise Damaged(f"{len(lines)} lines follow line 1, not {count}")
    records = [read_record(number, line) for number, line in enumerate(lines)]
    if tally(records) != tuple(tallied):
        raise Damaged("the tally in line 1 is not that of the records")
    return records
