"""Runs a benchmark program for its times, and under callgrind for counts.
Assumes the lines that rows.h describes; without valgrind, no counts."""

import os
import shutil
import subprocess
from typing import NamedTuple


class Row:
    """An operation on designs of one sort and size."""

    def __init__(self, name, records, designs, library, plain):
        self.name = name
        self.records = records
        self.designs = designs
        # Microseconds and instructions for a call, library and plain C.
        self.times = library, plain
        self.counts = None

    def ratio(self):
        return self.times[0] / self.times[1]

    def nanoseconds(self, side):
        """For one record."""
        return self.times[side] * 1000 / self.records

    def instructions(self, side):
        """For one record, and None where they were not counted."""
        return self.counts and self.counts[side] / self.records


class Rounds(NamedTuple):
    """How many rounds a row has in one program; times in microseconds."""

    most: int
    # The least that one takes.
    length: int
    # So many there are however long they take, and no others after this time.
    least: int
    time: int


# Callgrind counts a repeating string instruction once for each byte, and the
# C library copies and clears long blocks with them. So it does without.
WITHOUT_STRINGS = {"GLIBC_TUNABLES": "glibc.cpu.hwcaps=-ERMS"}


def fields_of(command, **more):
    """Runs a command and gives the fields of each line that it prints."""
    ran = subprocess.run(command, stdout=subprocess.PIPE, text=True,
                         env={**os.environ, **more})
    if ran.returncode != 0:
        raise SystemExit(f"{command[0]} ended with {ran.returncode}")
    return [line.split("\t") for line in ran.stdout.splitlines()]


def time_rows(program):
    """Gives the rows, and how many rounds they have."""
    (_, *rounds), *lines = fields_of([program])
    rows = [Row(name, int(records), int(designs), float(library), float(plain))
            for name, records, designs, library, plain in lines]
    return rows, Rounds(*map(int, rounds))


def best_rows(programs):
    """The same of all programs together: the best time of each side in any
    of them, and the rounds, for which all have the same rule."""
    (rows, rounds), *others = [time_rows(program) for program in programs]
    for more, _ in others:
        for row, again in zip(rows, more):
            row.times = tuple(map(min, row.times, again.times))
    return rows, rounds


def calls_counted(path):
    """The instructions of each call that was counted, in order."""
    calls = []
    wanted = False
    with open(path, encoding="utf-8") as dumps:
        for line in dumps:
            if line.startswith("desc: Trigger:"):
                wanted = "--dump-after=counted" in line
            elif line.startswith("totals:") and wanted:
                calls.append(int(line.split()[1]))
    return calls


def count_rows(program, rows):
    """Puts counts into the rows. Each dump is of one call, library and plain
    C in turn; a number of them that does not fit the rows is an error."""
    path = program + ".callgrind"
    if os.path.exists(path):
        os.remove(path)
    lines = fields_of([
        "valgrind", "--tool=callgrind", "--quiet", "--collect-atstart=no",
        "--toggle-collect=counted", "--dump-after=counted",
        "--combine-dumps=yes", "--callgrind-out-file=" + path,
        program, "--once"], **WITHOUT_STRINGS)[1:]
    calls = calls_counted(path)
    if lines != [[row.name, str(row.records), str(row.designs)]
                 for row in rows]:
        raise SystemExit(f"{program}: other rows under valgrind")
    if len(calls) != sum(2 * row.designs for row in rows) or 0 in calls:
        raise SystemExit(f"{path}: not one count for each call")
    for row in rows:
        mine, calls = calls[:2 * row.designs], calls[2 * row.designs:]
        row.counts = (sum(mine[0::2]) / row.designs,
                      sum(mine[1::2]) / row.designs)


def can_count():
    return shutil.which("valgrind") is not None
