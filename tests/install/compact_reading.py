"""What the example compact.c must print and write, worked out anew.
Assumes that the program masks prints the right masks and refusals."""

import struct

import cut_reading
from cut_reading import KINDS, Answer
from runs import RECORD, header

INPUT, CONSTANT, OUTPUT = 0, 1, 3
CYCLES = 10
NONE = "input", "constant"
ONE = ("register", "output", "extract", "left-shift", "right-shift",
       "arithmetic-right-shift")


def operands_of(kind):
    """How many operands the kind names."""
    return 0 if KINDS[kind] in NONE else 1 if KINDS[kind] in ONE \
        else 3 if KINDS[kind] == "mux" else 2


class Record:
    """A record of a file, with its mask."""

    def __init__(self, fields, mask):
        self.kind, self.width, *operands, self.k, self.keep = fields
        self.named = operands[:operands_of(self.kind)]
        self.mask = mask
        self.stays = self.kind in (INPUT, OUTPUT)
        self.emptied = not self.stays and mask == 0

    def packed(self, new):
        """With new numbers, which are known for all that is named."""
        if self.emptied:
            return struct.pack(RECORD, CONSTANT, self.width, 0, 0, 0, 0, 0)
        named = [new[number] for number in self.named] + [0, 0, 0]
        return struct.pack(RECORD, self.kind, self.width, *named[:3], self.k,
                           self.keep & self.mask)


def survivors_of(records):
    """Their numbers, in order."""
    found = {number for number, record in enumerate(records) if record.stays}
    while True:
        more = found.union(*(records[number].named for number in found
                             if not records[number].emptied))
        if more == found:
            return sorted(found)
        found = more


def kept_bits(data):
    return sum(bin(fields[-1]).count("1")
               for fields in struct.iter_unpack(RECORD, data[8:]))


class Reading(cut_reading.Reading):
    """Remembers which refusals it has met, and which kinds were dropped or
    became constants. The file to be written stands as `trimmed`."""

    def accepted(self, data, first, lines):
        records = [Record(fields, int(line.split()[2], 16)) for fields, line
                   in zip(struct.iter_unpack(RECORD, data[8:]), lines)]
        survivors = survivors_of(records)
        new = {old: number for number, old in enumerate(survivors)}
        made = header(len(new)) + b"".join(records[old].packed(new)
                                           for old in survivors)
        for number, record in enumerate(records):
            if number not in new:
                self.met.add(f"{KINDS[record.kind]} dropped")
            elif record.emptied:
                self.met.add(f"{KINDS[record.kind]} emptied")
        text = (f"records: {len(records)} before, {len(new)} after\n"
                f"bytes: {len(data)} before, {len(made)} after\n"
                f"kept bits: {kept_bits(data)} before,"
                f" {kept_bits(made)} after\n"
                f"outputs: {sum(record.kind == OUTPUT for record in records)},"
                f" equal in {CYCLES} cycles after a change over\n")
        return Answer(text, 0, made)
