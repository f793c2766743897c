"""What the example keep.c must print and write, worked out anew.
Assumes that the program masks prints the right masks and refusals."""

import struct

from cut_reading import masks_of
from masks_lines import tally
from runs import RECORD, header

OUTPUT = 3


def records_of(program, data):
    """The width and the mask of each record."""
    _, *lines = masks_of(program, data)
    return [(int(width), int(mask, 16))
            for _, width, mask in map(str.split, lines)]


def with_outputs(data, added):
    """The file with an output more for each record that has bits added, which
    lets only these through: all that they call for is then cared for. An
    output cannot be read, and has all its bits anyway."""
    outputs = [struct.pack(RECORD, OUTPUT, data[9 + 24 * number], number, 0, 0,
                           0, bits) for number, bits in added.items()
               if data[8 + 24 * number] != OUTPUT]
    count = (len(data) - 8) // 24 + len(outputs)
    return header(count) + data[8:] + b"".join(outputs)


def cut_to(data, masks):
    """The file with its keep words cut to these masks."""
    trimmed = bytearray(data)
    for number, mask in enumerate(masks):
        place = 24 + 24 * number
        keep, = struct.unpack_from("<Q", data, place)
        struct.pack_into("<Q", trimmed, place, keep & mask)
    return bytes(trimmed)


def words_of(added):
    """The bits as arguments."""
    return [f"{number}:{bits:x}" for number, bits in added.items()]


class Reading:
    """Of an accepted file, and bits to add within the widths of records."""

    def __init__(self, program, data, added):
        least = records_of(program, data)
        needed = records_of(program, with_outputs(data, added)) if added \
            else least
        kept = [(width, mask | added.get(number, 0))
                for number, (width, mask) in enumerate(least)]
        # What else must be added, by record.
        self.missing = {
            number: need & ~mask
            for number, ((_, mask), (_, need)) in enumerate(zip(kept, needed))
            if need & ~mask}
        self.shown = self.lines(least, added)
        self.status = 1 if self.missing else 0
        self.trimmed = None if self.missing \
            else cut_to(data, [mask for _, mask in kept])
        widths, ones = tally(kept)
        # What is printed of a refused list is judged by itself.
        self.text = f"{self.shown}{ones} of {widths} bits are in the list\n"

    @staticmethod
    def lines(least, added):
        widths, ones = tally(least)
        text = [f"{ones} of {widths} bits are cared for\n"]
        for number, (width, mask) in enumerate(least):
            more = added.get(number, 0) & ~mask
            text.append(f"record {number} width {width} mask {mask:016x}"
                        + (f" added {more:016x}\n" if more else "\n"))
        return "".join(text)
