"""What the example cut.c must print and write for a file, worked out anew.
Assumes that the program masks prints the right masks and refusals."""

import struct
import subprocess
from typing import NamedTuple, Optional

KINDS = ("input", "constant", "register", "output", "extract", "concat", "and",
         "or", "xor", "mux", "add", "sub", "mul", "equal", "below",
         "left-shift", "right-shift", "arithmetic-right-shift",
         "signed-below")

REASONS = {
    1: "the file is shorter than its header",
    2: "the file does not begin as a netlist file does",
    3: "the version is not 1",
    4: "the header announces more than 2,048 records",
    5: "the length does not fit the count of records",
    6: "there is no such kind",
    7: "the width is not between 1 and 64",
    8: "an operand names a record that it may not read",
    9: "the widths do not fit as the kind demands",
    10: "an unused field or bit is not 0",
    14: "the mask lacks a bit or has one beyond the width",
    15: "a multiplier is wider than 32 bits",
}


class Answer(NamedTuple):
    text: str
    status: int
    trimmed: Optional[bytes]


def masks_of(program, data):
    """The lines that the program masks prints."""
    done = subprocess.run([program], input=data, capture_output=True,
                          check=True)
    return done.stdout.decode().splitlines()


class Reading:
    """Remembers which refusals, and which kinds with bits cut, it has met."""

    def __init__(self, program):
        self.program = program
        self.met = set()

    def of(self, data):
        first, *lines = masks_of(self.program, data)
        if first.startswith("refused"):
            number = int(first.split()[1])
            self.met.add(number)
            return Answer(f"{first}: {REASONS[number]}\n", 1, None)
        return self.accepted(data, first, lines)

    def accepted(self, data, first, lines):
        _, widths, ones = first.split()
        text = [f"{ones} of {widths} bits are cared for"]
        trimmed = bytearray(data)
        bits = 0
        for line in lines:
            number, _, mask = line.split()
            place = 8 + 24 * int(number)
            kind, width = data[place:place + 2]
            keep, = struct.unpack_from("<Q", data, place + 16)
            new = keep & int(mask, 16)
            struct.pack_into("<Q", trimmed, place + 16, new)
            if new != keep:
                cut = bin(keep).count("1") - bin(new).count("1")
                bits += cut
                self.met.add(KINDS[kind])
                text.append(f"record {number} {KINDS[kind]} width {width} "
                            f"keep {keep:016x} becomes {new:016x} cut {cut}")
        text.append(f"bits cut: {bits}, records cut: {len(text) - 1}")
        return Answer("\n".join([*text, ""]), 0, bytes(trimmed))
