"""How the program masks is run and judged, and files to feed it with.
Assumes that BUILD holds the model's program and the maker of files."""

import contextlib
import os
import random
import signal
import struct
import subprocess
import time

from counting import Counting
from masks_lines import lines_of

MOST_RECORDS = 2048
RECORD = "<BBHHHQQ"


class Tests(Counting):
    """Tests of one program, beside the model's and the examples."""

    def __init__(self, program, build, examples):
        super().__init__()
        self.command = [program]
        self.build = build
        self.examples = examples

    def expect(self, what, right, **source):
        """The program must print `right` and nothing else, with status 0."""
        self.judge(what, self.run(**{"command": self.command, **source}),
                   right)

    def model(self, data):
        """What the model's program prints for these bytes."""
        return subprocess.run([self.build / "model_masks"], input=data,
                              capture_output=True, check=True).stdout.decode()

    def example(self, name):
        return ((self.examples / f"{name}.pcn").read_bytes(),
                (self.examples / f"{name}.txt").read_text())

    def piped(self, what, pieces, right, pause=0.0, stopping=False):
        """A refusal must come while the pipe is still open, all else only
        when it is closed. With `stopping`, each piece comes while the process
        stands still. No answer is too long for the pipe it comes through."""
        out, into = os.pipe()
        early = right.startswith("refused")

        def feed(process):
            os.close(out)
            with contextlib.suppress(BrokenPipeError):
                for piece in pieces:
                    if stopping:
                        process.send_signal(signal.SIGSTOP)
                    os.write(into, piece)
                    if stopping:
                        process.send_signal(signal.SIGCONT)
                    time.sleep(pause)
            if not early:
                if process.poll() is not None:
                    self.fault(f"{what}: answered before the end of the input")
                os.close(into)

        self.expect(what, right, during=feed, stdin=out)
        if early:
            os.close(into)


def cut(data, size):
    return [data[place:place + size] for place in range(0, len(data), size)]


def refused(number, record=0):
    return f"refused {number} record {record}\n"


def header(count):
    return b"PCN\x01\x00\x00" + count.to_bytes(2, "little")


def wires(count):
    """A file of wires of one bit: an input, its output, and so on. All masks
    are 1 where the count is even."""
    return header(count) + b"".join(
        struct.pack(RECORD, *((3, 1, i - 1) if i % 2 else (0, 1, 0)),
                    0, 0, 0, 1) for i in range(count))


# The longest file, and what is printed for it.
FULL = wires(MOST_RECORDS)
FULL_TEXT = lines_of([(1, 1)] * MOST_RECORDS)


def emptied(folder):
    folder.mkdir(exist_ok=True)
    for old in folder.iterdir():
        old.unlink()
    return folder


def samples(build):
    """Random designs and damaged files, by their names."""
    folder = emptied(build / "samples")
    subprocess.run([build / "sample_files", folder], check=True)
    return {path.name: path.read_bytes()
            for path in sorted(folder.iterdir())}


def random_record(rng):
    """Often within the limits, so that the later rules are reached too."""
    kind = rng.choice((0, 2, 3, rng.randrange(20), rng.randrange(256)))
    width = rng.choice((1, 8, 8, 8, 64, rng.randrange(80)))
    operands = [rng.choice((0, 0, 0, rng.randrange(3))) for _ in range(3)]
    full = (1 << min(width, 64)) - 1
    k = rng.choice((0, 0, 0, rng.randrange(9), rng.getrandbits(64)))
    keep = rng.choice((full, full, full >> 1, rng.getrandbits(64)))
    return struct.pack(RECORD, kind, width, *operands, k, keep)


def random_files(seed, turns):
    """Each of three files is further from random bytes than the last one."""
    rng = random.Random(seed)
    for _ in range(turns):
        yield rng.randbytes(rng.randrange(600))
        count = rng.randrange(20)
        yield header(count) + rng.randbytes(24 * count)
        count = rng.randrange(6)
        yield header(count) + b"".join(random_record(rng)
                                       for _ in range(count))
