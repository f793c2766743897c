"""Tests of the picture of masks: test.py SCRIPT EXAMPLES DOCS.
Assumes PYTHONPATH as in tests/run, and the picture ramp.svg in DOCS."""

import os
import random
import sys

import refusals
from counting import Counting, arguments
from drawing import Drawing
from masks_lines import lines_of
from rows import check_rows
from sheet import check_sheet

MOST_BYTES = 2_000_000
MOST_RATIO = 3
SCREEN = 1400
LEAST_SIZE = 8
LARGE = 2000
COUNTS = (0, 1, 10, 49, 50, 51, 64, 65, 101, 2000, 2048)
WIDTHS = (*range(1, 20), 24, 25, 26, 31, 32, 33, 34, 48, 49, 50, 56, 57, 58,
          62, 63, 64)


class Tests(Counting):
    """Tests of one script, beside the examples and the documents."""

    def __init__(self, script, examples, docs):
        super().__init__()
        self.command = [sys.executable, script]
        self.examples = examples
        self.docs = docs

    def examine(self, what, text):
        """Draws a text; the picture must pass what holds for every picture
        of its size."""
        records = records_of(text)
        done = self.run(self.command, data=text.encode())
        self.judge(what, done, done.stdout.decode())
        try:
            drawing = Drawing(done.stdout)
            for check in (check_sheet, check_rows, check_large):
                for right, fault in check(drawing, records):
                    if not right:
                        self.fault(f"{what}: {fault}")
        # Whatever the checks stumble over, the picture is at fault.
        except Exception as error:
            self.fault(f"{what}: cannot be examined: {error!r}")


def records_of(text):
    fields = [line.split() for line in text.splitlines()[1:]]
    return [(int(width), int(mask, 16)) for _, width, mask in fields]


def random_records(count, seed):
    """All widths, and masks of few runs as well as of many."""
    chance = random.Random(seed)
    for _ in range(count):
        width = chance.randint(1, 64)
        full = (1 << width) - 1
        low, high = sorted((chance.randint(0, width),
                            chance.randint(0, width)))
        yield width, chance.choice([
            0, full, (1 << high) - (1 << low), full ^ (1 << high >> 1),
            chance.getrandbits(width), chance.getrandbits(width)])


def check_large(drawing, records):
    """Large pictures fit a screen, and a viewer can take them. Where a screen
    shows all of one, its head and the names of its blocks can be read."""
    if len(records) < LARGE:
        return
    width, height = drawing.page[2:]
    yield (max(width, height) <= MOST_RATIO * min(width, height),
           f"{width} by {height}")
    elements = sum(1 for _ in drawing.root.iter())
    yield (len(drawing.data) <= MOST_BYTES
           and elements <= 8 * len(records) + 1000,
           f"{len(drawing.data)} bytes, {elements} elements")
    names = [words for block in drawing.blocks
             for words in drawing.heading(block) if " to " in words.text]
    yield len(names) == len(drawing.blocks), f"{len(names)} names of blocks"
    for words in names + drawing.words(drawing.root)[:5]:
        yield (words.size * SCREEN >= LEAST_SIZE * width,
               f"{words.text!r} cannot be read from afar")


def example_pictures(tests):
    paths = sorted(tests.examples.glob("*.txt"))
    if len(paths) < 5:
        tests.fault(f"only {len(paths)} examples")
    for path in paths:
        tests.examine(path.stem, path.read_text())
        tests.end(f"picture of {path.stem}")


def generated_pictures(tests):
    """Random ones; as many runs as there can be; the narrowest signals. Each
    width has other bit numbers on top, which must not run together."""
    groups = {f"{count:,} random records": [random_records(count, count + 1)]
              for count in COUNTS}
    groups["2,048 times every second bit"] = [[(64, 0x5555555555555555)] * 2048]
    groups["2,048 wires"] = [[(1, 1)] * 2048]
    groups["widest signals of 1 to 64 bits"] = [
        [(width, 2 ** width - 1), (width, 0), (1, 1),
         (width, (2 ** width - 1) // 3)] for width in WIDTHS]
    for name, group in groups.items():
        for number, records in enumerate(group):
            tests.examine(f"picture {number}", lines_of([*records]))
        tests.end(f"picture of {name}")


def same_bytes(tests):
    text = lines_of([*random_records(300, seed=5)]).encode()
    outputs = {tests.run(tests.command, data=text, cwd=folder,
                         env={**os.environ, "PYTHONHASHSEED": seed}).stdout
               for seed in ("1", "2", "3") for folder in ("/", ".")}
    if len(outputs) != 1 or b"</svg>" not in outputs.pop():
        tests.fault("several pictures of one text")
    tests.end("the same text gives the same bytes")

    done = tests.run(tests.command,
                     data=(tests.examples / "ramp.txt").read_bytes())
    tests.judge("ramp.txt", done, (tests.docs / "ramp.svg").read_text())
    tests.end("ramp.svg is what the script draws")


if __name__ == "__main__":
    sys.exit(Tests(*arguments()).all(
        example_pictures, generated_pictures, same_bytes,
        refusals.broken_texts, refusals.broken_streams, refusals.interrupted))
