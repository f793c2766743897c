"""Tests of the program masks: test.py PROGRAM BUILD EXAMPLES.
Assumes PYTHONPATH as in tests/run, and in BUILD the tools made there."""

import struct
import sys
import tempfile

import streams
from counting import arguments
from masks_lines import lines_of
from runs import (FULL, FULL_TEXT, MOST_RECORDS, RECORD, Tests, cut, emptied,
                  header, random_files, refused, samples, wires)

SEED = 20240611

# The text that paper 01 prints, and what it says of its other examples, with
# the mux as request #102 has it: the width and mask of each record.
RAMP = """7 192 112
0 32 000000000000ffff
1 32 000000000000ffff
2 32 000000000000ffff
3 32 000000000000ffff
4 32 000000000000ffff
5 16 000000000000ffff
6 16 000000000000ffff
"""
PAPER = {
    "ramp-high": [(32, 0xffff)] * 4 + [(32, 0xff00), (8, 0xff), (8, 0xff)],
    "counter": [(8, 0)] * 3,
    "shift-chain": [(1, 1), (4, 15), (3, 7), (4, 15), (1, 1), (1, 1)],
    "unread-mux": [(1, 0)] + [(8, 0)] * 3,
}


def example_texts(tests):
    for path in sorted(tests.examples.glob("*.pcn")):
        data, right = tests.example(path.stem)
        tests.expect(path.stem, right, data=data)
        if tests.model(data) != right:
            tests.fault(f"{path.stem}: the model prints another text")
        tests.end(f"example {path.stem}")

    texts = {name: lines_of(records) for name, records in PAPER.items()}
    for name, text in {**texts, "ramp": RAMP}.items():
        if tests.example(name)[1] != text:
            tests.fault(f"{name}.txt is not what paper 01 says")
    tests.end("the examples of paper 01 are in its words")


def example_files(tests):
    """The script beside the examples must write each of them, byte by byte."""
    made = emptied(tests.build / "examples")
    tests.judge("make.py", tests.run(
        [sys.executable, tests.examples / "make.py", made]), "")
    new, kept = ({path.name: path.read_bytes() for path in paths}
                 for paths in (made.iterdir(), tests.examples.glob("*.pcn")))
    if new != kept:
        tests.fault("other files are beside it")
    tests.end("make.py writes the example files")


def squares(tests):
    for width, right in ((32, lines_of([(32, 0)] * 2)),
                         (33, refused(15, 1)), (64, refused(15, 1))):
        data = header(2) + b"".join(
            struct.pack(RECORD, kind, width, 0, 0, 0, 0, 2 ** width - 1)
            for kind in (0, 12))
        tests.expect(f"width {width}", right, data=data)
    tests.end("a square of 32 bits is accepted, one of 33 or 64 is refused")


def lengths(tests):
    ramp, _ = tests.example("ramp")
    for name, files in {
            "empty input": [(b"", refused(1))],
            "a file without records": [(header(0), "0 0 0\n")],
            "the ramp, cut at every place":
                [(ramp[:length], refused(1 if length < 8 else 5))
                 for length in range(len(ramp))],
            "the ramp with 1 to 48 bytes behind it":
                [(ramp + bytes(more), refused(5)) for more in range(1, 49)],
            "49,160 bytes, the longest file": [(FULL, FULL_TEXT)],
            "49,161 bytes and more":
                [(FULL + b"\0", refused(5)), (FULL + bytes(24), refused(5)),
                 (wires(MOST_RECORDS + 1), refused(4))]}.items():
        for data, right in files:
            tests.expect(f"{len(data)} bytes", right, data=data)
        tests.end(name)


def long_file(tests):
    """The program shares the file's place with us, so we see how far it
    read."""
    with tempfile.TemporaryFile(buffering=0) as file:
        file.write(header(MOST_RECORDS) + bytes(10_000_000))
        file.seek(0)
        tests.expect("10 MB", refused(5), stdin=file)
        if file.tell() > len(FULL) + 1:
            tests.fault(f"{file.tell()} bytes were read")
    tests.end("of 10 MB, at most one byte beyond 49,160 is read")


def pipes(tests):
    """Of an input without an end, 100,000 pieces are more than enough."""
    ramp, _ = tests.example("ramp")
    endless = [(refused(number), [first, *[then] * 100_000])
               for first, then, number in (
                   (header(1), bytes(4096), 5), (b"", b"y\n", 2),
                   (b"PCN\x02\x00\x00\x00\x00", b"\xff" * 999, 3),
                   (header(2049), bytes(24), 4))]
    for name, pause, *inputs in (
            ("the ramp through a pipe, byte by byte", 0.001,
             (RAMP, cut(ramp, 1)), (RAMP, cut(ramp, 7))),
            ("a slow writer is waited for", 0.05, (RAMP, cut(ramp, 22))),
            ("the longest file through a pipe, in pieces", 0.0005,
             *((FULL_TEXT, cut(FULL, size)) for size in (997, 4096, 24583))),
            ("one byte too many is answered while the pipe is open", 0.0005,
             (refused(5), cut(FULL + b"\0", 4097)),
             (refused(5), [FULL, b"\0"]),
             (refused(5), [FULL, bytes(65_000 - len(FULL))])),
            ("input without an end", 0, *endless)):
        for right, pieces in inputs:
            tests.piped(name, pieces, right, pause)
        tests.end(name)

    tests.piped("ramp", cut(ramp, 22), RAMP, 0.01, stopping=True)
    tests.end("stopped and continued while it reads")


def random_inputs(tests):
    answers = set()
    for turn, data in enumerate(random_files(SEED, 200)):
        right = tests.model(data)
        answers.add(right.split()[1] if right[0] == "r" else "accepted")
        tests.expect(f"file {turn}", right, data=data)
    if not answers >= {"accepted", "1", "2", "6", "7", "8", "9", "10"}:
        tests.fault(f"only these answers came: {sorted(answers)}")
    tests.end("files of random bytes, behind a header too, and of fields")

    files = samples(tests.build)
    for name, data in files.items():
        tests.expect(name, tests.model(data), data=data)
    if len(files) < 600:
        tests.fault("too few")
    tests.end(f"{len(files)} random designs and damaged files")


if __name__ == "__main__":
    sys.exit(Tests(*arguments()).all(
        example_texts, example_files, squares, lengths, long_file, pipes,
        random_inputs, streams.redirections, streams.broken_off,
        streams.readers, streams.holes))
