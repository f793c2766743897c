"""Tests of the example cut.c, beside what Python works out.
Assumes the builds of example_test.py, whose Tests is passed to each part."""

import random
import struct

import example_troubles
from cut_reading import KINDS, REASONS
from runs import MOST_RECORDS, RECORD, header, random_files, samples

SEED = 20240612


def unread_inputs(count):
    """Every bit of such a file is cut."""
    return header(count) + struct.pack(RECORD, 0, 64, 0, 0, 0, 0,
                                       2 ** 64 - 1) * count


FULL = unread_inputs(MOST_RECORDS)


def expect(tests, what, data, *commands):
    """Each command must tell what Python works out, and write it."""
    right = tests.reading.of(data)
    for command in commands:
        done, written = tests.call(command, data)
        tests.judge(what, done, right.text, right.status)
        if written != right.trimmed:
            tests.fault(f"{what}: another trimmed file")
    return right


def examples(tests):
    for path in tests.examples:
        right = expect(tests, path.name, path.read_bytes(), *tests.cut.both)
        done = tests.run([*tests.cut.plain, path])
        tests.judge("without a second name", done, right.text, right.status)
        again = expect(tests, "trimmed again", right.trimmed, tests.cut.plain)
        if again.trimmed != right.trimmed:
            tests.fault("trimming twice cuts more")
        tests.end(f"cut: example {path.stem}")


def turned_over(tests, times):
    """Examples with one to three bits turned over."""
    rng = random.Random(SEED)
    for _ in range(times):
        data = bytearray(rng.choice(tests.examples).read_bytes())
        for _ in range(rng.randrange(1, 4)):
            data[rng.randrange(len(data))] ^= 1 << rng.randrange(8)
        yield bytes(data)


def many_files(tests):
    """Of the longer groups, every eighth file goes to both builds."""
    lengths = range(len(tests.ramp))
    for name, group, some in (
            ("the ramp, cut at every place",
             [tests.ramp[:length] for length in lengths], 8),
            ("no byte, no record, and too many bytes",
             [b"", header(0), FULL, FULL + b"\0", FULL + bytes(10_000_000),
              unread_inputs(MOST_RECORDS + 1)], 1),
            ("random bytes, and examples with bits turned over",
             [*random_files(SEED, 110), *turned_over(tests, 150)], 8),
            ("random designs and damaged files",
             samples(tests.build).values(), 8)):
        for number, data in enumerate(group):
            expect(tests, f"file {number}", data,
                   *tests.cut.both[:1 + (number % some == 0)])
        tests.end(f"cut: {len(group)} files: {name}")

    # An output is cared for in full, so it never loses a bit.
    if tests.reading.met != {*range(1, 11), 15, *KINDS} - {"output"}:
        tests.fault(f"only {tests.reading.met}")
    if "bits cut: 131072, records cut: 2048\n" not in \
            tests.reading.of(FULL).text:
        tests.fault("not every bit of the longest file is cut")
    tests.end("cut: each refusal and each kind came")

    tests.judge("zeros", tests.run([*tests.cut.plain, "/dev/zero"]),
                f"refused 2 record 0: {REASONS[2]}\n", 1)
    tests.end("cut: a file without an end")


def memory(tests):
    """The library is not built with the sanitizers, but valgrind watches it
    too: every buffer of the example is just as long as it must be."""
    ramp = tests.ramp
    for data in (*(path.read_bytes() for path in tests.examples), b"",
                 ramp[:7], header(0), ramp[:8], ramp[:-1],
                 ramp[:-24] + b"\x13" + ramp[-23:], FULL, FULL + b"\0"):
        expect(tests, f"{len(data)} bytes", data,
               [*example_troubles.VALGRIND, *tests.cut.plain])
    tests.end("cut: valgrind finds nothing")


def troubles(tests):
    example_troubles.scarcity(tests, tests.cut, 3)
    for data in (tests.ramp, b"", header(0)):
        expect(tests, f"{len(data)} bytes", data, tests.cut.scarce)
    tests.end("cut: memory for no bytes that cannot be had")

    text = tests.reading.of(tests.ramp).text
    example_troubles.broken_files(tests, tests.cut, text, text,
                                  [(["more"], "usage: cut FILE")])

    for data in (tests.ramp, tests.ramp[:-1]):
        example_troubles.one_name(tests, tests.cut, data,
                                  tests.reading.of(data))
    tests.end("cut: trimmed in place, and left alone where it is refused")


PARTS = examples, many_files, memory, troubles
