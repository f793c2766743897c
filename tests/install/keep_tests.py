"""Tests of the example keep.c, beside what Python works out.
Assumes the builds of example_test.py, whose Tests is passed to each part."""

import random
import re
import struct

import example_troubles
from cut_reading import REASONS
from keep_reading import Reading, records_of, words_of
from runs import MOST_RECORDS, RECORD, header, samples

SEED = 20240613

REFUSED = rf"refused 14 record (\d+): {REASONS[14]}\n"
OFFER = r"add (\d+):([1-9a-f][0-9a-f]*)\n"

# An or of an input with a constant that has its low half, read by nobody.
CUT_OR = header(3) + b"".join(struct.pack(RECORD, *fields) for fields in (
    (0, 8, 0, 0, 0, 0, 0xff), (1, 8, 0, 0, 0, 0x0f, 0xff),
    (7, 8, 0, 1, 0, 0, 0xff)))

# The longest file: registers that each read the next one, and an input.
CHAIN = header(MOST_RECORDS) + b"".join(
    struct.pack(RECORD, 2, 1, number + 1, 0, 0, 0, 1)
    for number in range(MOST_RECORDS - 1)) + struct.pack(
        RECORD, 0, 1, 0, 0, 0, 0, 1)


def offered(tests, what, text, right):
    """The bits that are offered after a refusal, by record. Together they
    must be all that is missing, and no bit comes twice."""
    match = re.fullmatch(f"{re.escape(right.shown)}{REFUSED}((?:{OFFER})+)",
                         text)
    if not match:
        tests.fault(f"{what}: printed {text[-200:]!r}")
        return {}
    offers = [(int(number), int(bits, 16))
              for number, bits in re.findall(OFFER, match[2])]
    if offers[0][0] != int(match[1]):
        tests.fault(f"{what}: the first offer is not for {match[1]}")
    found = {}
    for number, bits in offers:
        if found.get(number, 0) & bits:
            tests.fault(f"{what}: bits of {number} come twice")
        found[number] = found.get(number, 0) | bits
    if found != right.missing:
        tests.fault(f"{what}: other bits are offered")
    return found


def expect(tests, what, data, added, *commands):
    """Each command must tell what Python works out, and write it. After a
    refusal, what it offers is added, and that must be accepted."""
    right = Reading(tests.program, data, added)
    for command in commands:
        done, written = tests.call(command, data, *words_of(added))
        if right.missing:
            offers = offered(tests, what, done.stdout.decode(), right)
            tests.judge(what, done, done.stdout.decode(), 1)
            if written is not None:
                tests.fault(f"{what}: written though refused")
            total = {number: added.get(number, 0) | offers.get(number, 0)
                     for number in {*added, *offers}}
            again = Reading(tests.program, data, total)
            done, written = tests.call(command, data, *words_of(added),
                                       *words_of(offers))
            tests.judge(f"{what}, offers added", done, again.text)
            if written != again.trimmed:
                tests.fault(f"{what}: another file with the offers added")
        else:
            tests.judge(what, done, right.text)
            if written != right.trimmed:
                tests.fault(f"{what}: another trimmed file")
    return right


def examples(tests):
    """With nothing added it is the file that trim writes."""
    for path in tests.examples:
        data = path.read_bytes()
        right = expect(tests, path.name, data, {}, *tests.keep.both)
        if right.trimmed != tests.reading.of(data).trimmed:
            tests.fault("not the file of cut")
        done = tests.run([*tests.keep.plain, path])
        tests.judge("without a second name", done, right.shown)
        tests.end(f"keep: example {path.stem}")


def by_hand(tests):
    """What is wrong with a list, line by line. The counter is a register that
    grows by a constant; a bit of a sum needs all bits below it."""
    counter = tests.root.joinpath("examples", "counter.pcn").read_bytes()
    for name, data, words, record, lines in (
            ("a product", tests.ramp, ["3:ff0000"], 0,
             ["add 0:ff0000", "add 1:ff0000"]),
            ("a loop", counter, ["0:80"], 2,
             ["add 2:80", "add 0:7f", "add 1:ff", "add 2:7f"]),
            ("a constant", CUT_OR, ["2:ff"], 0, ["add 0:f0", "add 1:ff"]),
            ("beyond the width", tests.ramp, ["3:300000000"], 3,
             ["beyond the width 3:300000000"]),
            ("beyond an output's", tests.ramp, ["6:8000000000000000"], 6,
             ["beyond the width 6:8000000000000000"]),
            ("both", tests.ramp, ["5:1ffff", "3:10000"], 0,
             ["add 0:10000", "add 1:10000", "beyond the width 5:10000"]),
            ("both at one", tests.ramp, ["0:100000000", "3:10000"], 0,
             ["beyond the width 0:100000000"])):
        text = "".join(f"{line}\n" for line in [
            f"refused 14 record {record}: {REASONS[14]}", *lines])
        for command in tests.keep.both:
            done, written = tests.call(command, data, *words)
            ending = done.stdout.decode()[-len(text):]
            if ending != text or done.returncode != 1 or written is not None:
                tests.fault(f"{ending!r}")
        tests.end(f"keep: refused by hand: {name}")


def arguments_read(tests):
    """Zeros in front, capital letters, no bit, and one record twice."""
    right = Reading(tests.program, tests.ramp, {0: 0xab0000, 2: 0x10000})
    for command in tests.keep.both:
        done, written = tests.call(command, tests.ramp, "0:AB0000", "2:0",
                                   "0002:0000000000010000", "0:10000")
        tests.judge("arguments", done, right.text)
        if written != right.trimmed:
            tests.fault("another trimmed file")
    tests.end("keep: arguments in other forms")


def random_bits(rng, records):
    """Bits to add to one, two or three records: a single one, some or all."""
    added = {}
    for number in rng.sample(range(len(records)), min(len(records),
                                                      rng.randrange(1, 4))):
        width = records[number][0]
        added[number] = rng.choice((1 << rng.randrange(width),
                                    rng.getrandbits(width),
                                    (1 << width) - 1))
    return {number: bits for number, bits in added.items() if bits}


def many_files(tests):
    """Damaged files are refused as ever. Of the designs, every eighth goes to
    both builds; the very longest have no room for further outputs."""
    rng = random.Random(SEED)
    counts = {"refused file": 0, "refused list": 0, "accepted list": 0}
    for number, data in enumerate(samples(tests.build).values()):
        right = tests.reading.of(data)
        commands = tests.keep.both[:1 + (number % 8 == 0)]
        if right.trimmed is None:
            for command in commands:
                done, written = tests.call(command, data)
                tests.judge(number, done, right.text, 1)
                if written is not None:
                    tests.fault(f"{number}: written though refused")
            counts["refused file"] += 1
        elif len(data) <= 8 + 24 * (MOST_RECORDS - 3):
            added = random_bits(rng, records_of(tests.program, data))
            kept = expect(tests, f"file {number}", data, added, *commands)
            counts["refused list" if kept.missing else "accepted list"] += 1
    if min(counts.values()) < 20:
        tests.fault(f"only {counts}")
    tests.end("keep: random bits added to random designs, and damaged files")


def longest(tests):
    """Every register of the chain, and the input, is called for in turn."""
    done, _ = tests.call(tests.keep.plain, CHAIN, "0:1")
    lines = done.stdout.decode().splitlines()[1 + MOST_RECORDS:]
    if lines != [f"refused 14 record 1: {REASONS[14]}",
                 *(f"add {number}:1" for number in range(1, MOST_RECORDS))]:
        tests.fault(f"{lines[:3]}")
    tests.end("keep: a chain of 2,047 registers")


def memory(tests):
    """The library is not built with the sanitizers, but valgrind watches it
    too: every buffer of the example is just as long as it must be."""
    counter = tests.root.joinpath("examples", "counter.pcn").read_bytes()
    for data, added in ((tests.ramp, {3: 0xff0000}), (tests.ramp, {2: 1 << 31}),
                        (counter, {0: 0x80}), (CUT_OR, {2: 0xff}),
                        (header(0), {})):
        expect(tests, f"{len(data)} bytes", data, added,
               [*example_troubles.VALGRIND, *tests.keep.plain])
    done, _ = tests.call([*example_troubles.VALGRIND, *tests.keep.plain],
                         tests.ramp, "3:100000000")
    tests.judge("beyond the width", done, done.stdout.decode(), 1)
    tests.end("keep: valgrind finds nothing")


def troubles(tests):
    example_troubles.scarcity(tests, tests.keep, 4)
    for data in (tests.ramp, header(0)):
        expect(tests, f"{len(data)} bytes", data, {}, tests.keep.scarce)
    tests.end("keep: memory for no bytes that cannot be had")

    right = Reading(tests.program, tests.ramp, {})
    example_troubles.broken_files(tests, tests.keep, right.shown, right.text, [
        (["2:1", word], f"keep: no RECORD:BITS of this file: {re.escape(word)}")
        for word in ("7:1", "18446744073709551618:1", "3", "3:", ":", "", ":1",
                     "3:1g", "3:0x1", "3:-1", "3: 1", "-3:1", " 3:1", "3 :1",
                     "3:10000000000000000", "3:1:1", "3:1 ", "x:1", "3;1")])

    example_troubles.one_name(tests, tests.keep, tests.ramp, right)
    tests.end("keep: trimmed in place")


PARTS = (examples, by_hand, arguments_read, many_files, longest, memory,
         troubles)
