"""Tests of the example compact.c, beside what Python works out.
Assumes the builds of example_test.py, whose Tests is passed to each part."""

import random
import struct

import example_troubles
from compact_reading import Reading
from cut_reading import KINDS
from runs import MOST_RECORDS, RECORD, header, samples

SEED = 20240614

# Put before the example, this clears what a change over has carried.
LOST_STATES = """#include <string.h>
#include "pcn.h"
static uint64_t cleared(const uint8_t *file, size_t length, uint64_t *masks,
                        size_t masks_words, const uint64_t *board,
                        size_t board_words, uint64_t *new_board,
                        size_t new_board_words)
{
    uint64_t answer = pcn_change_over(file, length, masks, masks_words, board,
                                      board_words, new_board, new_board_words);

    memset(new_board, 0, 8 * new_board_words);
    return answer;
}
#define pcn_change_over cleared
"""

# A register of 8 bits that gets 1 more in each cycle, and goes out.
COUNTER = header(4) + b"".join(
    struct.pack(RECORD, *record, 255) for record in (
        (1, 8, 0, 0, 0, 1), (2, 8, 2, 0, 0, 0), (10, 8, 0, 1, 0, 0),
        (3, 8, 1, 0, 0, 0)))

# The longest file: constants that nobody reads, but for the last, which goes
# out.
UNREAD = header(MOST_RECORDS) + struct.pack(
    RECORD, 1, 64, 0, 0, 0, 5, 2 ** 64 - 1) * (MOST_RECORDS - 1) + struct.pack(
        RECORD, 3, 64, MOST_RECORDS - 2, 0, 0, 0, 2 ** 64 - 1)


def expect(tests, reading, what, data, *commands):
    """Each command must tell what Python works out, and write it."""
    right = reading.of(data)
    for command in commands:
        done, written = tests.call(command, data)
        tests.judge(what, done, right.text, right.status)
        if written != right.trimmed:
            tests.fault(f"{what}: another compacted file")
    return right


def examples(tests):
    reading = Reading(tests.program)
    for path in tests.examples:
        right = expect(tests, reading, path.name, path.read_bytes(),
                       *tests.compact.both)
        done = tests.run([*tests.compact.plain, path])
        tests.judge("without a second name", done, right.text, right.status)
        again = expect(tests, reading, "compacted again", right.trimmed,
                       tests.compact.plain)
        if again.trimmed != right.trimmed:
            tests.fault("compacting twice drops more")
        tests.end(f"compact: example {path.stem}")


def samples_beside(tests):
    """The cards stand in the folder before and after, and something went."""
    folder = tests.root / "examples"
    for name in ("service-card", "pitch-card"):
        before = (folder / f"{name}.pcn").read_bytes()
        after = (folder / f"{name}-compact.pcn").read_bytes()
        _, written = tests.call(tests.compact.plain, before)
        if written != after or len(after) >= len(before):
            tests.fault(f"{name}: not what the program writes")
    tests.end("compact: two samples stand beside their compacted files")


def by_hand(tests):
    """The words of the program, and not what Python makes of them."""
    card = tests.root / "examples" / "service-card.pcn"
    for command in tests.compact.both:
        tests.judge("service card", tests.run([*command, card]),
                    "records: 18 before, 10 after\n"
                    "bytes: 440 before, 248 after\n"
                    "kept bits: 120 before, 61 after\n"
                    "outputs: 1, equal in 10 cycles after a change over\n")
    tests.end("compact: the service card in words")


def many_files(tests):
    """Of these, every eighth goes to both builds."""
    reading = Reading(tests.program)
    rng = random.Random(SEED)
    files = [*samples(tests.build).values(), b"", header(0), UNREAD,
             UNREAD + b"\0", header(MOST_RECORDS + 1),
             *(tests.ramp[:rng.randrange(len(tests.ramp))] for _ in range(9))]
    for number, data in enumerate(files):
        expect(tests, reading, f"file {number}", data,
               *tests.compact.both[:1 + (number % 8 == 0)])
    tests.end(f"compact: {len(files)} random designs and damaged files")

    # Inputs and outputs stay as they are.
    inner = {*KINDS} - {"input", "output"}
    missing = {*range(1, 11), 15, *(f"{kind} dropped" for kind in inner),
               *(f"{kind} emptied" for kind in inner)} - reading.met
    if missing:
        tests.fault(f"never {missing}")
    if "records: 2048 before, 2 after\n" not in reading.of(UNREAD).text:
        tests.fault("the longest file has other survivors")
    tests.end("compact: each refusal came, and each kind that can go")


def lost_states(tests):
    """The counter goes on from 0 then, which its output shows."""
    before = tests.build / "lost_states.h"
    before.write_text(LOST_STATES)
    command = tests.build / "compact_lost_states"
    tests.compile("compact", command, ["-O1", "-include", before])
    done, written = tests.call([command], COUNTER)
    tests.judge("states lost", done, "", 3,
                "compact: AN OUTPUT DIFFERS in cycle 10: .*\n")
    if written is not None:
        tests.fault("the compacted file was written")
    tests.end("compact: an output that differs is told")


def memory(tests):
    """The library is not built with the sanitizers, but valgrind watches it
    too: every buffer of the example is just as long as it must be."""
    reading = Reading(tests.program)
    ramp = tests.ramp
    for data in (*(path.read_bytes() for path in tests.examples), b"",
                 ramp[:7], header(0), ramp[:8], ramp[:-1], UNREAD):
        expect(tests, reading, f"{len(data)} bytes", data,
               [*example_troubles.VALGRIND, *tests.compact.plain])
    tests.end("compact: valgrind finds nothing")


def troubles(tests):
    reading = Reading(tests.program)
    example_troubles.scarcity(tests, tests.compact, 7)
    for data in (tests.ramp, b"", header(0)):
        expect(tests, reading, f"{len(data)} bytes", data,
               tests.compact.scarce)
    tests.end("compact: memory for no bytes that cannot be had")

    text = reading.of(tests.ramp).text
    example_troubles.broken_files(tests, tests.compact, text, text,
                                  [(["more"], "usage: compact FILE")])

    for data in (UNREAD, tests.ramp, tests.ramp[:-1]):
        example_troubles.one_name(tests, tests.compact, data, reading.of(data))
    tests.end("compact: compacted in place, and left alone where it is refused")


PARTS = (examples, samples_beside, by_hand, many_files, lost_states, memory,
         troubles)
