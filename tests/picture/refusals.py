"""Inputs of which no picture is drawn, and outputs that cannot be written.
Assumes tests that run the script, and the example texts beside it."""

import functools
import os
import random
import select
import signal
import time

from counting import redirected

GOOD = "1 8 4\n0 8 000000000000000f\n"

NEVER_PRINTED = [
    "refused 0 record 0\n", "refused 11 record 0\n", "refused 12 record 3\n",
    "refused 14 record 3\n", "refused 16 record 3\n",
    "refused 3 record 1\n", "refused 9 record 2048\n", "refused 9 record 5",
    "refused 9 record 5\n\n", "refused 09 record 5\n", "refused 9 record\n",
    "refused 9  record 5\n", "Refused 9 record 5\n", "refused 9 record -1\n",
    "refused 9 record 5\n0 0 0\n"]

NEARLY_RIGHT = [
    *(GOOD.replace(old, new) for old, new in (
        ("\n", "\r\n"), (" ", "  "), (" ", "\t"), ("\n", " \n"),
        ("\n0", "\n00"), ("00f", "0f"), ("00f", "000f"), ("00f", "0 f"),
        ("8", "\u0668"), ("\n", "\x0b"))),
    "\n", "\n\n", " ", GOOD.upper(), " " + GOOD, GOOD + "\n", GOOD + "x",
    "01" + GOOD[1:], "+" + GOOD, "\ufeff" + GOOD, "9" * 20000 + " 8 4\n",
    "1 8 " + "4" * 5000 + "\n", "<svg/>\n", "PCN\x01\0\0\0\0"]


def changed(text, times):
    chance = random.Random(1)
    for _ in range(times):
        place = chance.randrange(len(text))
        byte = chance.choice([chance.randrange(256), *b"0123456789 \n"])
        if byte != text[place]:
            yield text[:place] + bytes([byte]) + text[place + 1:]


def damaged_examples(tests):
    """In the ramp, each other digit changes a width, a number or the tally."""
    counter = (tests.examples / "counter.txt").read_bytes()
    ramp = (tests.examples / "ramp.txt").read_bytes()
    lines = ramp.splitlines(keepends=True)
    yield ("a text cut at every place", "",
           [counter[:length] for length in range(len(counter))])
    yield "a text with one byte changed", "", changed(ramp, 60)
    yield ("two lines exchanged", "line 2",
           [b"".join([lines[0], lines[2], lines[1], *lines[3:]])])
    yield ("lines left out or repeated", "",
           [b"".join([*lines[:i], *lines[i:i + 1] * times, *lines[i + 1:]])
            for i in range(len(lines)) for times in (0, 2)])


def inconsistent():
    ones = [f"{i} 1 {1:016x}" for i in range(2049)]
    yield ("a mask with a bit at the width or above",
           "line 2.*the width or above",
           [f"1 {width} 1\n0 {width} {1 << width:016x}\n"
            for width in (1, 7, 31, 63)])
    yield ("a width of 0 or above 64", "line 2.*width",
           [f"1 {width} 0\n0 {width} {0:016x}\n" for width in (0, 65)])
    yield ("a tally that is not that of the records", "tally",
           ["0 1 0\n", *(f"{first}\n0 8 {15:016x}\n" for first in (
               "1 8 3", "1 8 5", "1 7 4", "1 9 4", "1 4 8"))])
    yield ("a count that is not that of the lines", "lines",
           ["\n".join([first, *ones[:count], ""]) for first, count in (
               ("2 3 3", 3), ("4 3 3", 3), ("0 1 1", 1),
               ("2048 2047 2047", 2047), ("2047 2048 2048", 2048))])
    yield ("more records than there can be", "2,048",
           ["\n".join(["2049 2049 2049", *ones, ""])])


def binary_bytes():
    chance = random.Random(2)
    yield GOOD.encode() + b"\xff\xfe\x00"
    for size in (1, 10, 1000, 100_000, 3_000_000):
        yield chance.randbytes(size)
        yield bytes(size)


def each(tests, texts, words="", status=2):
    """None of these texts gives a picture, but one line with these words."""
    for text in texts:
        data = text if isinstance(text, bytes) else text.encode()
        tests.judge(f"{text[:40]!r}", tests.run(tests.command, data=data), "",
                    status, f"picture: .*{words}.*\n")


def broken_texts(tests):
    for number in (*range(1, 11), 15):
        for record in (0,) if number < 6 else (0, 7, 2047):
            each(tests, [f"refused {number} record {record}\n"],
                 f"refusal {number}, record {record} ", 1)
    tests.end("a refused file gives the refusal and status 1")

    for name, words, texts in (
            ("refusals that masks never prints", "", NEVER_PRINTED),
            *damaged_examples(tests), *inconsistent(),
            ("texts that are nearly right", "", NEARLY_RIGHT),
            ("binary bytes", "", binary_bytes())):
        each(tests, texts, words)
        tests.end(name)


def broken_streams(tests):
    text = (tests.examples / "pitch-card.txt").read_bytes()
    cannot = "picture: .*cannot.*\n"
    for words, data, status, errors in (
            (">/dev/full", text, 2, cannot), (">&-", text, 2, cannot),
            ("<&-", text, 2, cannot), ("2>&-", b"damage", 2, ""),
            ("2>/dev/full", b"damage", 2, ""),
            ("2>&-", b"refused 1 record 0\n", 1, ""),
            ("</dev/zero", b"", 2, "picture: .*\n"),
            ("--help", text, 2, "picture: usage: .*\n")):
        done = tests.run(redirected(tests.command, words), data=data)
        tests.judge(words, done, "", status, errors)
        tests.end(f"started with {words} and {len(data)} bytes")

    outlet, inlet = os.pipe()
    os.close(outlet)
    done = tests.run(tests.command, data=text, stdout=inlet)
    os.close(inlet)
    tests.judge("pipe", done, "", 2, cannot)
    tests.end("a pipe that breaks")


def interrupted(tests):
    """The signal is sent once the script has read what there is. A shell
    starts what runs in the background deaf to interrupts."""
    outlet, inlet = os.pipe()

    def interrupt(process):
        os.write(inlet, b"7 192")
        for _ in range(3000):
            if not select.select([outlet], [], [], 0)[0]:
                break
            time.sleep(0.01)
        process.send_signal(signal.SIGINT)

    done = tests.run(tests.command, interrupt, stdin=outlet,
                     preexec_fn=functools.partial(
                         signal.signal, signal.SIGINT, signal.SIG_DFL))
    os.close(outlet)
    os.close(inlet)
    tests.judge("interrupted", done, "", 130)
    tests.end("an interrupt")
