"""What every example in C must do without memory, or with files that fail.
Assumes the builds of example_test.py, whose Tests is passed to each part."""

import os
import re

VALGRIND = ["valgrind", "-q", "--error-exitcode=9", "--leak-check=full",
            "--track-origins=no"]


def scarcity(tests, example, calls):
    """So many calls of malloc, each of which fails once."""
    target = tests.folder / "unwritten.pcn"
    for call in range(1, calls + 1):
        os.environ["FAILING"] = str(call)
        done = tests.run([*example.scarce, tests.ramp_path, target])
        tests.judge(f"call {call}", done, "", 2,
                    f"{example.name}: cannot find memory for .*\n")
        if target.exists():
            tests.fault(f"call {call}: went on")
    os.environ["FAILING"] = "0"
    tests.end(f"{example.name}: memory that cannot be had")


def broken_files(tests, example, shown, written, wrong):
    """The texts for the ramp, without and with a file to write; then lists of
    wrong arguments, each with what is said of them. Without a buffer, a
    failure of the output comes before the last call that writes."""
    ramp, missing = tests.ramp_path, tests.folder / "missing.pcn"
    name, target = example.name, tests.folder / "target.pcn"
    target.write_bytes(b"old")
    for command in example.both:
        for arguments, printed, errors in (
                ([missing, target], "",
                 f"{name}: cannot open {re.escape(str(missing))}: No"),
                ([tests.folder, target], "", f"{name}: cannot read .*: Is a"),
                ([ramp, missing / "x"], written,
                 f"{name}: cannot open .*: No"),
                ([ramp, "/dev/full"], written,
                 f"{name}: cannot write /dev/full: No"),
                ([], "", f"usage: {name} FILE"),
                *(([ramp, target, *more], "", errors)
                  for more, errors in wrong)):
            tests.judge(arguments, tests.run([*command, *arguments]), printed,
                        2, f"{errors}.*\n")
        tests.judge("one name", tests.run([*command, ramp]), shown)
    for command in (*example.both, ["stdbuf", "-o0", *example.plain]):
        with open("/dev/full", "wb") as full:
            done = tests.run([*command, ramp], stdout=full)
        tests.judge("no output", done, "", 2,
                    f"{name}: cannot write the answer: No.*\n")
    if target.read_bytes() != b"old":
        tests.fault("the trimmed file was touched")
    tests.end(f"{name}: wrong arguments, and files that cannot be read or"
              " written")


def one_name(tests, example, data, right):
    """The trimmed file in the place of the file itself."""
    path = tests.folder / "one.pcn"
    path.write_bytes(data)
    tests.judge("one name", tests.run([*example.plain, path, path]),
                right.text, right.status)
    if path.read_bytes() != (right.trimmed or data):
        tests.fault("another trimmed file")
