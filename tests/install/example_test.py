"""Tests of the examples in C: example_test.py PROGRAM LIBRARY BUILD ROOT.
Assumes gcc, valgrind, and PYTHONPATH and the tools in BUILD as in tests/run."""

import sys

import compact_tests
import cut_tests
import keep_tests
from counting import Counting, arguments
from cut_reading import Reading
from runs import emptied

STRICT = ["-std=c99", "-Wall", "-Wextra", "-Werror", "-pedantic", "-g"]
SANITIZE = ["-O1", "-fsanitize=address,undefined", "-fno-sanitize-recover=all"]

# Put before an example, this makes one of its calls of malloc fail, and any
# call for no bytes, as a C library may do.
NO_MEMORY = """#include <errno.h>
#include <stdlib.h>
static void *scarce(size_t length)
{
    static int calls;

    errno = ENOMEM;
    if (++calls == atoi(getenv("FAILING")) || length == 0)
        return NULL;
    return malloc(length);
}
#define malloc scarce
"""


class Builds:
    """The commands of one example: plain, with the sanitizers, and with a
    malloc that fails."""

    def __init__(self, name, build):
        self.name = name
        self.plain = [build / name]
        self.sanitized = [build / f"{name}_sanitized"]
        self.scarce = [build / f"{name}_scarce"]
        self.both = self.plain, self.sanitized


class Tests(Counting):
    """Builds of the examples, and a folder for their files."""

    def __init__(self, program, library, build, root):
        super().__init__()
        self.program = program
        self.reading = Reading(program)
        self.library = library
        self.root = root
        self.build = build
        self.folder = emptied(build / "example files")
        self.cut = Builds("cut", build)
        self.keep = Builds("keep", build)
        self.compact = Builds("compact", build)
        self.examples = sorted((root / "examples").glob("*.pcn"))
        self.ramp_path = root / "examples" / "ramp.pcn"
        self.ramp = self.ramp_path.read_bytes()

    def compile(self, name, command, flags):
        """Compiles an example without a warning."""
        done = self.run(["gcc", *STRICT, *flags, f"-I{self.root / 'include'}",
                         self.root / "examples" / f"{name}.c", self.library,
                         "-o", command])
        self.judge("gcc", done, "")

    def call(self, command, data, *more):
        """Calls an example on these bytes, with a name for what it writes.
        Gives how it ended, and what it wrote, or None."""
        source = self.folder / "file.pcn"
        target = self.folder / "trimmed.pcn"
        source.write_bytes(data)
        target.unlink(missing_ok=True)
        done = self.run([*command, source, target, *more])
        if source.read_bytes() != data:
            self.fault("the file was changed")
        return done, target.read_bytes() if target.exists() else None


def builds(tests):
    before = tests.build / "no_memory.h"
    before.write_text(NO_MEMORY)
    for example in (tests.cut, tests.keep, tests.compact):
        for command, how, flags in (
                (example.plain, "without a warning", ["-O2"]),
                (example.sanitized, "with the sanitizers", SANITIZE),
                (example.scarce, "with a malloc that fails",
                 [*SANITIZE, "-include", before])):
            tests.compile(example.name, *command, flags)
            tests.end(f"{example.name}.c compiles {how}")


if __name__ == "__main__":
    sys.exit(Tests(*arguments()).all(builds, *cut_tests.PARTS,
                                     *keep_tests.PARTS,
                                     *compact_tests.PARTS))
