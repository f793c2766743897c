"""Tests of make install: install_test.py PROGRAM LIBRARY ROOT.
Assumes make, gcc, what is to be installed, and PYTHONPATH as in tests/run."""

import os
import pathlib
import shutil
import stat
import sys
import tempfile

from compact_reading import Reading as Compacted
from counting import Counting, arguments
from cut_reading import Reading
from keep_reading import Reading as Kept

STRICT = ["-std=c99", "-Wall", "-Wextra", "-Werror", "-pedantic"]
MODES = {"bin/masks": 0o755, "include/pcn.h": 0o644, "lib/libpcn.a": 0o644}

# What a make around this test passes on does not count.
LEFT_OUT = ("MAKEFLAGS", "MFLAGS", "MAKELEVEL", "PREFIX", "DESTDIR")


class Tests(Counting):
    """Calls make on what is built, in a folder with a space in its name."""

    def __init__(self, folder, program, library, root):
        super().__init__()
        self.folder = pathlib.Path(folder)
        self.prefix = self.folder / "a prefix"
        self.root = root
        self.program = program
        self.library = library
        self.before = self.sources()

        # Nothing is to be built, so a call of the kit is a fault.
        kit = self.folder / "no kit"
        kit.mkdir()
        (kit / "rt").write_text('#!/bin/sh\n: >"$0.called"\nexit 1\n')
        (kit / "rt").chmod(0o755)
        self.called = kit / "rt.called"
        self.environment = {
            **{name: value for name, value in os.environ.items()
               if name not in LEFT_OUT},
            "PATH": f"{kit}{os.pathsep}{os.environ['PATH']}"}

    def sources(self):
        """The bytes of what is to be copied, and when it was written."""
        paths = (self.program, self.root / "include" / "pcn.h", self.library)
        return {name: (path.read_bytes(), path.stat().st_mtime_ns)
                for name, path in zip(MODES, paths)}

    def make(self, *words, umask=0o022):
        done = self.run(["make", "-o", "program", "-o", "library", *words,
                         f"PROGRAM={self.program}", f"LIBRARY={self.library}"],
                        cwd=self.root, env=self.environment, umask=umask)
        if done.returncode != 0:
            self.fault(f"make: {done.stderr[-200:]!r}")
        if self.called.exists():
            self.called.unlink()
            self.fault("the kit was called")
        return done.stdout.decode()

    def expect(self, text, *command, **source):
        """A command that must print this text."""
        self.judge(command[0], self.run(command, **source), text)

    def compare(self, prefix, names):
        """Just these files are below the prefix, and they are the right
        ones."""
        found = {str(path.relative_to(prefix)): path
                 for path in prefix.rglob("*") if not path.is_dir()}
        if set(found) != set(names):
            self.fault(f"found {sorted(found)}")
        for name in set(found) & set(MODES):
            if found[name].read_bytes() != self.before[name][0]:
                self.fault(f"{name} has other bytes")
            if stat.S_IMODE(found[name].stat().st_mode) != MODES[name]:
                self.fault(f"{name} has another mode")


def installed(tests):
    for name in ("copies three files", "copies over what is there"):
        tests.make("install", f"PREFIX={tests.prefix}")
        tests.compare(tests.prefix, MODES)
        tests.end(f"make install {name}")

    if tests.sources() != tests.before:
        tests.fault("other bytes, or written anew")
    tests.end("what was copied has not changed")
    # What is not there cannot be used or taken away.
    if not tests.failed:
        for part in (used, uninstalled, staged):
            part(tests)


def used(tests):
    """Away from the clone, so that nothing of it is found by chance."""
    work = tests.folder / "work"
    work.mkdir()
    ramp = tests.root / "examples" / "ramp.pcn"
    data = ramp.read_bytes()
    linked = f"-L{tests.prefix / 'lib'}", "-lpcn", "-o"
    tests.expect(ramp.with_suffix(".txt").read_text(),
                 tests.prefix / "bin" / "masks", data=data)
    tests.end("the installed program runs")

    (work / "main.c").write_text("int main(void) { return 0; }\n")
    tests.expect("", "gcc", tests.root / "tests" / "install" / "header_use.c",
                 work / "main.c", *linked, work / "all")
    tests.end("the installed library has every function")

    for name in ("cut.c", "keep.c", "compact.c", "files.h"):
        shutil.copy(tests.root / "examples" / name, work)
    for name, right in (("cut", Reading(tests.program).of(data)),
                        ("keep", Kept(tests.program, data, {})),
                        ("compact", Compacted(tests.program).of(data))):
        tests.expect("", "gcc", *STRICT, f"-I{tests.prefix / 'include'}",
                     work / f"{name}.c", *linked, work / name)
        if not (work / name).exists():
            continue
        tests.expect(right.text, work / name, ramp, work / "trimmed.pcn")
        if (work / "trimmed.pcn").read_bytes() != right.trimmed:
            tests.fault(f"{name}: another trimmed file")
        (work / "trimmed.pcn").unlink()
    tests.end("three C programs use the installed header and library")


def uninstalled(tests):
    """Files of others in the same folders stay."""
    other = tests.prefix / "bin" / "other"
    other.write_text("other")
    for left in (["bin/other"], []):
        tests.make("uninstall", f"PREFIX={tests.prefix}")
        tests.compare(tests.prefix, left)
        other.unlink(missing_ok=True)
    tests.end("make uninstall leaves none of them")


def staged(tests):
    """The prefix is a folder of ours too, and where it is not given make only
    prints its commands: a wrong Makefile must do no harm here."""
    stage = tests.folder / "a stage"
    prefix = tests.folder / "never made"
    places = f"DESTDIR={stage}", f"PREFIX={prefix}"
    tests.make("install", *places, umask=0o077)
    tests.compare(stage / prefix.relative_to(prefix.anchor), MODES)
    if prefix.exists():
        tests.fault("the prefix itself was used")
    tests.make("uninstall", *places)
    tests.compare(stage, [])
    tests.end("DESTDIR goes before the prefix")

    for target in ("install", "uninstall"):
        commands = tests.make("-n", target, f"DESTDIR={stage}")
        for name in MODES:
            if f'"{stage}/usr/local/{name}"' not in commands:
                tests.fault(f"{target} of {name} goes elsewhere")
    tests.end("the prefix is /usr/local if none is given")


if __name__ == "__main__":
    with tempfile.TemporaryDirectory(prefix="make install ") as temporary:
        sys.exit(Tests(temporary, *arguments()).all(installed))
