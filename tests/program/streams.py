"""The program masks with input and output that fail, wait or make no sense.
Assumes Linux, gcc, and that the program calls the C library's write."""

import fcntl
import itertools
import os
import pty
import subprocess
import tempfile
import time
import tty

from counting import redirected
from runs import FULL, FULL_TEXT, refused

# Linux's number for it; Python has a name from 3.10 on.
F_SETPIPE_SZ = 1031

# Paper 01 names no status. Where its answer was not taken the program says
# so, and its status is 0 all the same.
UNHEARD = "", 0, "masks: standard output cannot be written\n"

# Loaded before the C library: the writes from number FROM on fail, TIMES of
# them; those before and after go through.
SHIM = """#define _GNU_SOURCE
#include <errno.h>
#include <stdlib.h>
#include <sys/syscall.h>
#include <unistd.h>

ssize_t write(int fd, const void *bytes, size_t length)
{
    static long calls;
    long since = ++calls - atol(getenv("FROM"));

    errno = ENOSPC;
    return since >= 0 && since < atol(getenv("TIMES"))
        ? -1 : syscall(SYS_write, fd, bytes, length);
}
"""


def small_pipe():
    """It takes 4,096 bytes, the least that there is."""
    out, into = os.pipe()
    fcntl.fcntl(into, F_SETPIPE_SZ, 4096)
    return out, into


def redirections(tests):
    """A read that fails counts as the end of the input, so what was read up
    to then is judged: nothing at all. Where nobody takes the answer, the
    program must end, and by itself."""
    empty = refused(1), 0, ""
    for name, words, right in (
            ("input is closed", "<&-", empty),
            ("input is a folder", f"<'{tests.examples}'", empty),
            ("input is open for writing only", "0>/dev/full", empty),
            ("input is the empty device", "</dev/null", empty),
            ("input has no end", "</dev/zero", (refused(2), 0, "")),
            ("output is closed", ">&-", UNHEARD),
            ("input and output are closed", "<&- >&-", UNHEARD),
            ("output is full", ">/dev/full", UNHEARD),
            ("output is open for reading only", "1</dev/null", UNHEARD)):
        done = tests.run(redirected(tests.command, words), data=FULL)
        tests.judge(name, done, *right)
        tests.end(f"standard {name}")

    out, into = small_pipe()
    os.set_blocking(into, False)
    done = tests.run(tests.command, data=FULL, stdout=into)
    tests.judge("full pipe", done, *UNHEARD)
    os.close(into)
    os.close(out)
    tests.end("standard output is a full pipe that does not wait")


def failing(data):
    """A terminal whose other end is gone: its bytes come, then an error."""
    near, far = pty.openpty()
    tty.setraw(far)
    os.write(far, data)
    os.close(far)
    return [near]


def unready(data):
    """A pipe that does not wait, and still has a writer, fails as well."""
    out, into = os.pipe()
    os.set_blocking(out, False)
    os.write(into, data)
    return out, into


def broken_off(tests):
    ramp, text = tests.example("ramp")
    files = [(ramp[:length], refused(1 if length < 8 else 5))
             for length in (1, 7, 8, 32, 175)]
    for source, name in ((failing, "a read error"),
                         (unready, "a pipe that does not wait")):
        for data, right in (*files, (ramp, text)):
            ends = source(data)
            tests.expect(f"{len(data)} bytes", right, stdin=ends[0])
            try:
                os.read(ends[0], 1)
                tests.fault("there was no error")
            except OSError:
                pass
            for end in ends:
                os.close(end)
        tests.end(f"{name} counts as the end of the input")


def read_by(tests, sizes, restore=True):
    """How the program ends when a slow reader takes pieces of these sizes,
    and then goes. It has printed what was read."""
    out, into = small_pipe()
    got = []

    def read(_):
        os.close(into)
        for size in sizes:
            got.append(os.read(out, size))
            time.sleep(0.001)
            if not got[-1]:
                break
        os.close(out)

    with tempfile.TemporaryFile() as file:
        file.write(FULL)
        file.seek(0)
        done = tests.run(tests.command, read, stdin=file, stdout=into,
                         restore_signals=restore)
    done.stdout = b"".join(got)
    return done


def readers(tests):
    """A broken pipe is a write that fails: the program ignores its signal,
    whether or not it was started with that signal ignored."""
    for restore, name in ((True, "does not end"), (False, "is ignored in")):
        for size in (0, 1, 15, 3000):
            done = read_by(tests, [size], restore)
            tests.judge(f"{size} bytes read", done,
                        FULL_TEXT[:len(done.stdout)], *UNHEARD[1:])
        tests.end(f"a broken pipe {name} the program")

    tests.judge("slow reader", read_by(tests, itertools.repeat(997)),
                FULL_TEXT)
    tests.end("a slow reader gets the whole answer")


def holes(tests):
    """Once a write has failed nothing more may come: else a line could get
    the mask of another record."""
    shim = tests.build / "failing_write.so"
    subprocess.run(["gcc", "-shared", "-fPIC", "-xc", "-", "-o", shim],
                   input=SHIM.encode(), check=True)
    data, right = tests.example("shift-chain")
    for times in (1, 2, 6, 1000):
        for first in range(1, 43):
            done = tests.run(tests.command, data=data,
                             env={**os.environ, "LD_PRELOAD": str(shim),
                                  "FROM": str(first), "TIMES": str(times)})
            if not right.startswith(done.stdout.decode()):
                tests.fault(f"writes {first} to {first + times - 1} failed: "
                            f"printed {done.stdout!r}")
    tests.end("nothing is printed behind a write that failed")
