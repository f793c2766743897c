"""Runs commands, counts named tests and prints how each of them ended.
Assumes that a test in which no fault was found has passed."""

import pathlib
import re
import subprocess
import sys

# A command that has not ended by then never will.
SECONDS = 30


def arguments():
    """The paths that a test was called with."""
    return [pathlib.Path(text).resolve() for text in sys.argv[1:]]


def redirected(command, redirections):
    """The command, started by a shell that changes its streams."""
    return ["sh", "-c", f'exec "$@" {redirections}', "sh", *command]


class Counting:
    """What is found wrong is gathered until `end` gives it a test's name."""

    def __init__(self):
        self.passed = 0
        self.failed = 0
        self.faults = []

    def fault(self, text):
        self.faults.append(text)

    def end(self, name):
        if self.faults:
            self.failed += 1
            print(f"FAIL  {name} ({len(self.faults)} times)")
            for text in self.faults[:3]:
                print(f"      {text}")
        else:
            self.passed += 1
            print(f"ok    {name}", flush=True)
        self.faults = []

    def run(self, command, during=None, data=None, **options):
        """How a command ends and what it prints. It gets the data as its
        input; `during` is called with its process while it runs."""
        if data is not None:
            options["stdin"] = subprocess.PIPE
        streams = {"stdout": subprocess.PIPE, "stderr": subprocess.PIPE}
        with subprocess.Popen(command, **{**streams, **options}) as process:
            if during:
                during(process)
            try:
                printed = process.communicate(data, timeout=SECONDS)
            except subprocess.TimeoutExpired:
                self.fault(f"{command}: did not end")
                process.kill()
                printed = process.communicate()
        return subprocess.CompletedProcess(
            command, process.returncode, *(text or b"" for text in printed))

    def judge(self, what, done, text, status=0, errors=""):
        """What has ended must have printed this text, and on standard error
        what the pattern `errors` says."""
        if done.stdout != text.encode():
            self.fault(f"{what}: printed {done.stdout[:80]!r}, not "
                       f"{text[:80]!r}")
        if not re.fullmatch(errors, done.stderr.decode(errors="replace")):
            self.fault(f"{what}: wrote {done.stderr[-200:]!r}")
        if done.returncode != status:
            self.fault(f"{what}: ended with status {done.returncode}")

    def all(self, *parts):
        """Runs all tests and prints the sum; gives the status to end with."""
        for part in parts:
            part(self)
        print(f"{self.passed} passed, {self.failed} failed")
        return 0 if self.failed == 0 and self.passed > 0 else 1
