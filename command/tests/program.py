"""Runs the command, and reads back what it prints."""

import csv
import io
import json
import subprocess
import sys


class Run:
    def __init__(self, program, *arguments, given=None, seconds=60):
        done = subprocess.run([program, *arguments], input=given, capture_output=True, timeout=seconds)
        self.status, self.out, self.said = done.returncode, done.stdout, done.stderr

    def json(self):
        return [json.loads(line) for line in self.out.decode("utf-8").splitlines()]

    def csv(self):
        text = io.StringIO(self.out.decode("utf-8", "surrogateescape"), newline="")
        return [{name: field for name, field in row.items() if field != ""} for row in csv.DictReader(text, strict=True)]


failures = 0


def hold(right, *words):
    """A test: right or not, and what to say where it is not."""
    global failures
    if not right:
        failures += 1
        print("FAILED:", *words)


def end(words):
    print(f"{words}: {'as they should be' if failures == 0 else f'{failures} failures'}")
    sys.exit(1 if failures else 0)
