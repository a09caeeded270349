#!/usr/bin/env -S python3 -B
"""Starts programs with the stack that docs/guide.md says is enough, a hundred times each, since the system begins the stack at a
random place. The environment is on the stack, too: it has 0, 6 or 16 KB.

    checks/stack.py    prints a line for each check, and last `N passed, M failed`
"""

import collections
import pathlib
import shlex
import subprocess

import runner

STARTS = 100
ENVIRONMENTS = (0, 6, 16)
REPORT = runner.TOP / "crates" / "readreport" / "stdin"
CASES = runner.TOP / "crates" / "example_files" / "data" / "cases"
# In KB: for programs whose trials need next to nothing, for those that read files, for `reports`, and for the call that shows a run.
TRIALS, FILES, REPORTS, WATCH = 72, 100, 64, 104
# A program and its words, its stack, and its status.
LINES = [
    ("harness --logfile log", TRIALS, 101),
    ("harness --test-threads 4", TRIALS, 101),
    ("harness --nosuch", TRIALS, 2),
    ("example_sums --help", TRIALS, 0),
    (f"reports compare {REPORT} {REPORT}", REPORTS, 0),
    (f"reports expect --update known {REPORT}", REPORTS, 0),
    (f"example_files {CASES} -- --test-threads 1", FILES, 101),
    (f"example_files {CASES} -- --test-threads 4", FILES, 101),
    ("reports watch", WATCH, 101),
]


def check_starts(line, most, status, size):
    """Each start ends as with ample room."""
    name, *words = shlex.split(line)
    script = f'ulimit -s {most}; for _ in $(seq {STARTS}); do "$@" <{REPORT} >&2; echo $?; done'
    begin = ["sh", "-c", script, "sh", runner.program(name), *words]
    environment = {"ROOM": 1024 * size * "x"} if size else {}
    ended = subprocess.run(begin, env=environment, stdout=subprocess.PIPE, stderr=subprocess.DEVNULL, timeout=600, check=False)
    found = collections.Counter(ended.stdout.decode().split())
    assert found == {str(status): STARTS}, f"{dict(found)}"


def checks():
    pathlib.Path("known").touch()
    for line, most, status in LINES:
        shown = line.replace(f"{runner.TOP}/", "")
        for size in ENVIRONMENTS:
            row = line, most, status, size
            yield f"{shown} with {most} KB and an environment of {size} KB", lambda row=row: check_starts(*row)


runner.run(["example_files", "example_sums", "harness", "reports"], checks())
