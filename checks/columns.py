#!/usr/bin/env -S python3 -B
"""Looks at how `reports watch` takes the settings of a terminal: its width, whether it knows escapes, and colours.

    checks/columns.py    prints a line for each check, and last `N passed, M failed`
"""

import os
import pty
import re
import select
import subprocess
import time
import tty

import runner

NAME = 100 * "x"
BEGUN = f"""{{ "type": "suite", "event": "started", "test_count": 3 }}
{{ "type": "test", "event": "started", "name": "a" }}
{{ "type": "test", "name": "a", "event": "failed" }}
{{ "type": "test", "event": "started", "name": "{NAME}" }}
"""
ESCAPE = re.compile(r"\x1b\[[0-9;]*[A-Za-z]")
RED = "\x1b[31m"


def watched(settings, is_terminal, seconds):
    """Returns what `reports watch` shows of a run that waits for this time for a trial with a long name."""
    screen, out = pty.openpty() if is_terminal else os.pipe()
    if is_terminal:
        tty.setraw(out)
    env = {name: value for name, value in os.environ.items() if name not in ("NO_COLOR", "COLUMNS", "TERM")}
    got, end = b"", time.monotonic() + seconds
    with subprocess.Popen(
        [runner.program("reports"), "watch"], env={**env, **settings}, stdin=subprocess.PIPE, stdout=out, stderr=subprocess.DEVNULL
    ) as process:
        os.close(out)
        process.stdin.write(BEGUN.encode())
        process.stdin.flush()
        while NAME[:9].encode() not in got and time.monotonic() < end:
            got += os.read(screen, 65_536) if select.select([screen], [], [], 0.1)[0] else b""
        process.stdin.close()
        process.wait(timeout=60)
    os.close(screen)
    return got.decode()


def check_width(settings, is_terminal, most):
    """The lines of how far the run is have this width."""
    shown = watched(settings, is_terminal, 20)
    widths = [len(line) for line in re.split("[\r\n]+", ESCAPE.sub("", shown)) if NAME[:9] in line]
    assert widths and set(widths) == {most}, f"{widths}, {shown!r}"


def check_escapes(settings, is_live, is_red):
    """Lines are drawn again where escapes are known, and rows have colours as a harness prints them there."""
    shown = watched(settings, True, 3)
    assert ("\x1b[J" in shown, RED in shown) == (is_live, is_red), f"{shown!r}"


def checks():
    rows = [({}, 39), ({"COLUMNS": "0"}, 39), ({"COLUMNS": "wide"}, 39), ({"COLUMNS": "50"}, 50)]
    for settings, most in rows:
        yield f"lines on a terminal with {settings}", lambda settings=settings, most=most: check_width(
            {"TERM": "xterm", **settings}, True, most
        )
    yield "lines in a log", lambda: check_width({}, False, 79)
    for settings, *rest in [({"TERM": "xterm"}, True, True), ({"TERM": "xterm", "NO_COLOR": "1"}, True, False)]:
        yield f"escapes on a terminal with {settings}", lambda settings=settings, rest=rest: check_escapes(settings, *rest)
    for settings, is_red in [({"TERM": ""}, True), ({"TERM": "dumb"}, False), ({}, False)]:
        row = settings, False, is_red
        yield f"no lines that are drawn again on a terminal with {settings}", lambda row=row: check_escapes(*row)


runner.run(["reports"], checks())
