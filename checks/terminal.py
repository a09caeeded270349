#!/usr/bin/env -S python3 -B
"""Runs `reports` on terminals: its colours, the lines of how far a run is, and a report that ends as a terminal does that is gone.

    checks/terminal.py    prints a line for each check, and last `N passed, M failed`
"""

import os
import pathlib
import pty
import re
import select
import subprocess
import time
import tty

import runner

HOSTILE = runner.TOP / "checks" / "transcripts" / "junit" / "hostile.json"
GONE = "Input/output error (os error 5)"
SUMS = r"""{ "type": "suite", "event": "started", "test_count": 3 }
{ "type": "test", "event": "started", "name": "1 + 1" }
{ "type": "test", "name": "1 + 1", "event": "ok" }
{ "type": "test", "event": "started", "name": "2 + 2" }
{ "type": "test", "name": "2 + 2", "event": "failed", "stdout": "Error: \"assertion `left == right` failed\n  left: 4\n right: 5\"\n" }
{ "type": "test", "event": "started", "name": "7 + 0" }
{ "type": "test", "name": "7 + 0", "event": "ok" }
{ "type": "suite", "event": "failed", "passed": 2, "failed": 1, "ignored": 0, "measured": 0, "filtered_out": 0, "exec_time": 0 }
"""
KILLED = "".join(SUMS.splitlines(keepends=True)[:6])
SHOWN = """
running 3 tests
test 1 + 1 ... ok
test 2 + 2 ... FAILED
test 7 + 0 ... ok

failures:

---- 2 + 2 ----
assertion `left == right` failed
  left: 4
 right: 5


failures:
    2 + 2

test result: FAILED. 2 passed; 1 failed; 0 ignored; 0 measured; 0 filtered out; finished in 0.00s

"""
# Characters from U+0080 to U+009F in kinds, names and a message, which also has what looks like one by number, a colour, and others
# that stay: a tab, U+007F and U+00A0.
CONTROLS = SUMS.replace('"2 + 2"', '"2\x9b2", "kind": "\x80"').replace('"7 + 0"', '"7\x9f0", "kind": "\x80"')
CONTROLS = CONTROLS.replace("left: 4", "\\u001b[1mleft\\u001b[0m:\\t\\\\u{9b}\x9f\x7f\xa0")
CONTROLS_SHOWN = """
running 3 tests
test          1 + 1    ... ok
test [\\u{80}] 2\\u{9b}2 ... FAILED
test [\\u{80}] 7\\u{9f}0 ... ok

failures:

---- 2\\u{9b}2 ----
assertion `left == right` failed
  \x1b[1mleft\x1b[0m:\t\\u{5c}u{9b}\\u{9f}\x7f\xa0
 right: 5


failures:
    2\\u{9b}2

test result: FAILED. 2 passed; 1 failed; 0 ignored; 0 measured; 0 filtered out; finished in 0.00s

"""
CUT = CONTROLS[: CONTROLS.rindex("{")]
CUT_SHOWN = CONTROLS_SHOWN[: CONTROLS_SHOWN.index("\ntest result:")] + "\nthe report ends after 3 of 3 trials\n"
FAILURES = CONTROLS_SHOWN[CONTROLS_SHOWN.index("\nfailures:") : CONTROLS_SHOWN.index("\ntest result:")]
FAILURES = FAILURES.replace("2\\u{9b}2", "[\\u{80}] 2\\u{9b}2")
WATCHED = "FAILED 2 + 2\n    assertion `left == right` failed\n      left: 4\n     right: 5\n"


def coloured(shown):
    return shown.replace(" ok", " \x1b[32mok\x1b[0m").replace(" FAILED", " \x1b[31mFAILED\x1b[0m")


# Words of `reports show`, settings, a report, and what a terminal shows. If the report is cut, that is said, too, with status 1.
SHOWS = [
    ("sums", {"TERM": "xterm"}, SUMS, coloured(SHOWN)),
    ("sums", {"TERM": "xterm", "NO_COLOR": ""}, SUMS, coloured(SHOWN)),
    ("sums", {"TERM": "xterm", "NO_COLOR": "1"}, SUMS, SHOWN),
    ("sums", {"TERM": "dumb"}, SUMS, SHOWN),
    ("sums", {}, SUMS, SHOWN),
    ("--color always sums", {"TERM": "xterm"}, SUMS, coloured(SHOWN)),
    ("--color never sums", {"TERM": "xterm"}, SUMS, SHOWN),
    ("controls", {"TERM": "xterm"}, CONTROLS, coloured(CONTROLS_SHOWN)),
    ("controls", {"TERM": "dumb"}, CONTROLS, CONTROLS_SHOWN),
    ("--color never controls", {"TERM": "xterm"}, CONTROLS, CONTROLS_SHOWN),
    ("--failed controls", {"TERM": "xterm"}, CONTROLS, FAILURES),
    ("cut", {"TERM": "dumb"}, CUT, CUT_SHOWN, 1, "reports: cut: the report is cut\n"),
]


def on_terminal(words, settings, given):
    """Runs `reports` on a terminal, and returns its status, what the terminal gets, and standard error. `given` takes a file to
    write to, which the program reads from, and a call that waits until the terminal has got a text."""
    (screen, out), (writer, reader) = pty.openpty(), pty.openpty()
    for end in (out, reader):
        tty.setraw(end)
    env = {name: value for name, value in os.environ.items() if name not in ("NO_COLOR", "COLUMNS", "TERM")}
    got = b""

    def wait_for(text):
        nonlocal got
        end = time.monotonic() + 30
        while text not in got and time.monotonic() < end:
            try:
                got += os.read(screen, 65_536) if select.select([screen], [], [], 0.1)[0] else b""
            except OSError:
                return

    line = [runner.program("reports"), *words]
    with subprocess.Popen(line, env={**env, **settings}, stdin=writer, stdout=out, stderr=subprocess.PIPE) as process:
        os.close(out)
        os.close(writer)
        given(reader, wait_for)
        os.close(reader)
        wait_for(b"no such text")
        said = process.stderr.read()
    os.close(screen)
    return process.returncode, got.decode(), said.decode()


def check_show(words, settings, report, shown, status=101, said=""):
    words = words.split()
    pathlib.Path(words[-1]).write_text(report, encoding="utf-8")
    found = on_terminal(["show", *words], settings, lambda *_: None)
    assert found == (status, shown, said), f"{found!r}"


def check_live():
    """The lines of how far a run is go on while nothing ends, and are gone after a fault."""

    def feed(reader, wait_for):
        os.write(reader, KILLED.encode())
        wait_for(b"waiting 3s for 7 + 0")

    status, shown, said = on_terminal(["watch", "--columns", "39"], {"TERM": "xterm", "COLUMNS": "9"}, feed)
    lines = [shown.find(f"waiting {seconds}s for 7 + 0") for seconds in (2, 3)]
    is_gone = shown.rfind("\x1b[J") > shown.rfind("waiting")
    assert (status, said, min(lines) > 0, is_gone) == (1, f"reports: {GONE}\n", True, True), f"{status}, {shown!r}, {said!r}"


def check_dumb():
    """A terminal without escapes has no such lines."""
    found = on_terminal(["watch"], {"TERM": "dumb"}, lambda reader, _: os.write(reader, KILLED.encode()))
    assert found == (1, WATCHED, f"reports: {GONE}\n"), f"{found!r}"


def check_gone(count):
    """Of a report whose reader fails, the rows that had ended are in JUnit's XML, as if the report were cut."""
    lines = HOSTILE.read_text(encoding="utf-8").splitlines(keepends=True)
    cut = runner.ended(["reports", "junit", "-"], input="".join(lines[: min(count, len(lines) - 1)]))[1]
    reader, writer = pty.openpty()
    tty.setraw(writer)
    os.write(writer, "".join(lines[:count]).encode())
    os.close(writer)
    found = runner.ended(["reports", "junit", "-"], stdin=reader)
    os.close(reader)
    wanted = re.sub('<error type="incomplete" message="[^"]*"/>', f'<error type="unreadable" message="{GONE}"/>', cut)
    assert "unreadable" in wanted and found == (1, wanted, f"reports: -: {GONE}\n"), f"{found!r} and not {wanted!r}"


def checks():
    for row in SHOWS:
        yield f"reports show {row[0]} on a terminal with {row[1]}", lambda row=row: check_show(*row)
    yield "reports watch on a terminal", check_live
    yield "reports watch on a terminal without escapes", check_dumb
    for count in range(17):
        yield f"reports junit of a terminal that is gone after {count} lines", lambda count=count: check_gone(count)


runner.run(["reports"], checks())
