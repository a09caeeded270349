#!/usr/bin/env -S python3 -B
"""Looks at programs while they run: what they have read and written by then, how soon they end, and what they do without room.

    checks/live.py    prints a line for each check, and last `N passed, M failed`
"""

import json
import os
import pathlib
import re
import resource
import signal
import subprocess
import threading
import time

import runner

MANY = 20_000
# As many characters in each column of a line of Unicode's take longer than thousands of short lines.
LONG = 4_000_000
# Words of harness, for how many bytes of its output there is room, and the status.
ROOM = [("--list a", "all", 0), ("--list a", "all but one", 1), ("--exact cat", 20, 1), ("--list --help", 0, 0)]


def started(line, **streams):
    """Starts a program by its name and words."""
    return subprocess.Popen([runner.program(line[0]), *line[1:]], **streams)


def check_slow_screen():
    """While nobody reads what is shown, little more than a MiB is read of the report, and all of it later."""
    rows = "".join(
        f'{{ "type": "test", "event": "started", "name": "{place}" }}\n'
        f'{{ "type": "test", "name": "{place}", "event": "failed", "stdout": "Error: \\"{200 * "x"}\\"\\n" }}\n'
        for place in range(MANY)
    )
    counts = f'"passed": 0, "failed": {MANY}, "ignored": 0, "measured": 0, "filtered_out": 0, "exec_time": 0'
    title = f'{{ "type": "suite", "event": "started", "test_count": {MANY} }}\n'
    text = (title + rows + f'{{ "type": "suite", "event": "failed", {counts} }}\n').encode()
    written = 0

    def feed(file):
        nonlocal written
        with file:
            for at in range(0, len(text), 4096):
                file.write(text[at : at + 4096])
                written = at

    with started(["reports", "watch"], stdin=subprocess.PIPE, stdout=subprocess.PIPE, bufsize=0) as process:
        feeder = threading.Thread(target=feed, args=[process.stdin], daemon=True)
        feeder.start()
        time.sleep(1)
        read = written
        watchdog = threading.Timer(60, process.kill)
        watchdog.start()
        shown = process.stdout.read() if read < 4 << 20 < len(text) else b""
        watchdog.cancel()
        process.kill()
        feeder.join()
    assert shown.count(b"FAILED ") == MANY and f"; {MANY} failed; ".encode() in shown, f"{read} of {len(text)}, {len(shown)}"


def check_waiting_input():
    """An input that doesn't block, and has nothing yet, is asked again."""
    report = runner.ended("example_sums --format json --test-threads 1".split())[1]
    wanted = runner.ended(["reports", "watch"], input=report)
    reader, writer = os.pipe()
    os.set_blocking(reader, False)
    with started(["reports", "watch"], stdin=reader, stdout=subprocess.PIPE, encoding="utf-8") as process:
        os.close(reader)
        for line in report.splitlines(keepends=True):
            time.sleep(0.05)
            os.write(writer, line.encode())
        os.close(writer)
        shown, _ = process.communicate(timeout=60)
    assert (process.returncode, shown, "") == wanted and shown, f"{process.returncode}, {shown!r}"


def check_own_times():
    """A trial's time is its own, also if it ends after those behind it."""
    out = runner.ended("bench_suite 9 json 2 uneven one report_time 1".split())[1]
    times = {row["name"]: row["exec_time"] for row in map(json.loads, out.splitlines()[1:-1]) if "exec_time" in row}
    long = [name for name, seconds in times.items() if seconds >= 1]
    assert len(times) == 9 and long == ["test_000004"], f"{times}"


def behind_long(count):
    """Returns how many of this number of trials end after the first, which takes long."""
    column = " ".join(LONG * ["0041"])
    lines = 5 * f"{column};" + " # long\n" + (count - 1) * "0041;0041;0041;0041;0041; # A\n"
    pathlib.Path("lines").write_text(lines, encoding="utf-8")
    status, out, _ = runner.ended("conformance normalization lines -- --format json --test-threads 2".split())
    os.remove("lines")
    names = [row["name"] for row in map(json.loads, out.splitlines()[1:-1]) if row["event"] == "ok"]
    assert (status, len(names)) == (0, count), f"{status}, {len(names)}"
    return count - 1 - names.index("line 1: long")


def check_batches(count, most):
    """A trial that takes long holds up no more than what its worker has taken with it, unless the machine holds the other worker up."""
    tries = []
    while min(tries, default=count) > most and len(tries) < 5:
        tries.append(behind_long(count))
    assert min(tries) <= most, f"{tries}"


def check_one_write():
    """A line that a pipe takes at once is one write. Of this pipe each read takes what one write put."""
    reader, writer = os.pipe2(os.O_DIRECT)
    cause = "reports: {}: File name too long (os error 36)\n"
    line = cause.format((4096 - len(cause.format(""))) * "x")
    status, *_ = runner.ended(["reports", "show", line.split(": ")[1]], stderr=writer)
    os.close(writer)
    with os.fdopen(reader, "rb", buffering=0) as printed:
        assert (status, printed.read(8192)) == (1, line.encode()), f"{status}"


def check_logfile():
    """A row is in the logfile when its trial has ended."""
    file = pathlib.Path("live")
    with started("bench_suite 3 json 1 wait 700 logfile live".split(), stderr=subprocess.DEVNULL) as process:
        rows = 0
        while rows == 0 and process.poll() is None:
            time.sleep(0.02)
            rows = file.read_text(encoding="utf-8").count('"event": "ok"') if file.exists() else 0
        is_running = process.poll() is None
    assert (rows, is_running) == (1, True), f"{rows}, {is_running}"


def check_quick_end():
    """A program ends when its trials have, and doesn't wait for the thread that looks for slow ones."""
    times = []
    for _ in range(3):
        begun = time.monotonic()
        runner.ended(["example_sums"])
        times.append(time.monotonic() - begun)
    assert min(times) < 0.5, f"{times}"


def check_full_pipe():
    """While nobody reads standard error, which is full, the run ends all the same. Then bench_suite prints its own line there, which
    has the seconds that the run took, and waits with it."""
    reader, writer = os.pipe()
    os.set_blocking(writer, False)
    try:
        while True:
            os.write(writer, b"x")
    except BlockingIOError:
        os.set_blocking(writer, True)
    with started("bench_suite 4 json 1 wait 50 slow_limit 10".split(), stdout=subprocess.PIPE, stderr=writer) as process:
        os.close(writer)
        begun = time.monotonic()
        rows = [json.loads(process.stdout.readline()) for _ in range(10)]
        took = time.monotonic() - begun
        time.sleep(2)
        with os.fdopen(reader, encoding="utf-8") as printed:
            ran = re.search(r" run=(\d+\.\d+)s ", printed.read())
    events = [row["event"] for row in rows]
    assert process.returncode == 0 and events == ["started", *4 * ["started", "ok"], "ok"], f"{process.returncode}, {events}"
    assert took < 1 and ran and float(ran[1]) < 1, f"{took}, {ran}"


def check_room(words, room, status):
    """What there is no room for isn't printed."""
    whole = runner.ended(["harness", *words])[1]
    most = {"all": len(whole), "all but one": len(whole) - 1}.get(room, room)

    def limit():
        signal.signal(signal.SIGXFSZ, signal.SIG_IGN)
        resource.setrlimit(resource.RLIMIT_FSIZE, (most, most))

    with open("out", "wb") as out:
        ended, _, said = runner.ended(["harness", *words], stdout=out, preexec_fn=limit)
    got = pathlib.Path("out").read_text(encoding="utf-8")
    wanted = status, "harness: cannot write the report\n" if status == 1 else "", whole[:most]
    assert whole and (ended, said, got) == wanted, f"{ended}, {said!r}, {got!r}"


def checks():
    yield "reports watch on a screen that nobody reads", check_slow_screen
    yield "reports watch of an input that doesn't block", check_waiting_input
    yield "times of trials of two threads", check_own_times
    # Two workers take single trials if each has fewer than 128, and up to 32 at once of many.
    for count, most in (255, 0), (5_000, 31):
        yield f"a long trial before {count - 1}", lambda row=(count, most): check_batches(*row)
    yield "a line of 4096 bytes", check_one_write
    yield "a logfile while trials run", check_logfile
    yield "the end of example_sums", check_quick_end
    yield "a full pipe that nobody reads", check_full_pipe
    for words, room, status in ROOM:
        row = words.split(), room, status
        yield f"harness {words} and room for {room} bytes", lambda row=row: check_room(*row)


runner.run(["bench_suite", "conformance", "example_sums", "harness", "reports"], checks())
