#!/usr/bin/env -S python3 -B
"""Counts how often bench_suite asks for memory, looks at the peak that it prints, and refuses memory of `reports watch`.

    checks/memory.py    prints a line for each check, and last `N passed, M failed`
"""

import contextlib
import os
import re
import select
import subprocess
import sys
import tempfile

import runner

FORMATS, TIMES = ("pretty", "json", "terse"), ("", " report_time 1")
# Runs of many tests, and how often each of them asks for memory. A failing test asks for its message, and a worker to copy that.
ASKING = [(f"{form} {threads}{times}", 0) for form in FORMATS for threads in (1, 2) for times in TIMES]
ASKING += [("pretty 2 dealt 1", 0), ("json 1 fail_every 1", 1), ("json 2 fail_every 1", 2)]
FEW, MORE = 1000, 5000
# Tables that grow ask some more times.
GROWTH = 60
# What `reports watch` prints without memory. If its thread can't be started, it doesn't know why.
CAUSES = r"(reports|error): .*out of memory\n|reports: failed to spawn thread\n"
# A report in two parts. `reports watch` prints a line of the first.
PARTS = [
    b'{ "type": "suite", "event": "started", "test_count": 1 }\n'
    b'{ "type": "test", "event": "started", "name": "a" }\n'
    b'{ "type": "test", "name": "a", "event": "failed" }\n',
    b'{ "type": "suite", "event": "failed", "passed": 0, "failed": 1, "ignored": 0, "measured": 0, "filtered_out": 0, '
    b'"exec_time": 0 }\n',
]


def requests(shim, words):
    """Returns how often bench_suite asked for memory over these words."""
    reader, writer = os.pipe()
    settings = {**os.environ, "LD_PRELOAD": shim, "COUNTED": str(writer)}
    runner.ended(["bench_suite", *words.split()], env=settings, pass_fds=[writer])
    os.close(writer)
    with os.fdopen(reader) as counted:
        return int(counted.read())


def check_requests(shim, words, most):
    """Running a test, and writing its row, asks for no memory. With no threads the tests are made, and not run."""
    form, _, *more = words.split()
    made = [requests(shim, f"{count} {form} 0 {' '.join(more)}") for count in (FEW, MORE)]
    ran = [requests(shim, f"{count} {words}") for count in (FEW, MORE)]
    grown = (ran[1] - ran[0]) - (made[1] - made[0])
    assert most * (MORE - FEW) <= grown <= most * (MORE - FEW) + GROWTH, f"{made}, {ran}"


def check_peak():
    """The peak of memory that bench_suite prints is that of its process."""
    # A process begins with the peak of the one that starts it, so that one is small.
    start = "import resource, subprocess, sys; subprocess.run(sys.argv[1:], stdout=2); "
    start += "print(resource.getrusage(resource.RUSAGE_CHILDREN).ru_maxrss)"
    line = [sys.executable, "-c", start, runner.program("bench_suite"), *"200000 json 2 logfile peak".split()]
    ended = subprocess.run(line, capture_output=True, encoding="utf-8", timeout=60, check=True)
    printed = int(re.search(r"VmHWM:(\d+)kB", ended.stderr)[1])
    assert 20_000 < printed and 0.95 < printed / int(ended.stdout) < 1.05, f"{ended.stdout}, {ended.stderr}"


def watched(shim, number):
    """Returns the status and standard error of `reports watch` if this request was refused, and whether there was one."""
    reader, writer = os.pipe()
    settings = {**os.environ, "LD_PRELOAD": shim, "REFUSED": str(number), "TOLD": str(writer)}
    streams = {"stdin": subprocess.PIPE, "stdout": subprocess.PIPE, "stderr": subprocess.PIPE, "bufsize": 0}
    with subprocess.Popen([runner.program("reports"), "watch"], env=settings, pass_fds=[writer], **streams) as process:
        os.close(writer)
        with contextlib.suppress(BrokenPipeError):
            process.stdin.write(PARTS[0])
        # The second part is read after the first was shown.
        select.select([process.stdout, process.stderr], [], [], 60)
        _, said = process.communicate(PARTS[1], timeout=60)
    with os.fdopen(reader, "rb") as told:
        return (process.returncode, said.decode()), told.read() != b""


def check_refusals(shim):
    """Whichever request is refused, of either thread, `reports watch` shows the report or says why it doesn't."""
    ample, _ = watched(shim, 0)
    ends, was_refused = [], True
    while was_refused:
        end, was_refused = watched(shim, len(ends) + 1)
        ends.append(end)
    odd = [(status, said) for status, said in ends if (status, said) != ample and not (status == 1 and re.fullmatch(CAUSES, said))]
    assert ample == (101, "") and len(ends) > 100 and not odd, f"{ample}, {len(ends)}, {odd}"


def checks(shim):
    for words, most in ASKING:
        yield f"bench_suite N {words}", lambda words=words, most=most: check_requests(shim, words, most)
    yield "the peak of bench_suite", check_peak
    yield "reports watch without memory", lambda: check_refusals(shim)


with tempfile.TemporaryDirectory() as folder:
    runner.run(["bench_suite", "reports"], checks(runner.shim("refuse_memory", folder)))
