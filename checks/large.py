#!/usr/bin/env -S python3 -B
"""Gives programs what is large: runs and reports of many trials, long lines, and inputs without an end.

    checks/large.py    prints a line for each check, and last `N passed, M failed`

A program that says of these that there is no memory would meet its contract.
"""

import os
import pathlib
import resource
import shlex
import subprocess
import threading
import time

import runner

# What readreport may take for an input of any length.
MOST_BYTES = 32 << 20
# A second thread's stack is 8 MB, and what an allocator reserves for it 64 MB more.
MOST_OF_TWO = 128 << 20
MANY = 110_000
# A page of as many rows takes some 150 MB.
LISTED = 1_100_000
MOST_OF_PAGE = 256 << 20
# More than any number in the code that could end a loop.
STREAMED = 3_000_000
# More than 16 bits count.
CASES = 66_000


def title(count):
    return f'{{ "type": "suite", "event": "started", "test_count": {count} }}\n'


def rows(trials):
    """Returns the lines of trials: of each its name, and what its row has behind that."""
    line = '{{ "type": "test", "event": "started", "name": "{0}" }}\n{{ "type": "test", "name": "{0}", "event": {1} }}\n'
    return "".join(line.format(name, end) for name, end in trials)


def summary(passed, failed):
    counts = f'"passed": {passed}, "failed": {failed}, "ignored": 0, "measured": 0, "filtered_out": 0, "exec_time": 0'
    return f'{{ "type": "suite", "event": "{"failed" if failed else "ok"}", {counts} }}\n'


def report(trials):
    """Returns the report of these trials."""
    failed = sum(end.startswith('"failed"') for _, end in trials)
    return title(len(trials)) + rows(trials) + summary(len(trials) - failed, failed)


# A line, its status, and how often this text is in what is printed.
LARGE = [
    ("bench_suite 200000 json 2", 0, '"event": "ok" }', 200_000),
    ("reports junit many", 0, "<testcase ", MANY),
    ("reports join --equal-names --shards 1 many", 101, '"event": "ok", ', MANY - 1),
    ("reports show many", 101, "... ok", MANY - 1),
    ("reports page many", 0, "<li id=", MANY),
    (f"reports slowest -n {MANY} many", 0, "\n", MANY),
    ("reports known many", 0, '"event": "failed"', 1),
    ("reports expect /dev/null many", 101, f"failed: {MANY - 1}\n", 1),
    ("reports compare many many", 0, f" 1 still failing; {MANY - 1} unchanged; ", 1),
    ("example_sums --format json --exact '1 + 1' " + 999 * "x ", 0, '"event": "ok" }', 1),
    ("example_files cases -- --list", 0, ": test\n", CASES),
    ("example_files pair -- --format json", 101, f"pair.out: line {CASES} differs", 1),
    ("conformance normalization lines -- --list", 0, ": test\n", CASES),
]
# Calls that keep no row of those that passed, and the end of what they print of a report in which all passed.
STREAMING = [
    ("readreport", f"{STREAMED} trials: {STREAMED} passed; 0 failed; 0 ignored; 0 measured; 0 filtered out; 0 ns\n"),
    ("reports known -", ""),
    ("reports expect /dev/null -", "\n"),
    ("reports watch", f"test result: ok. {STREAMED} passed; 0 failed; 0 ignored; 0 measured; 0 filtered out; finished in 0.00s\n\n"),
]
# Calls of reports that read standard input as a report, of which the last one stands for itself.
READING = ["show -", "show --failed -", "junit -", "known -", "expect /dev/null -", "compare - none", "compare none -"]
READING += ["page -", "slowest -", "join --shards 1 -", "join --cut --shards 1 -", "watch"]
# Inputs that are no report.
NO_REPORTS = {"a line of 100 MB": 100_000_000 * "\0", "two reports": 2 * report(300_000 * [("a", '"ok"')])}


def limited(most):
    """Returns a call that limits the memory of a process."""
    return lambda: resource.setrlimit(resource.RLIMIT_AS, (most, most))


def check_large(line, status, text, count):
    found = runner.ended(shlex.split(line))
    assert (found[0], found[1].count(text)) == (status, count), f"{found[0]}, {found[1].count(text)}, {found[2]}"


def check_streamed(line, end):
    """All rows of a long report are read."""
    program, *words = line.split()
    piece = rows(10_000 * [("a", '"ok", "exec_time": 1')]).encode()
    with subprocess.Popen([runner.program(program), *words], stdin=subprocess.PIPE, stdout=subprocess.PIPE) as process:
        process.stdin.write(title(STREAMED).encode())
        for _ in range(STREAMED // 10_000):
            process.stdin.write(piece)
        process.stdin.write(summary(STREAMED, 0).encode())
        out = process.communicate(timeout=60)[0].decode()
    assert process.returncode == 0 and out.endswith(end), f"{process.returncode}, {out!r}"


def check_page():
    """A page lists as many rows as are asked for, and takes memory for them alone."""
    piece = title(LISTED).encode()
    with open("listed", "wb") as file:
        for first in range(0, LISTED, 10_000):
            file.write(piece)
            piece = rows((place, '"ok"') for place in range(first, first + 10_000)).encode()
        file.write(piece + summary(LISTED, 0).encode())
    with open("page", "wb") as page:
        line = ["reports", "page", "--rows", str(LISTED), "listed"]
        status, _, said = runner.ended(line, stdout=page, preexec_fn=limited(MOST_OF_PAGE))
    with open("page", encoding="utf-8") as page:
        count = sum(line.count("<li id=") for line in page)
    os.remove("listed")
    os.remove("page")
    assert (status, count) == (0, LISTED), f"{status}, {count}, {said}"


def check_no_report(text):
    found = runner.ended(["readreport"], input=text, preexec_fn=limited(MOST_BYTES))
    assert found == (1, "", "not a report\n"), f"{found!r}"


def check_endless_line(words):
    """A first line without an end is refused before it fills the memory."""
    place = "" if words == "watch" else "-: "
    status, _, said = runner.ended(["reports", *words.split()], input=100_000_000 * "\0", preexec_fn=limited(MOST_OF_TWO))
    assert (status, said) == (1, f"reports: {place}its first line is too long for a report\n"), f"{status}, {said!r}"


def check_endless_pieces(words):
    """The same, if it comes in small pieces, each after the one before was read."""
    place = "" if words == "watch" else "-: "
    streams = {"stdin": subprocess.PIPE, "stdout": subprocess.DEVNULL, "stderr": subprocess.PIPE, "bufsize": 0}
    with subprocess.Popen([runner.program("reports"), *words.split()], **streams) as process:
        try:
            for _ in range(60):
                process.stdin.write(bytes(100))
                runner.wait_until_read(process.stdin)
            process.stdin.close()
        except BrokenPipeError:
            pass
        said = process.stderr.read().decode()
        process.wait(timeout=60)
    wanted = 1, f"reports: {place}its first line is too long for a report\n"
    assert (process.returncode, said) == wanted, f"{process.returncode}, {said!r}"


def check_late_rest():
    """Behind a wrong line `watch` reads what comes later, too, so that no pipe is closed on the harness."""
    streams = {"stdin": subprocess.PIPE, "stdout": subprocess.DEVNULL, "stderr": subprocess.DEVNULL, "bufsize": 0}
    with subprocess.Popen([runner.program("reports"), "watch"], **streams) as process:
        watchdog = threading.Timer(60, process.kill)
        watchdog.start()
        process.stdin.write(b"what\n")
        time.sleep(0.5)
        process.stdin.write(3_000_000 * b"\n")
        process.stdin.close()
        process.wait()
        watchdog.cancel()
    assert process.returncode == 1, f"{process.returncode}"


def check_stops_reading(words):
    """Behind a wrong line nothing more is read than one piece."""
    streams = {"stdin": subprocess.PIPE, "stdout": subprocess.DEVNULL, "stderr": subprocess.DEVNULL, "bufsize": 0}
    pieces = 0
    with subprocess.Popen([runner.program("reports"), *words.split()], **streams) as process:
        try:
            for _ in range(1000):
                process.stdin.write(13_107 * b"what\n")
                pieces += 1
            process.stdin.close()
        except BrokenPipeError:
            pass
        process.wait(timeout=60)
    assert (process.returncode, pieces < 10) == (1, True), f"{process.returncode}, {pieces}"


def check_long_input():
    """Of a report that is too long to be kept, the rows before are in the XML, and an error for the rest. A file is read as it is.

    The other calls that keep rows refuse the rest, too.
    """
    said = '"failed", "stdout": "Error: \\"' + 2**20 * "x" + '\\"\\n"'
    text = title(258) + 258 * rows([("", said)])
    pathlib.Path("long").write_text(text, encoding="utf-8")
    for words, kept, cause in (("-", range(254, 257), "too long to be kept"), ("long", range(258, 259), "")):
        status, out, err = runner.ended(["reports", "junit", "--name", "n", words], input=text)
        count = out.count("<failure ")
        assert status == 1 and count in kept and cause in err and out.count("<error ") == 1, f"{count}, {err}"
    for words in ("page", "show", "slowest"):
        status, _, err = runner.ended(["reports", words, "-"], input=text)
        assert status == 1 and "too long to be kept" in err, f"{words}: {status}, {err}"
    os.remove("long")


def write_cases():
    """Makes a folder of many cases, a case of many lines, of which the last is wrong, and a suite of many lines."""
    for folder in ("cases", "pair"):
        os.mkdir(folder)
    for place in range(CASES):
        pathlib.Path("cases", f"{place}.in").touch()
    lines = (CASES - 1) * "A\n"
    pathlib.Path("pair", "pair.in").write_text(lines + "b\n", encoding="utf-8")
    pathlib.Path("pair", "pair.out").write_text(lines + "A\n", encoding="utf-8")
    pathlib.Path("lines").write_text(CASES * "0041;0041;0041;0041;0041; # A\n", encoding="utf-8")


def checks():
    last = MANY - 1
    trials = [(place, ('"failed"' if place == last else '"ok"') + ', "exec_time": 1') for place in range(MANY)]
    pathlib.Path("many").write_text(report(trials), encoding="utf-8")
    pathlib.Path("none").write_text(report([]), encoding="utf-8")
    write_cases()
    for line, *rest in LARGE:
        yield line[:60], lambda line=line, rest=rest: check_large(line, *rest)
    for line, end in STREAMING:
        yield f"{line} of {STREAMED} rows", lambda line=line, end=end: check_streamed(line, end)
    yield f"reports page --rows {LISTED} of as many", check_page
    for name, text in NO_REPORTS.items():
        yield f"readreport of {name}", lambda text=text: check_no_report(text)
    for words in READING:
        yield f"reports {words} of a first line without an end", lambda words=words: check_endless_line(words)
    for words in ("show -", "watch"):
        yield f"reports {words} of such a line in pieces", lambda words=words: check_endless_pieces(words)
    yield "reports watch of what comes late behind a wrong line", check_late_rest
    for words in READING[:-1]:
        yield f"reports {words} behind a wrong line", lambda words=words: check_stops_reading(words)
    yield "reports of a long report", check_long_input


runner.run(["bench_suite", "conformance", "example_files", "example_sums", "readreport", "reports"], checks())
