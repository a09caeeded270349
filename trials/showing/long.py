"""Long reports, and how long programs take over them."""

import os
import statistics
import subprocess
import time

from hostile import EVENTS, Row, lines_of_row, summary, title

ROUNDS = 3
MESSAGE = "assertion `left == right` failed\n  left: <4> & \"4\"\n right: 5\u0001"
# Of ten rows one failed with a message and one without, one is ignored, and one measured.
TENTH = [("failed", (), MESSAGE), ("failed", (), None), ("ignored", (), None), ("measured", (1200, 34), None)]
TENTH += 6 * [("ok", (), None)]


def rows_of(count):
    """Yields the rows of a report of this number."""
    for number in range(count):
        yield Row("kind" if number % 2 else "", f"test_{number:06}", *TENTH[number % 10])


def write(file, rows):
    """Writes a report of this number of rows."""
    counts = {event: rows // 10 * sum(row[0] == event for row in TENTH) for event in EVENTS}
    with open(file, "w", encoding="utf-8", newline="\n") as out:
        out.write(title(rows))
        for row in rows_of(rows):
            out.writelines(lines_of_row(row))
        out.write(summary(counts, 0, 1_500_000_000))


def measure(words, given, output=os.devnull):
    """Returns the seconds that a program took, its peak of memory in MB, and its status."""
    with open(given, "rb") as data, open(output, "wb") as out:
        start = time.perf_counter()
        process = subprocess.Popen(words, stdin=data, stdout=out)
        _, status, usage = os.wait4(process.pid, 0)
        taken = time.perf_counter() - start
    process.returncode = os.waitstatus_to_exitcode(status)
    return taken, usage.ru_maxrss / 1024, process.returncode


def measured(programs, given):
    """Measures the programs in turn. Yields that each ends with 0, and returns the medians of its seconds and of its peaks."""
    rounds = [[measure(words, given) for words in programs.values()] for _ in range(ROUNDS)]
    medians = {}
    for name, column in zip(programs, zip(*rounds)):
        times, peaks, statuses = zip(*column)
        medians[name] = statistics.median(times), statistics.median(peaks)
        yield f"{name} ends with 0", statuses, ROUNDS * (0,)
        print(f"{name}: best {min(times):.3f} s, median {medians[name][0]:.3f} s, peak {medians[name][1]:.1f} MB")
    return medians
