"""What programs take: a run's seconds by its own word, those of the whole process, and its peak of memory in MB."""

import os
import re
import shlex
import subprocess
import sys
import tempfile
import time

TOLD = re.compile(r"make=([0-9.]+)s run=([0-9.]+)s .*VmHWM:([0-9]+)kB")


def words_of(program, *words):
    """Returns a command line: the program's path, the words, and then the program's own."""
    path, *own = shlex.split(program)
    return [path, *words, *own]


def write_to(target, words):
    """Runs a program whose output goes to /dev/null, or into a pipe that is read. Returns its seconds, and its standard error."""
    start = time.perf_counter()
    reader = None if target == "null" else subprocess.Popen(["cat"], stdin=subprocess.PIPE, stdout=subprocess.DEVNULL)
    output = reader.stdin if reader else subprocess.DEVNULL
    ended = subprocess.run(words, stdout=output, stderr=subprocess.PIPE, text=True, check=False)
    if reader:
        reader.communicate()
    seconds = time.perf_counter() - start
    if ended.returncode != 0:
        sys.exit(f"{shlex.join(words)}: status {ended.returncode}: {ended.stderr.strip()}")
    return seconds, ended.stderr


def run_tests(program, count, format_name, threads, target, folder):
    """Measures a run of trivial tests. The target may also be a logfile, in the folder."""
    words = words_of(program, str(count), format_name, str(threads))
    if target == "logfile":
        words += ["logfile", os.path.join(folder, "log")]
    whole, errors = write_to("pipe" if target == "pipe" else "null", words)
    told = TOLD.search(errors)
    if told is None:
        sys.exit(f"{shlex.join(words)}: {errors.strip()}")
    return float(told[2]), whole, int(told[3]) / 1024


def read_report(report, words):
    """Measures a program that has a report as standard input, or reads what its words name. All of it is in memory before."""
    for path in filter(os.path.isfile, [report, *words]):
        with open(path, "rb") as file:
            while file.read(1 << 20):
                pass
    with tempfile.NamedTemporaryFile() as peak, open(report, "rb") as given:
        timed = ["time", "--quiet", "--format", "%M", "--output", peak.name, *words]
        start = time.perf_counter()
        ended = subprocess.run(timed, stdin=given, stdout=subprocess.DEVNULL, check=False)
        seconds = time.perf_counter() - start
        if ended.returncode not in (0, 101):
            sys.exit(f"{shlex.join(words)} <{report}: status {ended.returncode}")
        return seconds, seconds, int(peak.read()) / 1024
