#!/usr/bin/env -S python3 -B
"""Runs programs over a clock that is known, counts the threads that they start, and refuses them some.

    checks/clock.py    prints a line for each check, and last `N passed, M failed`

The K-th reading of the clock, from 0, is K * K milliseconds, so the next one is 2 * K + 1 more. Making the tests of bench_suite
lies between the readings 0 and 1, and running them between 2 and 3. The rounds of a benchmark lie between 1 and 2, 3 and 4, and so
on: the first takes 3 ms, and each of the other 49 takes 4 more than the one before.

With --report-time the clock is read before and after each trial, too. In bench_suite that is the run's own clock with one thread,
which stands or is the machine's, and with two the machine's. So the trial takes 9 ms and the run 27, between the readings 3 and 6,
or 7 ms if the readings 3 and 4 are the trial's or the run's alone.
"""

import json
import os
import re
import resource
import shlex
import shutil
import tempfile
import time

import runner

MEASURED = """
running 1 test
test [heap] time of 100 mixed ... bench: {} ns/iter (+/- 196,000,000)

test result: ok. 0 passed; 0 failed; 0 ignored; 1 measured; 17 filtered out; finished in {}s

"""
PRETTY = """
running 1 test
test test_000000 ... ok{}

test result: ok. 1 passed; 0 failed; 0 ignored; 0 measured; 0 filtered out; finished in {}s

"""
MESSAGE = r"Error: \"assertion `left == right` failed\n  left: 4\n right: 5\"\n"


def report(rows, took):
    """Returns the report in JSON of trials, of which each is a name and perhaps a time. The sum 2 + 2 fails."""
    lines = [f'{{ "type": "suite", "event": "started", "test_count": {len(rows)} }}\n']
    for name, *times in rows:
        fails = name == "2 + 2"
        ended = f'"event": "{"failed" if fails else "ok"}"' + "".join(f', "exec_time": {seconds}' for seconds in times)
        ended += f', "stdout": "{MESSAGE}"' if fails else ""
        lines.append(f'{{ "type": "test", "event": "started", "name": "{name}" }}\n')
        lines.append(f'{{ "type": "test", "name": "{name}", {ended} }}\n')
    failed = [name for name, *_ in rows].count("2 + 2")
    counts = f'"passed": {len(rows) - failed}, "failed": {failed}, "ignored": 0, "measured": 0, "filtered_out": 0'
    end = "failed" if failed else "ok"
    return "".join([*lines, f'{{ "type": "suite", "event": "{end}", {counts}, "exec_time": {took} }}\n'])


def one(took, *times):
    return report([("test_000000", *times)], took)


# More trials than 16 bits count.
MANY = 70_000
TIMED_SUMS = report([("1 + 1", "0.003"), ("2 + 2", "0.007"), ("7 + 0", "0.011")], "0.049")
# A program and its words, the status, what it prints, and the seconds that bench_suite prints of its run.
KNOWN = [
    ("example_sorts --bench --test-threads 1 --exact '[heap] time of 100 mixed'", 0, MEASURED.format("101,000,000", "10.20"), ""),
    # Between the readings before and after a benchmark each round is 2 ms longer.
    ("example_sorts --bench --report-time --test-threads 1 --exact '[heap] time of 100 mixed'", 0)
    + (MEASURED.format("103,000,000", "10.61"), ""),
    ("example_sums --report-time --format json --test-threads 1", 101, TIMED_SUMS, ""),
    ("bench_suite 1 json 1", 0, one("0"), "0.005"),
    ("bench_suite 1 json 1 report_time 1", 0, one("0", "0"), "0.005"),
    ("bench_suite 1 json 1 clock real", 0, one("0.007"), "0.021"),
    ("bench_suite 1 json 1 report_time 1 clock real", 0, one("0.027", "0.009"), "0.045"),
    ("bench_suite 1 json 2 report_time 1 clock real", 0, one("0.027", "0.009"), "0.045"),
    ("bench_suite 1 json 2 dealt 1 report_time 1 clock real", 0, one("0.027", "0.009"), "0.045"),
    ("bench_suite 1 json 2 report_time 1", 0, one("0", "0.007"), "0.021"),
    ("bench_suite 1 pretty 1 report_time 1 clock real", 0, PRETTY.format(" <0.009s>", "0.03"), "0.045"),
    ("bench_suite 1 pretty 1 report_time 1", 0, PRETTY.format(" <0.000s>", "0.00"), "0.005"),
    ("bench_suite 1 pretty 1 clock real", 0, PRETTY.format("", "0.01"), "0.021"),
]
# A program and its words, and how many threads it starts. Workers are by default four, and never more than there are selected trials.
# A program that runs some by its line has one thread more, which looks for slow trials; bench_suite has none without slow_limit.
# Before that it starts one in the place of each worker that the run needs: one of those that take from a queue, or all.
THREADS = [
    ("harness", 6),
    ("harness --test-threads 1", 1),
    ("harness --test-threads 7", 9),
    ("harness --test-threads 99", 19),
    ("harness --exact cat dog", 4),
    ("harness --list", 0),
    ("harness --list --test-threads 7", 0),
    ("harness zebra", 0),
    ("harness --test-threads 7 zebra", 0),
    ("bench_suite 9 json 1", 0),
    ("bench_suite 9 json 4", 4),
    ("bench_suite 3 json 99", 3),
    ("bench_suite 0 json 4", 0),
    ("bench_suite 9 json 1 dealt 1", 0),
    ("bench_suite 9 json 4 dealt 1", 4),
    ("bench_suite 3 json 99 dealt 1", 3),
    ("bench_suite 0 json 4 dealt 1", 0),
    ("bench_suite 9 json 4 slow_limit 0", 4),
    ("bench_suite 9 json 1 slow_limit 60000", 1),
    ("bench_suite 9 json 4 slow_limit 60000", 6),
    ("bench_suite 3 json 99 dealt 1 slow_limit 60000", 7),
]
# The same on a machine of so many processors, of a program whose workers are as many by default.
ON_PROCESSORS = [("example_sorts", 1, 1), ("example_sorts", 2, 4)]
# A name with control characters, ends of lines and what looks like one by number, which is longer than what is written at once, and
# how a line shows it. A line of Unicode's that has this name, and this number of characters in each column, takes a while.
HOSTILE = "a\x1b[31m\rb\x85\u2028\u2029\\u{7}" + 5000 * "x"
HOSTILE_SHOWN = r"a\u{1b}[31m\u{d}b\u{85}\u{2028}\u{2029}\u{5c}u{7}" + 5000 * "x"
SLOW = 500_000
# A user of whom no other program runs. Words of bench_suite, how many threads it may have at once beside its own, and whether slow
# trials are looked for then: only if there is room for a worker beside that, or for all if each has a share.
USER = 65_533
ROOM = [
    ("json 1", 1, True),
    ("json 4", 1, False),
    ("json 64", 1, False),
    ("json 4", 2, True),
    ("json 4 dealt 1", 4, False),
    ("json 4 dealt 1", 5, True),
]


def check_known(shim, line, status, out, run):
    told = rf"n=1 .* make=0\.001s run={re.escape(run)}s VmHWM:\d+kB\n" if run else ""
    found = runner.ended(line, env={**os.environ, "LD_PRELOAD": shim})
    assert found[:2] == (status, out) and re.fullmatch(told, found[2]), f"{found!r} and not {(status, out, told)!r}"


def check_threads(shim, line, count, processors=None):
    reader, writer = os.pipe()
    given = sorted(os.sched_getaffinity(0))[:processors]
    settings = {"pass_fds": [writer], "preexec_fn": lambda: os.sched_setaffinity(0, given)}
    runner.ended(line, env={**os.environ, "LD_PRELOAD": shim, "THREADS": str(writer)}, **settings)
    os.close(writer)
    with os.fdopen(reader, "rb") as started:
        threads = len(started.read())
    assert threads == count, f"{threads} threads"


def check_notice(shim):
    """A slow trial is named in one line, whatever its name has, and however long it is."""
    column = " ".join(SLOW * ["0041"])
    with open("slow", "w", encoding="utf-8") as file:
        file.write(5 * f"{column};" + f" # {HOSTILE}\n")
    line = "conformance normalization slow -- --test-threads 1".split()
    status, _, err = runner.ended(line, env={**os.environ, "LD_PRELOAD": shim, "HASTE": "1"})
    os.remove("slow")
    shown = f"conformance: [normalization] line 1: {HOSTILE_SHOWN} has been running for over 60 seconds\n"
    assert (status, err) == (0, shown), f"{status}, {err!r}"


def check_many_threads(shim, words, status, rows):
    """Only some of as many threads as are asked for can be started."""
    line = ["bench_suite", "30000", "json", "1000000", *words.split()]
    ended, out, err = runner.ended(line, env={**os.environ, "LD_PRELOAD": shim, "MOST": "100"})
    assert (ended, out.count('"event": "ok" }')) == (status, rows), f"{ended}, {out[-200:]}, {err}"


def check_no_thread(shim):
    """A run whose slow trials can't be looked for, since no thread can be started, is as any other."""
    line = "example_sums --format json --test-threads 1".split()
    found = runner.ended(line, env={**os.environ, "LD_PRELOAD": shim, "MOST": "0"})
    assert found == (101, report([("1 + 1",), ("2 + 2",), ("7 + 0",)], "0.001"), ""), f"{found!r}"


def check_times(shim, threads, first):
    """Each of many trials, of which some fail, shows its own time. They run one after another, in one thread."""
    line = f"bench_suite {MANY} json {threads} report_time 1 clock real fail_every 7".split()
    status, out, err = runner.ended(line, env={**os.environ, "LD_PRELOAD": shim, "MOST": "1"})
    rows = [json.loads(line) for line in out.splitlines()]
    times = {row["name"]: row["exec_time"] for row in rows if row["type"] == "test" and row["event"] != "started"}
    wanted = {f"test_{place:06}": (first + 4 * place) / 1000 for place in range(MANY)}
    assert status == 101 and times == wanted, f"{status} {err} {len(times)}"


def check_refused_worker(shim, words, most, status, rows, told, seconds):
    """No more workers than this can be started, and trials wait for 0.4 seconds each. The rows of one come in order."""
    begun = time.monotonic()
    line = ["bench_suite", *words.split(), "wait", "400"]
    ended, out, err = runner.ended(line, env={**os.environ, "LD_PRELOAD": shim, "MOST": str(most)})
    took = time.monotonic() - begun
    lines, wanted = out.splitlines(), rows.splitlines()
    is_right = lines == wanted if most == 1 else sorted(lines) == sorted(wanted)
    assert ended == status and is_right, f"{ended} {out}"
    assert re.fullmatch(told, err), err
    assert seconds[0] < took < seconds[1], f"{took:.1f} s"


def check_room(words, room, looks):
    """The thread that looks for slow trials takes no place of a worker that the run needs."""

    def limit():
        resource.setrlimit(resource.RLIMIT_NPROC, (room + 1, room + 1))

    # Another user can't reach each folder of this one.
    os.chmod(".", 0o755)
    copy = shutil.copy(runner.program("bench_suite"), "./bench_suite")
    settings = {"executable": copy, "user": USER, "group": USER, "extra_groups": [], "preexec_fn": limit}
    line = ["bench_suite", "100", *words.split(), "wait", "3", "slow_limit", "1"]
    status, out, err = runner.ended(line, **settings)
    rows = [row["name"] for row in map(json.loads, out.splitlines()) if row["type"] == "test" and row["event"] == "ok"]
    assert (status, sorted(rows)) == (0, [f"test_{place:06}" for place in range(100)]), f"{status}, {rows}, {err}"
    assert (" has been running for over 1 ms\n" in err) == looks, err


def checks(shim):
    for line, *rest in KNOWN:
        yield line, lambda line=line, rest=rest: check_known(shim, shlex.split(line), *rest)
    for line, count in THREADS:
        yield f"threads of {line}", lambda line=line, count=count: check_threads(shim, line.split(), count)
    for line, processors, count in ON_PROCESSORS:
        yield f"threads of {line} on {processors}", lambda row=(count, processors): check_threads(shim, [line], *row)
    # As in KNOWN, the first trial takes 9 ms. Between the readings before two trials are two, so each takes 4 ms more than the one before.
    for threads in (1, 2):
        yield f"bench_suite {MANY} json {threads} with times", lambda threads=threads: check_times(shim, threads, 9)
    yield "example_sums without a thread", lambda: check_no_thread(shim)
    yield "a slow trial of conformance with a hostile name", lambda: check_notice(shim)
    for words, *rest in ("", 0, 30_000), ("slow_limit 60000", 0, 30_000), ("dealt 1", 1, 0):
        row = words, *rest
        yield f"bench_suite 30000 json 1000000 {words}".rstrip(), lambda row=row: check_many_threads(shim, *row)
    # Only root runs a program as another user.
    for words, room, looks in ROOM if os.geteuid() == 0 else ():
        yield f"bench_suite 100 {words} and room for {room}", lambda row=(words, room, looks): check_room(*row)
    # The others run all trials that are in a queue, at the same time. If they have shares they end those, and the run is refused.
    four, eight = [report([(f"test_00000{place}",) for place in range(count)], "0") for count in (4, 8)]
    title, told = four.splitlines()[0], r"n=4 format=json threads=2 .*\n"
    refused = r"bench_suite: cannot start a worker\n" + told
    rows = [
        ("4 json 2", 1, 0, four, told, (1.6, 60)),
        ("8 json 3", 2, 0, eight, r"n=8 format=json threads=3 .*\n", (1.6, 2.4)),
        ("4 json 2 dealt 1", 1, 1, title, refused, (0.8, 60)),
    ]
    for row in rows:
        yield f"bench_suite {row[0]} with workers: {row[1]}", lambda row=row: check_refused_worker(shim, *row)


PROGRAMS = ["bench_suite", "conformance", "example_sorts", "example_sums", "harness"]
with tempfile.TemporaryDirectory() as folder:
    runner.run(PROGRAMS, checks(runner.shim("known_machine", folder)))
