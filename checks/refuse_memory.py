#!/usr/bin/env -S python3 -B
"""Refuses each request for memory of a program in turn, until a run meets no refusal.

    checks/refuse_memory.py [OPTION].. tests PROGRAM [PART]    each test of a built out/NAME_tests whose name has this part
    checks/refuse_memory.py [OPTION].. runs PROGRAM [WORD..]   a program over these words and standard input

With memory refused a test may return an error of its own, but no assertion may fail. A program may end as with ample
memory, with the same lines in any order; or with status 1, a word on its standard error, and none but lines of those; or,
if a trial lacked memory, with status 101, the same title, and a failure that speaks of memory. With --meets, some run in
which memory was refused must end with this text in `status N: standard error and output`. With --alike, all tests must
ask for memory equally often. With --threads, no more than this number of threads can be started. Each line says in how many
runs memory was refused, and how they ended; the last one is `N passed, M failed`, for the tests, or the program, and for the
texts, and whether they are alike. The refusals are those of checks/refuse_memory.c, and of threads those of
checks/known_machine.c, which cc compiles.
"""

import argparse
import collections
import os
import re
import subprocess
import sys
import tempfile

import runner

TIMES = re.compile(rb'finished in [0-9.]+s|"exec_time": [0-9.]+')
SECONDS = 60


def run(preloaded, words, number, given=b""):
    """Returns how the program ended if the request of this number was refused, and whether there was one."""
    reader, writer = os.pipe()
    settings = {**preloaded, "REFUSED": str(number), "TOLD": str(writer), "PATH": os.environ["PATH"]}
    try:
        ended = subprocess.run(
            words, input=given, capture_output=True, env=settings, pass_fds=[writer], timeout=SECONDS, check=False
        )
    finally:
        os.close(writer)
    with os.fdopen(reader, "rb") as told:
        return ended, told.read() != b""


def lines_of(output):
    return collections.Counter(TIMES.sub(b"", output).splitlines())


def title_of(ended):
    return ended.stdout.splitlines()[:2]


def is_well(ample, ended):
    """Whether a program may end so if memory was refused."""
    wrote, whole = lines_of(ended.stdout), lines_of(ample.stdout)
    if ended.returncode == ample.returncode:
        return wrote == whole
    if ended.returncode == 101:
        return title_of(ended) == title_of(ample) and b"memory" in ended.stdout
    return ended.returncode == 1 and ended.stderr != b"" and not wrote - whole


def is_held(ended):
    """Whether a test passed or returned an error: a failed assertion ends it by a signal."""
    return ended.returncode in (0, 101)


def refuse_each(preloaded, words, holds, given=b""):
    """Runs the program until no request is left to refuse. Returns whether each run held, and how they ended."""
    ends, number, all_held = [], 1, True
    while True:
        ended, was_refused = run(preloaded, words, number, given)
        if not was_refused:
            break
        end = f"status {ended.returncode}: {(ended.stderr + ended.stdout).decode(errors='replace').strip()}"
        if not holds(ended):
            all_held = False
            print(f"request {number}: {end}")
        ends.append(end)
        number += 1
    statuses = collections.Counter(end.split(":")[0] for end in ends)
    told = ", ".join(f"{count} with {status}" for status, count in sorted(statuses.items()))
    print(f"{' '.join(map(os.path.basename, words))}: {number - 1} requests refused: {told}", flush=True)
    return all_held and number > 1, ends


def names_of(program, part):
    listed = subprocess.run([program, "--list"], stdout=subprocess.PIPE, text=True, check=True).stdout
    names = [line.removesuffix(": test") for line in listed.splitlines() if line.endswith(": test")]
    return [name for name in names if part in name]


def refuse(preloaded, asked):
    """Returns, of each test or of the program, whether it held, and how all runs ended in which memory was refused."""
    program, words = os.path.abspath(asked.program), asked.words
    if asked.kind == "runs":
        given = b"" if sys.stdin.isatty() else sys.stdin.buffer.read()
        ample, _ = run(preloaded, [program, *words], 0, given)
        return [refuse_each(preloaded, [program, *words], lambda ended: is_well(ample, ended), given)]
    return [refuse_each(preloaded, [program, name], is_held) for name in names_of(program, "".join(words[:1]))]


def preloads(folder, most):
    """Returns the settings that refuse memory, and threads beyond this number, if there is one."""
    refusals = runner.shim("refuse_memory", folder)
    if most is None:
        return {"LD_PRELOAD": refusals}
    return {"LD_PRELOAD": f"{refusals}:{runner.shim('known_machine', folder)}", "MOST": most}


def main():
    parser = argparse.ArgumentParser(description=__doc__, formatter_class=argparse.RawDescriptionHelpFormatter)
    parser.add_argument("--meets", metavar="TEXT", action="append", default=[])
    parser.add_argument("--alike", action="store_true")
    parser.add_argument("--threads", metavar="NUMBER")
    parser.add_argument("kind", choices=["tests", "runs"])
    parser.add_argument("program")
    parser.add_argument("words", nargs=argparse.REMAINDER)
    asked = parser.parse_args()
    with tempfile.TemporaryDirectory() as folder:
        found = refuse(preloads(folder, asked.threads), asked)
    if not found:
        sys.exit("no such test")
    held = [is_right for is_right, _ in found]
    for text in asked.meets:
        is_met = any(text in end for _, ends in found for end in ends)
        print(f"{'met' if is_met else 'NOT MET'}: {text}")
        held.append(is_met)
    if asked.alike:
        counts = sorted(len(ends) for _, ends in found)
        held.append(len(counts) > 1 and counts[0] == counts[-1])
        print(f"{'alike' if held[-1] else 'NOT ALIKE'}: {counts}")
    runner.finish(held.count(True), held.count(False))


main()
