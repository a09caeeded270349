"""The suite that the scripts of this folder run in four shards, and what holds of the reports that these leave."""

import argparse
import os
import pathlib
import re
import shutil
import subprocess
import sys
import tempfile

CASES = pathlib.Path(__file__).resolve().parents[2] / "crates" / "example_files" / "data" / "cases"
LINE = "cases -- --format json --test-threads 1"

# The trials are bytes, colours, greeting, lost and umlaut, of which greeting and umlaut pass. Shard 1 has bytes and umlaut.
PARTS = [f"example_files: shard {number} of 4: {count} of 5 trials" for number, count in ((1, 2), (2, 1), (3, 1), (4, 1))]
STATUSES = [101, 101, 0, 101]


def fill(folder, example_files):
    """Copies the program and its cases into the folder."""
    shutil.copy(example_files, folder / "example_files")
    shutil.copytree(CASES, folder / "cases")


def run(*words, status=None, **settings):
    """Runs the words, and returns how they ended. Another status than this one is an error."""
    pipes = {"capture_output": True, "encoding": "utf-8", "timeout": 600, "check": False}
    ended = subprocess.run(words, **pipes, **settings)
    if status not in (None, ended.returncode):
        raise subprocess.SubprocessError(f"{words[0]} ended with {ended.returncode}: {ended.stderr}{ended.stdout}")
    return ended


def join(reports, files, folder, shards=4):
    """Returns the status of `reports join`, and what it printed on standard output and on standard error."""
    ended = run(reports, "join", "--shards", str(shards), *files, cwd=folder)
    return ended.returncode, ended.stdout, ended.stderr


def without_time(report):
    return re.sub(r'(?<="exec_time": )[\d.]+', "", report)


def time_of(report):
    found = re.search(r'(?<="exec_time": )[\d.]+', report)
    return float(found[0]) if found else None


def refusals(reports, files, folder):
    """Yields the facts that a report too few is refused, and that one twice is."""
    shards = len(files)
    reason = f"reports: the number of shards is {shards}, but that of reports is {shards - 1}\n"
    yield "a lost report is refused", join(reports, files[:-1], folder, shards), (1, "", reason)
    doubled = [files[0], files[0], *files[2:]]
    reason = f"reports: {files[0]}: line 2: its trial is in a report before it too; a suite with equal names needs --equal-names\n"
    yield "a doubled report is refused", join(reports, doubled, folder, shards), (1, "", reason)


def facts(reports, files, folder, statuses, printed):
    """Yields the facts of four shards that ended with these statuses, printed these lines, and left these files."""
    yield "each shard prints its part", printed, PARTS
    yield "a shard ends with 101, or with 0 if all of it passes", statuses, STATUSES
    whole = run("./example_files", *LINE.split(), cwd=folder, status=101).stdout
    status, joined, _ = join(reports, files, folder)
    yield "the joined report is that of a whole run, but for its time", without_time(joined), without_time(whole)
    yield "its time is the longest of the shards", time_of(joined), max(time_of((folder / file).read_text()) for file in files)
    yield "join ends with 101", status, 101
    yield from refusals(reports, files, folder)


def judge(text, programs, facts_of):
    """Prints of each fact whether what was found is what is wanted. A fact is a name, and both.

    Each of the programs is a word of the command line, and says how often, as `argparse` has it. `facts_of` takes their paths
    behind a folder of its own.
    """
    parser = argparse.ArgumentParser(description=text, formatter_class=argparse.RawDescriptionHelpFormatter)
    for program, number in programs.items():
        parser.add_argument(program, type=os.path.abspath, nargs=number)
    asked = vars(parser.parse_args()).values()
    ends = []
    with tempfile.TemporaryDirectory() as name:
        try:
            for what, found, wanted in facts_of(pathlib.Path(name), *asked):
                ends.append(found == wanted)
                print(f"{parser.prog} {what} ... {'ok' if ends[-1] else f'FAILED: {found!r} and not {wanted!r}'}", flush=True)
        except (OSError, subprocess.SubprocessError) as fault:
            ends.append(False)
            print(f"{parser.prog} FAILED: {fault}")
    print(f"{ends.count(True)} passed, {ends.count(False)} failed")
    sys.exit(not all(ends))
