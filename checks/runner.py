"""What the checks of built programs share: where these are, and how checks are run and counted."""

import fcntl
import os
import pathlib
import select
import subprocess
import sys
import tempfile
import termios
import time

TOP = pathlib.Path(__file__).resolve().parent.parent


def program(name):
    """Returns the path of a built program."""
    return TOP / "crates" / name / "out" / name


def absent(names):
    """Returns a line for each of these programs that isn't built."""
    said = "crates/{0}/out/{0} is missing: `rt run` in crates/{0} makes it, and `rt ci` makes all"
    return [said.format(name) for name in names if not program(name).exists()]


def shim(name, folder):
    """Returns a library to preload, made of the file in C beside this one, as a text."""
    made = os.path.join(folder, f"{name}.so")
    subprocess.run(["cc", "-O2", "-shared", "-fPIC", "-o", made, TOP / "checks" / f"{name}.c"], check=True)
    return made


def ended(line, **settings):
    """Runs a program by its name and words, and returns its status, standard output and standard error."""
    how = {"stdout": subprocess.PIPE, "stderr": subprocess.PIPE, "encoding": "utf-8", "timeout": 60, "check": False}
    got = subprocess.run([program(line[0]), *line[1:]], **{**how, **settings})
    return got.returncode, got.stdout, got.stderr


def wait_until_read(pipe):
    """Waits until nothing is left in the pipe, or nobody reads it."""
    left, reads = bytearray(4), select.poll()
    reads.register(pipe, 0)
    for _ in range(1000):
        fcntl.ioctl(pipe, termios.FIONREAD, left)
        if not any(left) or reads.poll(0):
            return
        time.sleep(0.01)


def run(names, checks):
    """Calls each check in a new folder, if these programs are built, and ends the process. It prints the name of each, how it
    ended, and its time if that is a tenth of a second."""
    missing = absent(names)
    passed, failed = 0, len(missing)
    print("".join(f"{line}\n" for line in missing), end="")
    with tempfile.TemporaryDirectory() as folder:
        os.chdir(folder)
        for name, check in checks if not missing else ():
            begun = time.monotonic()
            try:
                check()
                end = "ok"
            except (AssertionError, OSError, subprocess.SubprocessError) as fault:
                end = f"FAILED: {type(fault).__name__} {fault}"
            passed, failed = passed + (end == "ok"), failed + (end != "ok")
            seconds = time.monotonic() - begun
            print(f"{name} ... {end}" + (f" after {seconds:.1f} s" if seconds >= 0.1 else ""), flush=True)
    finish(passed, failed)


def finish(passed, failed):
    """Prints the last line, which `.ci/run` adds up, and ends the process."""
    print(f"{passed} passed, {failed} failed")
    sys.exit(failed > 0)
