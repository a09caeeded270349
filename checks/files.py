#!/usr/bin/env -S python3 -B
"""Lets each call fail in turn by which a program brings files up to date, kills the program there, and has another one do the same
meanwhile: each old file is there, or the new one, whole.

    checks/files.py    prints a line for each check, and last `N passed, M failed`
"""

import errno
import os
import pathlib
import shutil
import signal
import subprocess
import tempfile
import typing

import runner

TEXT = 70_000 * "x" + "\n"
# The trial that passed goes from the file, and the one that failed comes.
FAILURE = '{{ "type": "test", "name": "{}", "event": "failed" }}\n'
OLD, NEW = f"# {TEXT}" + FAILURE.format("a"), f"# {TEXT}" + FAILURE.format("b")
REPORT = (
    '{ "type": "suite", "event": "started", "test_count": 2 }\n'
    '{ "type": "test", "event": "started", "name": "a" }\n'
    '{ "type": "test", "name": "a", "event": "ok" }\n'
    '{ "type": "test", "event": "started", "name": "b" }\n'
    '{ "type": "test", "name": "b", "event": "failed" }\n'
    '{ "type": "suite", "event": "failed", "passed": 1, "failed": 1, "ignored": 0, "measured": 0, "filtered_out": 0, '
    '"exec_time": 0 }\n'
)
MODE = 0o640
# A disk on which no folder for temporary files is.
FAR = "/dev/shm"


class Update(typing.NamedTuple):
    """The texts of files, a program and its words, the new texts of the files that it brings up to date, and links."""

    files: dict
    line: str
    new: dict
    links: dict = {}

    def make(self):
        """Makes the folder in which the program runs."""
        shutil.rmtree("folder", ignore_errors=True)
        os.mkdir("folder")
        for name, text in self.files.items():
            pathlib.Path("folder", name).write_text(text, encoding="utf-8")
            os.chmod(f"folder/{name}", MODE)
        for name, target in self.links.items():
            os.symlink(target, f"folder/{name}")

    def before(self):
        return {**self.files, **self.links}

    def after(self):
        return {**self.before(), **self.new}


KNOWN = "reports expect --update known report"
BLESS = "example_files --bless ."
UPDATES = {
    "known failures": Update({"known": OLD, "report": REPORT}, KNOWN, {"known": NEW}),
    "no known failures": Update({"report": REPORT}, KNOWN, {"known": FAILURE.format("b")}),
    "a link to known failures": Update(
        {"known": OLD, "report": REPORT}, "reports expect --update link report", {"known": NEW}, {"link": "known"}
    ),
    "outputs": Update(
        {"a.in": TEXT, "a.out": TEXT, "b.in": TEXT, "b.out": TEXT}, BLESS, {"a.out": TEXT.upper(), "b.out": TEXT.upper()}
    ),
    "no output": Update({"a.in": TEXT}, BLESS, {"a.out": TEXT.upper()}),
    "a link to an output": Update({"a.in": TEXT, "kept": TEXT}, BLESS, {"kept": TEXT.upper()}, {"a.out": "kept"}),
}
ERRORS = [errno.ENOSPC, errno.EIO]


def run(shim, update, **settings):
    """Runs the program in a new folder. Returns its status, and its calls."""
    update.make()
    reader, writer = os.pipe()
    settings = {**os.environ, "LD_PRELOAD": shim, "CALLS": str(writer), **settings}
    status, *_ = runner.ended(update.line.split(), cwd="folder", env=settings, pass_fds=[writer])
    os.close(writer)
    with os.fdopen(reader, encoding="utf-8") as calls:
        return status, calls.read().split()


def found():
    """Returns the text of each file in the folder, and of each link where it leads to."""
    paths = pathlib.Path("folder").iterdir()
    return {path.name: os.readlink(path) if path.is_symlink() else path.read_text(encoding="utf-8") for path in paths}


def is_whole(update, files):
    """Whether each file is the old one or the new one."""
    before, after = update.before(), update.after()
    return all(files.get(name) in (before.get(name), text) for name, text in after.items())


def without_new(update, files):
    """Returns the files without the one that is to take the name of another, if there is one."""
    beside = [name for name in files if name not in update.after()]
    assert len(beside) <= 1 and all(name.endswith(".new") for name in beside), f"{beside}"
    return {name: text for name, text in files.items() if name not in beside}


def shown(files):
    return {name: len(text) for name, text in files.items()}


def check_reaches_disk(shim, update):
    """Each new text is on the disk before its file takes the name of the old one, and its mode."""
    status, calls = run(shim, update)
    assert (status, found()) == (0, update.after()), f"{status}, {shown(found())}"
    count = len(update.new)
    steps = [" ".join(calls).count(step) for step in ("write fsync rename", "fsync", "rename")]
    assert steps == [count] * 3 and "ftruncate" not in calls, f"{calls}"
    modes = {name: os.stat(f"folder/{name}").st_mode & 0o777 for name in update.files}
    assert set(modes.values()) == {MODE}, f"{modes}"


def check_killed(shim, update):
    count = len(run(shim, update)[1])
    for number in range(1, count + 1):
        status, calls = run(shim, update, AT=str(number))
        files = without_new(update, found())
        assert status == -signal.SIGKILL and is_whole(update, files), f"{calls[number - 1 :]}: {status}, {shown(files)}"
    assert count > 5, f"{count}"


def check_each_call(shim, update, error):
    """One file stays as it was, and those beside it are new. If the program can't print, that may be before the first or after the
    last."""
    count = len(run(shim, update)[1])
    for number in range(1, count + 1):
        status, calls = run(shim, update, AT=str(number), ERROR=str(error))
        files = found()
        renewed = sum(files.get(name) == text for name, text in update.new.items())
        wanted = [0, len(update.new)] if calls[number - 1] == "print" else [len(update.new) - 1]
        is_well = status == 1 and is_whole(update, files) and set(files) <= set(update.after()) and renewed in wanted
        assert is_well, f"{calls[number - 1 :]}: {status}, {shown(files)}"
    assert count > 5, f"{count}"


def check_at_once(shim, update):
    """Another program does the same while the first is stopped. It finds whole files, and both end well."""
    count = len(run(shim, update)[1])
    for number in range(1, count + 1):
        update.make()
        name, *words = update.line.split()
        settings = {**os.environ, "LD_PRELOAD": shim, "AT": str(number), "STOPS": "1"}
        first = subprocess.Popen([runner.program(name), *words], cwd="folder", env=settings, stdout=subprocess.DEVNULL)
        try:
            _, status = os.waitpid(first.pid, os.WUNTRACED)
            files = without_new(update, found())
            assert os.WIFSTOPPED(status) and is_whole(update, files), f"{number}: {status}, {shown(files)}"
            status, *_ = runner.ended(update.line.split(), cwd="folder")
            files = without_new(update, found())
            assert (status, files) == (0, update.after()), f"{number}: {status}, {shown(files)}"
            first.send_signal(signal.SIGCONT)
            status = first.wait(60)
            assert (status, found()) == (0, update.after()), f"{number}: {status}, {shown(found())}"
        finally:
            first.kill()
            first.wait()


def check_last_wins():
    """Of two updates at once that differ the last one wins, whole."""
    known = pathlib.Path("known")
    known.write_text(OLD, encoding="utf-8")
    title, *rows = REPORT.encode().splitlines(keepends=True)
    line = [runner.program("reports"), "expect", "--update", "known", "-"]
    streams = {"stdin": subprocess.PIPE, "stdout": subprocess.DEVNULL, "bufsize": 0}
    with subprocess.Popen(line, **streams) as first, subprocess.Popen(line, **streams) as last:
        for process in first, last:
            # The known failures are read before the report.
            process.stdin.write(title)
            runner.wait_until_read(process.stdin)
        for process, name in (first, "b"), (last, "c"):
            process.stdin.write(b"".join(rows).replace(b'"b"', f'"{name}"'.encode()))
            process.stdin.close()
            status, text = process.wait(timeout=60), known.read_text(encoding="utf-8")
            assert (status, text) == (0, f"# {TEXT}" + FAILURE.format(name)), f"{name}: {status}, {text[-200:]}"


def check_far():
    """What a link leads to on another disk is replaced there."""
    update = UPDATES["no output"]
    with tempfile.TemporaryDirectory(dir=FAR) as far:
        assert os.stat(far).st_dev != os.stat(".").st_dev, far
        kept = pathlib.Path(far, "kept")
        kept.write_text(TEXT, encoding="utf-8")
        update.make()
        os.symlink(kept, "folder/a.out")
        ended = runner.ended(update.line.split(), cwd="folder")
        assert (ended[0], kept.read_text(encoding="utf-8")) == (0, TEXT.upper()), f"{ended}"
        assert os.path.islink("folder/a.out") and os.listdir(far) == ["kept"], f"{os.listdir(far)}"


def checks(shim):
    for name, update in UPDATES.items():
        yield f"{name} reach the disk", lambda update=update: check_reaches_disk(shim, update)
        yield f"{name} and a program that is killed", lambda update=update: check_killed(shim, update)
        yield f"{name} and two programs at once", lambda update=update: check_at_once(shim, update)
        for error in ERRORS:
            how = f"calls that fail: {errno.errorcode[error]}"
            yield f"{name} and {how}", lambda update=update, error=error: check_each_call(shim, update, error)
    yield "known failures and two updates that differ", check_last_wins
    yield "a link to an output on another disk", check_far


with tempfile.TemporaryDirectory() as place:
    runner.run(["reports", "example_files"], checks(runner.shim("file_calls", place)))
