"""The suites that `conformance` runs, and the packages of Debian 12 that have their cases."""

import bz2
import pathlib
import shutil
import subprocess
import sys
import tempfile
import typing

OUT = pathlib.Path(__file__).resolve().parent / "out"
NO_NETWORK = 77


class Suite(typing.NamedTuple):
    """A suite: the package that has it and the version, the path in there, and how many cases it has."""

    name: str
    package: str
    path: str
    cases: int


TOML_TEST = "usr/share/gocode/src/github.com/BurntSushi/toml/internal/toml-test/tests"
UNICODE = "unicode-data=15.0.0-1"
SUITES = [
    Suite("toml", "golang-github-burntsushi-toml-dev=1.2.0-2", TOML_TEST, 334),
    Suite("url", "librust-url-dev=2.3.1-1", "usr/share/cargo/registry/url-2.3.1/tests/urltestdata.json", 687),
    Suite("normalization", UNICODE, "usr/share/unicode/NormalizationTest.txt", 19_074),
    Suite("graphemes", UNICODE, "usr/share/unicode/auxiliary/GraphemeBreakTest.txt", 602),
    Suite("words", UNICODE, "usr/share/unicode/auxiliary/WordBreakTest.txt", 1_823),
]


def apt_get(folder, *words):
    """Runs apt-get in a folder, without root: its lists and what it caches lie in there, too."""
    settings = [f"Dir::State::Lists={folder}/lists", f"Dir::Cache={folder}/cache", "APT::Sandbox::User="]
    command = ["apt-get", "--quiet=2", *(f"--option={setting}" for setting in settings), *words]
    return subprocess.run(command, cwd=folder, capture_output=True, encoding="utf-8", timeout=600, check=False)


def unpack(folder, packages):
    """Fetches packages, and unpacks them into a folder. If one can't be fetched, the program ends with 77."""
    with tempfile.TemporaryDirectory() as name:
        cache = pathlib.Path(name)
        for part in ("lists", "cache"):
            (cache / part).mkdir()
        apt_get(cache, "update")
        ended = apt_get(cache, "download", *packages)
        if ended.returncode != 0:
            print(f"apt-get can't download {' '.join(packages)}, which needs the network:\n{ended.stderr.rstrip()}")
            sys.exit(NO_NETWORK)
        for package in cache.glob("*.deb"):
            subprocess.run(["dpkg", "-x", package, folder], timeout=600, check=True)


def fetched(folder, packages):
    """Returns the folder, into which packages are unpacked unless it is there."""
    if not folder.exists():
        new = folder.with_name(folder.name + ".new")
        shutil.rmtree(new, ignore_errors=True)
        new.mkdir(parents=True)
        unpack(new, packages)
        new.rename(folder)
    return folder


def paths_of_suites(folder):
    """Returns the path of each suite's cases in a folder, where they are fetched to."""
    top = fetched(folder / "suites", sorted({suite.package for suite in SUITES}))
    paths = {suite.name: top / suite.path for suite in SUITES}
    for path in paths.values():
        packed = path.with_name(path.name + ".bz2")
        if not path.exists() and packed.exists():
            path.write_bytes(bz2.decompress(packed.read_bytes()))
    return paths
