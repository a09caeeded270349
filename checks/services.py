"""What is in the recipes of docs/ci, and how services run them, for `checks/recipes`."""

import functools
import re
import textwrap
from typing import Callable, NamedTuple

import runner

RECIPES = runner.TOP / "docs" / "ci"


class Yaml:
    """Reads what the recipes use of YAML: maps, lists, block scalars, lists of words in a line, quotes, anchors and comments."""

    KEY = re.compile(r"([\w.#/-]+):(?: +(.*))?")
    WORDS = {"~": None, "true": True, "false": False}

    def __init__(self, path):
        self.path, self.lines, self.at, self.anchors = path, path.read_text(encoding="utf-8").splitlines(), 0, {}

    def documents(self):
        found = [self.block(0)]
        while self.next() == (0, "---"):
            self.at += 1
            found.append(self.block(0))
        if self.at < len(self.lines):
            raise self.fault()
        return found

    def fault(self):
        return ValueError(f"{self.path}: not what is expected at line {self.at + 1}, or before it")

    def next(self):
        """Skips comments and empty lines, and returns how far the next line is indented, and its text."""
        while self.at < len(self.lines):
            line = self.lines[self.at]
            if line.strip() and not line.lstrip().startswith("#"):
                if "\t" in line or line != line.rstrip():
                    raise self.fault()
                return len(line) - len(line.lstrip()), line.lstrip()
            self.at += 1
        return -1, ""

    def block(self, indent):
        """Returns the map or list of this indent."""
        found = self.items(indent) if self.next()[1].startswith("- ") else self.members(indent)
        if self.next()[0] > indent or not found:
            raise self.fault()
        return found

    def items(self, indent):
        found = []
        while self.next()[0] == indent and self.next()[1].startswith("- "):
            item = self.next()[1][2:]
            if self.KEY.fullmatch(item):
                self.lines[self.at] = (indent + 2) * " " + item
                found.append(self.block(indent + 2))
            else:
                self.at += 1
                found.append(self.value(item, indent))
        return found

    def members(self, indent):
        found = {}
        while self.next()[0] == indent and (line := self.KEY.fullmatch(self.next()[1])):
            if line[1] in found:
                raise self.fault()
            self.at += 1
            found[line[1]] = self.value(line[2] or "", indent)
        return found

    def value(self, text, indent):
        """Returns the value that begins with the rest of a line of this indent. The line has been read."""
        if anchor := re.fullmatch(r"&(\w+) (.*)", text):
            self.anchors[anchor[1]] = self.value(anchor[2], indent)
            return self.anchors[anchor[1]]
        if quoted := re.fullmatch(r'"([^"\\]*)"( +#.*)?', text):
            return quoted[1]
        text = re.sub(r"(^| +)#.*", "", text)
        if text == "|":
            return self.scalar(indent)
        if text == "":
            return self.block(max(self.next()[0], indent + 1))
        if text.startswith("*"):
            return self.anchors[text[1:]]
        if listed := re.fullmatch(r"\[([^\[\]]*)\]", text):
            return [self.word(word) for word in listed[1].split(", ")]
        return self.word(text)

    def word(self, text):
        if ": " in text or text.endswith(":") or text[0] in "[]{}&*!|>'\"%@`,":
            raise self.fault()
        return int(text) if text.isdigit() else self.WORDS.get(text, text)

    def scalar(self, indent):
        first = self.at
        while self.at < len(self.lines) and (not (line := self.lines[self.at]).strip() or line.startswith((indent + 1) * " ")):
            self.at += 1
        if first == self.at:
            raise self.fault()
        return textwrap.dedent("\n".join(self.lines[first : self.at])) + "\n"


@functools.cache
def document(file):
    """Returns what is in a recipe. The documents of one that has several are its items, and one that isn't YAML has nothing."""
    if not file.endswith(("yml", "yaml")):
        return {}
    found = Yaml(RECIPES / file).documents()
    return found if len(found) > 1 else found[0]


def at(document, place):
    """Returns what is at a place, which has the keys and the numbers of items on the way."""
    for step in place.split():
        document = document[int(step) if isinstance(document, list) else step]
    return document


def shell_of(file, name):
    """Returns the shell between the marks of this name."""
    found = re.findall(rf"(?ms)^ *# -- {name}\n(.*?)^ *# -- end\n", (RECIPES / file).read_text(encoding="utf-8"))
    if len(found) != 1:
        raise ValueError(f"{file} has {len(found)} pieces `{name}`")
    return textwrap.dedent(found[0])


def uploaded(text):
    """Returns the text as `buildkite-agent pipeline upload` leaves it, which replaces names, here by nothing, and $$ by $."""
    return re.sub(r"\$(\$|\w*)", lambda found: "$" if found[1] == "$" else "", text)


class Service(NamedTuple):
    """How a service runs a recipe."""

    # The recipe, and the words that run a shell's text.
    file: str
    shell: str
    # The variables that the service sets in a shard, and in the joining job.
    sharded: dict
    joined: dict = {}
    # The places of the variables that the recipe sets in a shard and in the joining job.
    places: tuple = ((), ())
    # The place of the command that builds, or this itself.
    builds: str = "./build"
    # What the building job keeps, if there is one, what a shard's job keeps, and under which name: a place, or this itself.
    programs: str = ""
    reports: str = ""
    name: str = "sums-INDEX"
    # Where the service puts the programs and the reports, or nowhere, since the shell fetches them.
    programs_in: str = "."
    reports_in: str = "."
    # Whether it keeps a folder's files without the folder, and files' modes, and whether a name may be taken twice.
    flat: bool = False
    modes: bool = True
    twice: bool = True
    # Whether a job of a shard, and the joining job, begins with an empty folder.
    clears: tuple = (True, True)
    # Where the programs are in its image, and where its volume is with all reports, if it has these.
    image: str = ""
    volume: str = ""
    # The place of the command that ends a shard's job once its report is kept.
    ends: str = ""
    # What a shard's job makes of the status of its shard.
    statuses: dict = {}
    # What the service writes in place of some texts, and what it makes of a shell's text.
    texts: dict = {}
    reads: Callable = str


# In these, INDEX, POSITION, which counts from 1, ATTEMPT and TOTAL become numbers, and STORE and FOLDER the folder of all that this
# run's jobs have kept, and one that no job looks at.
SERVICES = [
    Service(
        file="github.yml",
        shell="bash -e -c",
        sharded={},
        joined={"GITHUB_STEP_SUMMARY": "FOLDER/summary"},
        places=(("env", "jobs shard steps 2 env"), ("env",)),
        builds="jobs build steps 2 run",
        programs="jobs build steps 3 with path",
        reports="jobs shard steps 3 with path",
        name="jobs shard steps 3 with name",
        programs_in="out",
        flat=True,
        modes=False,
        texts={"${{ matrix.shard }}": "INDEX"},
    ),
    Service(
        file="gitlab.yml",
        shell="bash -e -o pipefail -c",
        sharded={"CI_NODE_TOTAL": "TOTAL", "CI_NODE_INDEX": "POSITION"},
        joined={"CI_NODE_TOTAL": "1"},
        places=(("variables",), ("variables",)),
        builds="built script 0",
        programs="built artifacts paths 0",
        reports="sums artifacts paths 0",
    ),
    Service(
        file="circleci.yml",
        shell="bash -e -o pipefail -c",
        sharded={"CIRCLE_NODE_TOTAL": "TOTAL", "CIRCLE_NODE_INDEX": "INDEX"},
        joined={"CIRCLE_NODE_TOTAL": "1", "CIRCLE_NODE_INDEX": "0"},
        places=((), ("jobs join environment",)),
        builds="jobs build steps 1 run command",
        programs="jobs build steps 2 persist_to_workspace paths 0",
        reports="jobs shard steps 3 persist_to_workspace paths 0",
        ends="jobs shard steps 4 run",
        texts={"<< pipeline.parameters.shards >>": "TOTAL"},
    ),
    Service(
        file="buildkite.yml",
        shell="bash -e -c",
        sharded={"BUILDKITE_PARALLEL_JOB_COUNT": "TOTAL", "BUILDKITE_PARALLEL_JOB": "INDEX"},
        places=(("env",), ("env",)),
        builds="steps 0 command",
        programs="steps 0 artifact_paths",
        reports="steps 2 artifact_paths",
        programs_in="",
        reports_in="",
        reads=uploaded,
    ),
    Service(
        file="azure.yml",
        shell="bash --noprofile --norc -c",
        sharded={
            "SYSTEM_TOTALJOBSINPHASE": "TOTAL",
            "SYSTEM_JOBPOSITIONINPHASE": "POSITION",
            "PIPELINE_WORKSPACE": "STORE",
        },
        joined={"PIPELINE_WORKSPACE": "STORE"},
        places=((), ("jobs 2 steps 2 env",)),
        builds="jobs 0 steps 0 bash",
        programs="jobs 0 steps 1 publish",
        reports="jobs 1 steps 3 publish",
        name="jobs 1 steps 3 artifact",
        programs_in="",
        reports_in="",
        flat=True,
        modes=False,
        twice=False,
        texts={
            "${{ parameters.shards }}": "TOTAL",
            "$(System.JobPositionInPhase)": "POSITION",
            "$(System.JobAttempt)": "ATTEMPT",
        },
    ),
    Service(
        file="Jenkinsfile",
        shell="sh -x -e -c",
        sharded={"TEST_TOTAL_SHARDS": "TOTAL", "TEST_SHARD_INDEX": "INDEX"},
        joined={"TEST_TOTAL_SHARDS": "TOTAL"},
        programs="out/*",
        reports="sums.INDEX.json",
        clears=(False, True),
    ),
    Service(
        file="kubernetes.yaml",
        shell="bash -ec",
        sharded={"JOB_COMPLETION_INDEX": "INDEX"},
        places=(
            ("0 spec template spec containers 0 env",),
            ("1 spec template spec containers 0 env",),
        ),
        image="out",
        volume="reports",
        statuses={101: 0, 124: 1, 137: 1},
    ),
]
