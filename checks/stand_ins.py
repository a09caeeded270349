"""Stand-ins for `checks/recipes`: a suite, tools, and the machines on which services run recipes."""

import os
import pathlib
import re
import shutil
import subprocess
from typing import NamedTuple

import runner
from services import RECIPES, at, document, shell_of

# The script that is out/sums. SUITE says what becomes of the shard with index 2. In each suite but one `2 + 2`, of the shard with
# index 1, fails. The file RAN has the indexes of the shards that ran. The last word of the line is the logfile.
SUMS = """
echo "$TEST_SHARD_INDEX" >>"$RAN"
if [ "$TEST_SHARD_INDEX" = 2 ]; then
    case $SUITE in
        lost) kill -9 $$ ;;
        killed | hangs)
            PROGRAM "$@"
            beginning=$(head -n 2 "${!#}")
            echo "$beginning" >"${!#}"
            [ "$SUITE" = killed ] && kill -9 $$
            sleep 60
            ;;
    esac
fi
[ "$SUITE" != passes ] || set -- "$@" --skip '2 + 2'
exec PROGRAM "$@"
"""

# The programs that the recipes build, and the tools that they call.
TOOLS = {
    # The step of one's own that builds. The file BUILT has a line for each time.
    "build": 'echo built >>"$BUILT" && mkdir -p out && cp PROGRAMS/* out\n',
    # Artifacts are those of all jobs of a run. It is an error if there are none, and they have no modes.
    "buildkite-agent": """
[ "$1 $2" = "artifact download" ] || exit 1
for kept in "$STORE"/*; do
    here=$PWD
    (cd "$kept" && cp --parents --no-preserve=mode $3 "$here/$4" 2>/dev/null) && found=yes
done
[ "$found" ]
""",
    # A script as an array, whose indexes are a range or have commas. The status is the greatest of the tasks.
    "sbatch": """
for word; do
    case $word in
        --wait) waits=yes ;;
        --array=*) array=${word#--array=} ;;
        --*) exit 1 ;;
        *) script=$word ;;
    esac
done
output=$(sed -n 's/^#SBATCH --output=//p' "$script")
[ "$waits" ] && [ "$output" ] || exit 1
case $array in
    *-*) indexes=$(seq "${array%-*}" "${array#*-}") ;;
    *) indexes=${array//,/ } ;;
esac
greatest=0
for index in $indexes; do
    SLURM_ARRAY_TASK_ID=$index bash "$script" >"${output/\\%a/$index}" 2>&1 </dev/null
    status=$?
    [ $status -le $greatest ] || greatest=$status
done
exit $greatest
""",
    # The tasks of a job. A task that fails ends those behind it, if this isn't switched off.
    "srun": """
while [ "${1#--}" != "$1" ]; do
    case $1 in
        --kill-on-bad-exit=0) goes_on=yes ;;
        --output=*%t*) output=${1#--output=} ;;
        *) exit 1 ;;
    esac
    shift
done
greatest=0
for index in $(seq 0 $((SLURM_NTASKS - 1))); do
    SLURM_PROCID=$index "$@" >"${output/\\%t/$index}" 2>&1 </dev/null
    status=$?
    [ $status -le $greatest ] || greatest=$status
    [ "$goes_on" ] || [ $status = 0 ] || break
done
exit $greatest
""",
    # A job for each line of standard input, but for those that the log has as passed if it resumes. The status is the number of
    # those that failed.
    "parallel": """
[ "$1" = --joblog ] && log=$2 && shift 2 || exit 255
[ "$1" != --resume-failed ] || { resumes=yes; shift; }
[ $# = 1 ] || exit 255
failed=0
while read -r line; do
    [ "$resumes" ] && grep -qx "$line passed" "$log" && continue
    if bash -c "${1//'{}'/$line}" </dev/null; then
        echo "$line passed" >>"$log"
    else
        failed=$((failed + 1))
    fi
done
exit $failed
""",
}

# How one calls the recipes that are called, and how to run the shard with index 2 again, if not all.
CALLED = {
    "slurm.sh": ("bash slurm.sh", "bash slurm.sh 2"),
    "srun.sh": ("bash srun.sh", ""),
    "parallel.sh": ("bash parallel.sh", "bash parallel.sh --resume-failed"),
    "Makefile": ("make -j4 SHARDS=TOTAL", "make SHARDS=TOTAL sums.2.json join"),
}


class Ended(NamedTuple):
    """How a recipe ended: its status, what it printed on standard error, and the statuses of its shards' jobs, if it has such."""

    status: int
    said: str
    shards: list


def write_scripts():
    """Writes programs and tools, before anything runs: a script can't be called while a process that was forked has it open."""
    programs = {"sums": SUMS.replace("PROGRAM", str(runner.program("example_sums")))}
    programs["reports"] = f'exec {runner.program("reports")} "$@"\n'
    tools = {name: text.replace("PROGRAMS", os.path.abspath("programs")) for name, text in TOOLS.items()}
    for folder, scripts in {"programs": programs, "tools": tools}.items():
        os.mkdir(folder)
        for name, text in scripts.items():
            path = pathlib.Path(folder, name)
            path.write_text("#!/bin/bash\n" + text, encoding="utf-8")
            path.chmod(0o755)


def copy(words, folder, target, modes=True):
    """Copies files by a process of its own, for the same reason."""
    target.mkdir(parents=True, exist_ok=True)
    subprocess.run(["cp", "-r", f"--{'' if modes else 'no-'}preserve=mode", *words, target], cwd=folder, check=True)


def replaced(text, words):
    """Returns the text with what these words stand for."""
    for word, meaning in words.items():
        text = text.replace(word, str(meaning))
    return text


def impatient(text):
    """Returns the text of a recipe so that it waits for five seconds, and not for minutes."""
    return text.replace("timeout 15m", "timeout 5s")


def run(words, folder, variables):
    """Returns the status of these words, and what they print on standard error."""
    settings = {"PATH": f"{os.path.abspath('tools')}:{os.environ['PATH']}", "HOME": str(folder), **variables}
    pipes = {"stdin": subprocess.DEVNULL, "capture_output": True, "encoding": "utf-8"}
    ended = subprocess.run(words, cwd=folder, env=settings, timeout=120, **pipes)
    return ended.returncode % 256 if ended.returncode >= 0 else 128 - ended.returncode, ended.stderr


class Called:
    """A recipe that is called, and runs all itself, in one folder."""

    def __init__(self, file, words, total, folder):
        self.file, self.words, self.total = file, words, total
        self.here, self.ran = folder / "here", folder / "ran"

    def run(self, suite, words=""):
        copy(["."], "programs", self.here / "out")
        text = (RECIPES / self.file).read_text(encoding="utf-8").replace("\nshards=4\n", f"\nshards={self.total}\n")
        (self.here / self.file).write_text(impatient(text), encoding="utf-8")
        variables = {"SUITE": suite, "RAN": str(self.ran), "SLURM_NTASKS": str(self.total)}
        status, said = run((words or self.words[0]).replace("TOTAL", str(self.total)).split(), self.here, variables)
        # make ends with 2 if a command fails, and prints how that ended.
        failed = re.search(r"(?m)^make: .*: (?:test|join)\] Error (\d+)$", said)
        return Ended(int(failed[1]) if failed else status, said, None)

    def again(self, suite):
        return self.run(suite, self.words[1])


class Served:
    """A recipe under its service. Its machines keep their folders from run to run, and each run has a store for what jobs keep."""

    def __init__(self, service, total, folder, without=()):
        self.service, self.total, self.folder, self.without = service, total, folder, without
        self.document, self.runs = document(service.file), 0
        self.here, self.ran, self.built = folder / "joining" / service.volume, folder / "ran", folder / "built"

    def run(self, suite):
        self.runs += 1
        self.store().mkdir(parents=True)
        if self.service.programs:
            self.build()
        return self.join(suite, [self.shard(index, suite, 1) for index in range(self.total)])

    def again(self, suite):
        return self.join(suite, [self.shard(2, suite, 2)])

    def store(self):
        return self.folder / f"store{self.runs}"

    def build(self):
        here = self.machine("building", 0)
        (here / "build").unlink(missing_ok=True)
        (here / "build").symlink_to(pathlib.Path("tools", "build").resolve())
        run(["bash", "-c", self.thing(self.service.builds)], here, {"BUILT": str(self.built)})
        self.keep(here, self.thing(self.service.programs), "programs")

    def shard(self, index, suite, attempt):
        """Returns the status of a shard's job."""
        here = self.machine(f"shard{index}", 0)
        words = {"INDEX": index, "POSITION": index + 1, "ATTEMPT": attempt, "TOTAL": self.total, "STORE": self.store()}
        variables = {"SUITE": suite, "RAN": str(self.ran)} | self.variables(0, words)
        status = run(self.shell("each shard"), here, variables)[0]
        if self.service.reports:
            self.keep(here, self.filled(self.thing(self.service.reports), words), self.filled(self.thing(self.service.name), words))
        if self.service.ends:
            status = run(["bash", "-c", self.thing(self.service.ends)], here, {})[0]
        return status

    def join(self, suite, shards):
        here = self.machine("joining", 1)
        for kept in sorted(self.store().glob("sums-*")) if self.service.reports_in else ():
            copy(["."], kept, here)
        words = {"TOTAL": self.total, "STORE": self.store(), "FOLDER": self.folder}
        return Ended(*run(self.shell("all shards"), here, self.variables(1, words) | {"SUITE": suite}), shards)

    def machine(self, name, job):
        """Returns the folder of a job of a shard, 0, or of the joining job, 1, with the programs in it, and the volume."""
        service, here = self.service, self.folder / name
        if service.clears[job]:
            shutil.rmtree(here, ignore_errors=True)
        here.mkdir(parents=True, exist_ok=True)
        if service.image:
            copy(["."], "programs", here / service.image)
            mounts = at(self.document, f"{job} spec template spec containers 0 volumeMounts")
            part = self.folder / "volume" / mounts[0]["subPath"].replace("RUN", str(self.runs))
            part.mkdir(parents=True, exist_ok=True)
            (here / service.volume).symlink_to(part)
        elif service.programs_in and (self.store() / "programs").exists():
            copy(["."], self.store() / "programs", here / service.programs_in)
        return here

    def keep(self, here, pattern, name):
        """Puts a job's files of this pattern into the store, under a name."""
        paths, target = [path.relative_to(here) for path in here.glob(pattern)], self.store() / name
        if not paths or target.exists() and not self.service.twice:
            return
        shutil.rmtree(target, ignore_errors=True)
        flat = self.service.flat and (here / paths[0]).is_dir()
        copy([f"{paths[0]}/."] if flat else ["--parents", *paths], here, target, self.service.modes)

    def thing(self, place):
        """Returns what is at a place. What has one word is no place, but the thing itself."""
        return at(self.document, place) if " " in place else place

    def filled(self, text, words):
        return replaced(replaced(text, self.service.texts), words)

    def shell(self, name):
        return [*self.service.shell.split(), impatient(self.service.reads(shell_of(self.service.file, name)))]

    def variables(self, job, words):
        """Returns the variables that the service and the recipe set in the jobs of shards, 0, or in the joining job, 1."""
        found = dict([self.service.sharded, self.service.joined][job])
        for place in self.service.places[job]:
            more = at(self.document, place)
            found.update({it["name"]: it["value"] for it in more} if isinstance(more, list) else more)
        found = {name: self.filled(str(value), words) for name, value in found.items() if name not in self.without}
        found |= {name: str(self.total) for name in ("SHARDS", "TEST_TOTAL_SHARDS") if name in found}
        return found | {"STORE": str(self.store())}
