#!/bin/bash
#SBATCH --output=sums.%a.log
#SBATCH --time=20
# Runs a suite in four shards, as an array of Slurm, waits for them, and joins their reports: `./slurm.sh`, where you would call
# sbatch, in a folder that all nodes share. It needs out/sums and out/reports, and ends with 101 if a trial failed. `./slurm.sh 3`
# runs shard 3 again, as `sbatch --array=3 slurm.sh` does, and joins.
shards=4

# In a task of the array. Its total isn't that of the array, which may be of one shard.
if [ -n "$SLURM_ARRAY_TASK_ID" ]; then
    export TEST_TOTAL_SHARDS=$shards TEST_SHARD_INDEX=$SLURM_ARRAY_TASK_ID
    exec timeout 15m out/sums --format json --report-time --logfile "sums.$TEST_SHARD_INDEX.json"
fi

# A task that doesn't start would leave the report of an earlier run.
[ $# -gt 0 ] || rm -f sums.*.json

# The reports have more than the status here, which is the greatest of the tasks.
sbatch --wait --array="${1:-0-$((shards - 1))}" "$0"

# If a shard was killed or lost, it joins what there is.
out/reports join --cut --by-name --shards "$shards" sums.*.json >all.json
# Last, since this script ends with its status: 101 if a trial failed, and 1 if a report is cut or lost.
out/reports junit --status --name sums all.json >junit.xml
