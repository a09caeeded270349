#!/bin/bash
#SBATCH --ntasks=4
#SBATCH --time=20
# Runs a suite in four shards, as the tasks of one job of Slurm, and joins their reports: `sbatch --wait srun.sh`, in a folder that
# all nodes share. It needs out/sums and out/reports, and ends with 101 if a trial failed.

# A task that doesn't start would leave the report of an earlier run.
rm -f sums.*.json

# A task ends with 101 if a trial failed, which is no reason to end the others.
srun --kill-on-bad-exit=0 --output=sums.%t.log bash -c '
    export TEST_TOTAL_SHARDS=$SLURM_NTASKS TEST_SHARD_INDEX=$SLURM_PROCID
    exec timeout 15m out/sums --format json --report-time --logfile "sums.$TEST_SHARD_INDEX.json"'

# If a shard was killed or lost, it joins what there is.
out/reports join --cut --by-name --shards "$SLURM_NTASKS" sums.*.json >all.json
# Last, since this script ends with its status: 101 if a trial failed, and 1 if a report is cut or lost.
out/reports junit --status --name sums all.json >junit.xml
