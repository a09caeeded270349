#!/bin/bash
# Runs a suite in four shards by GNU parallel, and joins their reports. It needs out/sums and out/reports, and ends with 101 if a
# trial failed. `./parallel.sh --resume-failed` runs those shards again that were killed. For other machines, add this behind
# `parallel`:
#
#     --sshlogin one,two --env TEST_TOTAL_SHARDS --basefile out/sums --return 'sums.{}.json' --cleanup
shards=4

# A job that doesn't start would leave the report of an earlier run.
[ "$1" = --resume-failed ] || rm -f sums.*.json sums.log

# A trial that failed, 101, is no reason to run its shard again. Of what was killed, the reports have more than the status here.
export TEST_TOTAL_SHARDS=$shards
seq 0 $((shards - 1)) | parallel --joblog sums.log "$@" \
    'TEST_SHARD_INDEX={} timeout 15m out/sums --format json --report-time --logfile sums.{}.json || [ $? = 101 ]'

# If a shard was killed or lost, it joins what there is.
out/reports join --cut --by-name --shards "$shards" sums.*.json >all.json
# Last, since this script ends with its status: 101 if a trial failed, and 1 if a report is cut or lost.
out/reports junit --status --name sums all.json >junit.xml
