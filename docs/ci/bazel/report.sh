#!/bin/bash
# Bazel itself would write XML with one case for each shard; this has one for each trial. The last line ends with 101 if a trial
# failed, and with 1 if the report is cut or lost. Bazel keeps the report in bazel-testlogs/sums/shard_1_of_4/test.outputs.
report=$TEST_UNDECLARED_OUTPUTS_DIR/sums.json
# If Bazel ended a suite that hangs, there would be no XML of ours.
timeout "$((TEST_TIMEOUT - 30))" out/sums --format json --report-time --logfile "$report" "$@"
out/reports junit --status --name sums "$report" >"$XML_OUTPUT_FILE"
