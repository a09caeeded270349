A program that Bazel asks for a shard runs every N-th trial. `TEST_TOTAL_SHARDS` is N, and `TEST_SHARD_INDEX` the place of the
first one.

  $ shard() { TEST_SHARD_INDEX=$1 TEST_TOTAL_SHARDS=$2 "${@:3}"; }
  $ json=(--format json --test-threads 1)
  $ shard 0 2 example_sums "${json[@]}" | timeless
  { "type": "suite", "event": "started", "test_count": 2 }
  { "type": "test", "event": "started", "name": "1 + 1" }
  { "type": "test", "name": "1 + 1", "event": "ok" }
  { "type": "test", "event": "started", "name": "7 + 0" }
  { "type": "test", "name": "7 + 0", "event": "ok" }
  { "type": "suite", "event": "ok", "passed": 2, "failed": 0, "ignored": 0, "measured": 0, "filtered_out": 0, "exec_time": 0 }
  2> example_sums: shard 1 of 2: 2 of 3 trials
  $ shard 1 2 example_sums "${json[@]}" | timeless
  { "type": "suite", "event": "started", "test_count": 1 }
  { "type": "test", "event": "started", "name": "2 + 2" }
  { "type": "test", "name": "2 + 2", "event": "failed", "stdout": "Error: \"assertion `left == right` failed\n  left: 4\n right: 5\"\n" }
  { "type": "suite", "event": "failed", "passed": 0, "failed": 1, "ignored": 0, "measured": 0, "filtered_out": 0, "exec_time": 0 }
  2> example_sums: shard 2 of 2: 1 of 3 trials
  [101]
  $ shard 3 4 example_sums "${json[@]}" | timeless
  { "type": "suite", "event": "started", "test_count": 0 }
  { "type": "suite", "event": "ok", "passed": 0, "failed": 0, "ignored": 0, "measured": 0, "filtered_out": 0, "exec_time": 0 }
  2> example_sums: shard 4 of 4: 0 of 3 trials
  $ shard 001 03 example_sums --list
  2 + 2: test
  2> example_sums: shard 2 of 3: 1 of 3 trials
  $ shard 18446744073709551614 18446744073709551615 example_sums --list
  2> example_sums: shard 18446744073709551615 of 18446744073709551615: 0 of 3 trials
  $ shard 3 4 harness --list
  [apple] fox: test
  [banana] fly: test
  [kiwi] yellow: bench
  [banana] orange: bench
  2> harness: shard 4 of 4: 4 of 17 trials
  $ mkdir -p cases/words; cd cases; printf '\303\244' >words/umlaut.in; printf '\303\204' >words/umlaut.out
  $ echo ab >same.in; echo AB >same.out; printf 'a\nb\n' >other.in; printf 'A\nC\n' >other.out
  $ printf a >no_output.in; printf A >no_input.out; printf '\377' >bytes.in; : >bytes.out; cd ..
  $ shard 2 4 example_files cases -- "${json[@]}" | timeless
  { "type": "suite", "event": "started", "test_count": 1 }
  { "type": "test", "event": "started", "name": "no_output" }
  { "type": "test", "name": "no_output", "event": "failed", "stdout": "Error: \"cannot read no_output.out: No such file or directory (os error 2)\"\n" }
  { "type": "suite", "event": "failed", "passed": 0, "failed": 1, "ignored": 0, "measured": 0, "filtered_out": 0, "exec_time": 0 }
  2> example_files: shard 3 of 4: 1 of 6 trials
  [101]
  $ shard 1 4 example_files cases -- --list
  no_input: test
  [words] umlaut: test
  2> example_files: shard 2 of 4: 2 of 6 trials
  $ mkdir -p wrong/y_folder.json wrong/a/b; printf '[1,]' >wrong/y_comma.json; touch wrong/y_folder.json/n_inner.json
  $ printf 1 >wrong/a/b/y_deep.json; printf '[1]' >wrong/y_link.json; mkfifo wrong/y_pipe.json
  $ shard 1 3 example_json wrong -- "${json[@]}" | timeless
  { "type": "suite", "event": "started", "test_count": 2 }
  { "type": "test", "event": "started", "name": "y_link" }
  { "type": "test", "name": "y_link", "event": "ok" }
  { "type": "test", "event": "started", "name": "n_inner", "kind": "y_folder.json" }
  { "type": "test", "name": "n_inner", "kind": "y_folder.json", "event": "ok" }
  { "type": "suite", "event": "ok", "passed": 2, "failed": 0, "ignored": 0, "measured": 0, "filtered_out": 0, "exec_time": 0 }
  2> example_json: shard 2 of 3: 2 of 5 trials

`bench_suite` has no shards, and the variables of other engines mean nothing.

  $ shard 1 2 bench_suite 7 json 1 fail_every 3 | cmp - <(bench_suite 7 json 1 fail_every 3 2>/dev/null)
  2> n=7 format=json threads=1 fail_every=3 .* (re)
  [101]
  $ GTEST_TOTAL_SHARDS=2 GTEST_SHARD_INDEX=1 CI_NODE_TOTAL=2 CI_NODE_INDEX=2 TEST_SHARD_STATUS_FILE=$'\xff' \
  >     example_sums "${json[@]}" | timeless | cmp - <(sums)
  [101]

Bazel's filter is one more.

  $ TESTBRIDGE_TEST_ONLY=7 example_sums --list
  7 + 0: test
  $ TESTBRIDGE_TEST_ONLY=7 example_sums --list 1
  1 + 1: test
  $ TESTBRIDGE_TEST_ONLY= example_sums --list
  1 + 1: test
  2 + 2: test
  7 + 0: test
  $ TESTBRIDGE_TEST_ONLY=2 shard 0 2 example_sums --list
  2> example_sums: shard 1 of 2: 2 of 3 trials

A status file is made, or keeps what stands in it and was changed just now.

  $ mkdir -p deep/{b,a/c}; touch deep/{z,b/case,a/case,a/c/y,a/c/x}.{in,out}
  $ TEST_SHARD_STATUS_FILE=status shard 1 2 example_files deep -- --list
  [a] case: test
  [a/c] y: test
  2> example_files: shard 2 of 2: 2 of 5 trials
  $ wc -c <status
  0
  $ echo stays >status; touch -d @0 status; TEST_SHARD_STATUS_FILE=$PWD/status shard 1 2 example_files deep -- --list
  [a] case: test
  [a/c] y: test
  2> example_files: shard 2 of 2: 2 of 5 trials
  $ cat status; find status -mmin -1
  stays
  status
  $ TEST_SHARD_STATUS_FILE=nowhere/a shard 0 2 example_sums --logfile nowhere/log
  2> example_sums: cannot touch the status file nowhere/a: No such file or directory (os error 2)
  [2]

A line is read first, so help and a wrong line don't need the variables.

  $ shard 1 4 example_files -- --help | cmp - <(example_files -- --help)
  $ TESTBRIDGE_TEST_ONLY=$'\xff' shard x 2 example_sums --help | cmp - <(example_sums --help)
  $ shard x 2 example_sums --no-option
  2> error: unexpected argument '--no-option' found
  2> 
  2>   tip: to pass '--no-option' as a value, use '-- --no-option'
  2> 
  2> Usage: example_sums [OPTIONS] [FILTER]...
  2> 
  2> For more information, try '--help'.
  [2]

Variables that are no shard. A folder is read before them.

  $ shard 4 4 harness --list
  2> harness: TEST_SHARD_INDEX is not a number below TEST_TOTAL_SHARDS
  [2]
  $ shard 1 $'\xff' example_sums
  2> example_sums: TEST_TOTAL_SHARDS is not UTF-8
  [2]
  $ shard 2 2 example_files nowhere
  2> example_files: cannot read the folder nowhere: No such file or directory (os error 2)
  [1]
  $ TEST_SHARD_INDEX=0 example_files cases
  2> example_files: TEST_TOTAL_SHARDS is missing, but TEST_SHARD_INDEX is set
  [2]
  $ odd=('' ' ' +1 -1 ' 1' '1 ' $'1\n' 1.0 0x1 1e0 1_0 one $'\xd9\xa1' 18446744073709551616)
  $ for total in 0 00 1x "${odd[@]}"; do shard 0 "$total" example_sums; echo "status $?"; done | uniq -c
       17 status 2
  2> example_sums: TEST_TOTAL_SHARDS is not a number of shards
  2> example_sums: TEST_TOTAL_SHARDS is not a number of shards
  2> example_sums: TEST_TOTAL_SHARDS is not a number of shards
  2> example_sums: TEST_TOTAL_SHARDS is not a number of shards
  2> example_sums: TEST_TOTAL_SHARDS is not a number of shards
  2> example_sums: TEST_TOTAL_SHARDS is not a number of shards
  2> example_sums: TEST_TOTAL_SHARDS is not a number of shards
  2> example_sums: TEST_TOTAL_SHARDS is not a number of shards
  2> example_sums: TEST_TOTAL_SHARDS is not a number of shards
  2> example_sums: TEST_TOTAL_SHARDS is not a number of shards
  2> example_sums: TEST_TOTAL_SHARDS is not a number of shards
  2> example_sums: TEST_TOTAL_SHARDS is not a number of shards
  2> example_sums: TEST_TOTAL_SHARDS is not a number of shards
  2> example_sums: TEST_TOTAL_SHARDS is not a number of shards
  2> example_sums: TEST_TOTAL_SHARDS is not a number of shards
  2> example_sums: TEST_TOTAL_SHARDS is not a number of shards
  2> example_sums: TEST_TOTAL_SHARDS is not a number of shards
  $ for index in 4 5 "${odd[@]}"; do shard "$index" 4 example_sums; echo "status $?"; done | uniq -c
       16 status 2
  2> example_sums: TEST_SHARD_INDEX is not a number below TEST_TOTAL_SHARDS
  2> example_sums: TEST_SHARD_INDEX is not a number below TEST_TOTAL_SHARDS
  2> example_sums: TEST_SHARD_INDEX is not a number below TEST_TOTAL_SHARDS
  2> example_sums: TEST_SHARD_INDEX is not a number below TEST_TOTAL_SHARDS
  2> example_sums: TEST_SHARD_INDEX is not a number below TEST_TOTAL_SHARDS
  2> example_sums: TEST_SHARD_INDEX is not a number below TEST_TOTAL_SHARDS
  2> example_sums: TEST_SHARD_INDEX is not a number below TEST_TOTAL_SHARDS
  2> example_sums: TEST_SHARD_INDEX is not a number below TEST_TOTAL_SHARDS
  2> example_sums: TEST_SHARD_INDEX is not a number below TEST_TOTAL_SHARDS
  2> example_sums: TEST_SHARD_INDEX is not a number below TEST_TOTAL_SHARDS
  2> example_sums: TEST_SHARD_INDEX is not a number below TEST_TOTAL_SHARDS
  2> example_sums: TEST_SHARD_INDEX is not a number below TEST_TOTAL_SHARDS
  2> example_sums: TEST_SHARD_INDEX is not a number below TEST_TOTAL_SHARDS
  2> example_sums: TEST_SHARD_INDEX is not a number below TEST_TOTAL_SHARDS
  2> example_sums: TEST_SHARD_INDEX is not a number below TEST_TOTAL_SHARDS
  2> example_sums: TEST_SHARD_INDEX is not a number below TEST_TOTAL_SHARDS
