`example_sums` is the shortest program.

  $ example_sums --format json --test-threads 1 | timeless
  { "type": "suite", "event": "started", "test_count": 3 }
  { "type": "test", "event": "started", "name": "1 + 1" }
  { "type": "test", "name": "1 + 1", "event": "ok" }
  { "type": "test", "event": "started", "name": "2 + 2" }
  { "type": "test", "name": "2 + 2", "event": "failed", "stdout": "Error: \"assertion `left == right` failed\n  left: 4\n right: 5\"\n" }
  { "type": "test", "event": "started", "name": "7 + 0" }
  { "type": "test", "name": "7 + 0", "event": "ok" }
  { "type": "suite", "event": "failed", "passed": 2, "failed": 1, "ignored": 0, "measured": 0, "filtered_out": 0, "exec_time": 0 }
  [101]
  $ example_sums --list
  1 + 1: test
  2 + 2: test
  7 + 0: test

With `--report-time` each row has its time, but not in terse.

  $ example_sums --report-time --test-threads 1 | timeless
  
  running 3 tests
  test 1 + 1 ... ok <0.000s>
  test 2 + 2 ... FAILED <0.000s>
  test 7 + 0 ... ok <0.000s>
  
  failures:
  
  ---- 2 + 2 ----
  assertion `left == right` failed
    left: 4
   right: 5
  
  
  failures:
      2 + 2
  
  test result: FAILED. 2 passed; 1 failed; 0 ignored; 0 measured; 0 filtered out; finished in 0.00s
  
  [101]
  $ example_sums --report-time --test-threads 1 --quiet | timeless
  
  running 3 tests
  .F.
  failures:
  
  ---- 2 + 2 ----
  assertion `left == right` failed
    left: 4
   right: 5
  
  
  failures:
      2 + 2
  
  test result: FAILED. 2 passed; 1 failed; 0 ignored; 0 measured; 0 filtered out; finished in 0.00s
  
  [101]
  $ example_sums --report-time --format json --test-threads 1 | timeless
  { "type": "suite", "event": "started", "test_count": 3 }
  { "type": "test", "event": "started", "name": "1 + 1" }
  { "type": "test", "name": "1 + 1", "event": "ok", "exec_time": 0 }
  { "type": "test", "event": "started", "name": "2 + 2" }
  { "type": "test", "name": "2 + 2", "event": "failed", "exec_time": 0, "stdout": "Error: \"assertion `left == right` failed\n  left: 4\n right: 5\"\n" }
  { "type": "test", "event": "started", "name": "7 + 0" }
  { "type": "test", "name": "7 + 0", "event": "ok", "exec_time": 0 }
  { "type": "suite", "event": "failed", "passed": 2, "failed": 1, "ignored": 0, "measured": 0, "filtered_out": 0, "exec_time": 0 }
  [101]

An error shows a long word whole.

  $ x=$(printf 'x%.0s' {1..9000}); example_sums --$x 2>said; echo "status $?"; sed "s/$x/(9000 x)/g" said
  status 2
  error: unexpected argument '--(9000 x)' found
  
    tip: to pass '--(9000 x)' as a value, use '-- --(9000 x)'
  
  Usage: example_sums [OPTIONS] [FILTER]...
  
  For more information, try '--help'.
