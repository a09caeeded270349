`bench_suite N FORMAT THREADS` runs trials that do nothing, unless further words say what they do, and prints what that took.

  $ bench_suite 7 json 1 fail_every 3
  { "type": "suite", "event": "started", "test_count": 7 }
  { "type": "test", "event": "started", "name": "test_000000" }
  { "type": "test", "name": "test_000000", "event": "ok" }
  { "type": "test", "event": "started", "name": "test_000001" }
  { "type": "test", "name": "test_000001", "event": "ok" }
  { "type": "test", "event": "started", "name": "test_000002" }
  { "type": "test", "name": "test_000002", "event": "failed", "stdout": "Error: \"the left side is not equal to the right!\"\n" }
  { "type": "test", "event": "started", "name": "test_000003" }
  { "type": "test", "name": "test_000003", "event": "ok" }
  { "type": "test", "event": "started", "name": "test_000004" }
  { "type": "test", "name": "test_000004", "event": "ok" }
  { "type": "test", "event": "started", "name": "test_000005" }
  { "type": "test", "name": "test_000005", "event": "failed", "stdout": "Error: \"the left side is not equal to the right!\"\n" }
  { "type": "test", "event": "started", "name": "test_000006" }
  { "type": "test", "name": "test_000006", "event": "ok" }
  { "type": "suite", "event": "failed", "passed": 5, "failed": 2, "ignored": 0, "measured": 0, "filtered_out": 0, "exec_time": 0 }
  2> n=7 format=json threads=1 fail_every=3 make=\d+\.\d{3}s run=\d+\.\d{3}s VmHWM:\d+kB (re)
  [101]

Two threads write marks in any order. Here a run's failures aren't shown.

  $ run() { bench_suite 7 terse 2 "$@" | sed '/^failures:/,/^test result/{/^test result/!d}'; }
  $ run
  
  running 7 tests
  .......
  test result: ok. 7 passed; 0 failed; 0 ignored; 0 measured; 0 filtered out; finished in 0.00s
  
  2> n=7 format=terse threads=2 fail_every=0 make=\d+\.\d{3}s run=\d+\.\d{3}s VmHWM:\d+kB (re)
  $ run fail_every 3
  
  running 7 tests
  (\.*F){2}\.* (re)
  test result: FAILED. 5 passed; 2 failed; 0 ignored; 0 measured; 0 filtered out; finished in 0.00s
  
  2> n=7 format=terse threads=2 fail_every=3 make=\d+\.\d{3}s run=\d+\.\d{3}s VmHWM:\d+kB (re)
  [101]
  $ run captures 1
  
  running 7 tests
  .......
  test result: ok. 7 passed; 0 failed; 0 ignored; 0 measured; 0 filtered out; finished in 0.00s
  
  2> n=7 format=terse threads=2 fail_every=0 make=\d+\.\d{3}s run=\d+\.\d{3}s VmHWM:\d+kB (re)
  $ run captures 1 fail_every 3
  
  running 7 tests
  (\.*F){2}\.* (re)
  test result: FAILED. 5 passed; 2 failed; 0 ignored; 0 measured; 0 filtered out; finished in 0.00s
  
  2> n=7 format=terse threads=2 fail_every=3 make=\d+\.\d{3}s run=\d+\.\d{3}s VmHWM:\d+kB (re)
  [101]
  $ run report_time 1
  
  running 7 tests
  .......
  test result: ok. 7 passed; 0 failed; 0 ignored; 0 measured; 0 filtered out; finished in 0.00s
  
  2> n=7 format=terse threads=2 fail_every=0 make=\d+\.\d{3}s run=\d+\.\d{3}s VmHWM:\d+kB (re)
  $ run dealt 1 report_time 1 fail_every 3
  
  running 7 tests
  (\.*F){2}\.* (re)
  test result: FAILED. 5 passed; 2 failed; 0 ignored; 0 measured; 0 filtered out; finished in 0.00s
  
  2> n=7 format=terse threads=2 fail_every=3 make=\d+\.\d{3}s run=\d+\.\d{3}s VmHWM:\d+kB (re)
  [101]
  $ run slow_limit 60000 fail_every 3 | timeless
  
  running 7 tests
  (\.*F){2}\.* (re)
  test result: FAILED. 5 passed; 2 failed; 0 ignored; 0 measured; 0 filtered out; finished in 0.00s
  
  2> n=7 format=terse threads=2 fail_every=3 make=\d+\.\d{3}s run=\d+\.\d{3}s VmHWM:\d+kB (re)
  [101]
  $ run work 10
  
  running 7 tests
  .......
  test result: ok. 7 passed; 0 failed; 0 ignored; 0 measured; 0 filtered out; finished in 0.00s
  
  2> n=7 format=terse threads=2 fail_every=0 make=\d+\.\d{3}s run=\d+\.\d{3}s VmHWM:\d+kB (re)

Work takes time. One of two threads waits four times, and one thread alone would wait seven times.

  $ run work 50000
  
  running 7 tests
  .......
  test result: ok. 7 passed; 0 failed; 0 ignored; 0 measured; 0 filtered out; finished in 0.00s
  
  2> n=7 format=terse threads=2 fail_every=0 make=\d+\.\d{3}s run=(?!0\.0)\d+\.\d{3}s VmHWM:\d+kB (re)
  $ run wait 500
  
  running 7 tests
  .......
  test result: ok. 7 passed; 0 failed; 0 ignored; 0 measured; 0 filtered out; finished in 0.00s
  
  2> n=7 format=terse threads=2 fail_every=0 make=\d+\.\d{3}s run=(2\.\d|3\.[0-3])\d\ds VmHWM:\d+kB (re)
  $ run wait 500 report_time 1
  
  running 7 tests
  .......
  test result: ok. 7 passed; 0 failed; 0 ignored; 0 measured; 0 filtered out; finished in 0.00s
  
  2> n=7 format=terse threads=2 fail_every=0 make=\d+\.\d{3}s run=(2\.\d|3\.[0-3])\d\ds VmHWM:\d+kB (re)
  $ run slow_limit 0 wait 500 | timeless
  
  running 7 tests
  .......
  test result: ok. 7 passed; 0 failed; 0 ignored; 0 measured; 0 filtered out; finished in 0.00s
  
  2> n=7 format=terse threads=2 fail_every=0 make=\d+\.\d{3}s run=(2\.\d|3\.[0-3])\d\ds VmHWM:\d+kB (re)

The report goes into a logfile.

  $ run logfile log
  2> n=7 format=terse threads=2 fail_every=0 make=\d+\.\d{3}s run=\d+\.\d{3}s VmHWM:\d+kB (re)
  $ sed '/^failures:/,/^test result/{/^test result/!d}' log
  
  running 7 tests
  .......
  test result: ok. 7 passed; 0 failed; 0 ignored; 0 measured; 0 filtered out; finished in 0.00s
  
  $ run logfile log work 50000 captures 1 fail_every 5
  2> n=7 format=terse threads=2 fail_every=5 make=\d+\.\d{3}s run=(?!0\.0)\d+\.\d{3}s VmHWM:\d+kB (re)
  [101]
  $ sed '/^failures:/,/^test result/{/^test result/!d}' log
  
  running 7 tests
  (\.*F){1}\.* (re)
  test result: FAILED. 6 passed; 1 failed; 0 ignored; 0 measured; 0 filtered out; finished in 0.00s
  

As many words as there may be.

  $ bench_suite 3 json 1 fail_every 9 work 1 dealt 1 slow_limit 0 logfile log
  2> n=3 format=json threads=1 fail_every=9 .* (re)
  $ timeless <log
  { "type": "suite", "event": "started", "test_count": 3 }
  { "type": "test", "event": "started", "name": "test_000000" }
  { "type": "test", "name": "test_000000", "event": "ok" }
  { "type": "test", "event": "started", "name": "test_000001" }
  { "type": "test", "name": "test_000001", "event": "ok" }
  { "type": "test", "event": "started", "name": "test_000002" }
  { "type": "test", "name": "test_000002", "event": "ok" }
  { "type": "suite", "event": "ok", "passed": 3, "failed": 0, "ignored": 0, "measured": 0, "filtered_out": 0, "exec_time": 0 }
  $ bench_suite 3 json 1 fail_every 9 work 1 captures 1 dealt 1 report_time 1 clock real slow_limit 0 logfile log
  2> n=3 format=json threads=1 fail_every=9 .* (re)
  $ timeless <log
  { "type": "suite", "event": "started", "test_count": 3 }
  { "type": "test", "event": "started", "name": "test_000000" }
  { "type": "test", "name": "test_000000", "event": "ok", "exec_time": 0 }
  { "type": "test", "event": "started", "name": "test_000001" }
  { "type": "test", "name": "test_000001", "event": "ok", "exec_time": 0 }
  { "type": "test", "event": "started", "name": "test_000002" }
  { "type": "test", "name": "test_000002", "event": "ok", "exec_time": 0 }
  { "type": "suite", "event": "ok", "passed": 3, "failed": 0, "ignored": 0, "measured": 0, "filtered_out": 0, "exec_time": 0 }

Trials that run for longer than a limit are printed while they run.

  $ bench_suite 2 json 1 wait 600 slow_limit 200
  { "type": "suite", "event": "started", "test_count": 2 }
  { "type": "test", "event": "started", "name": "test_000000" }
  { "type": "test", "name": "test_000000", "event": "ok" }
  { "type": "test", "event": "started", "name": "test_000001" }
  { "type": "test", "name": "test_000001", "event": "ok" }
  { "type": "suite", "event": "ok", "passed": 2, "failed": 0, "ignored": 0, "measured": 0, "filtered_out": 0, "exec_time": [1-9]\.\d+ } (re)
  2> bench_suite: test_000000 has been running for over 200 ms
  2> bench_suite: test_000001 has been running for over 200 ms
  2> n=2 format=json threads=1 fail_every=0 .* (re)
  $ bench_suite 2 json 2 wait 600 slow_limit 200 2>slow | timeless | sort
  { "type": "suite", "event": "ok", "passed": 2, "failed": 0, "ignored": 0, "measured": 0, "filtered_out": 0, "exec_time": 0 }
  { "type": "suite", "event": "started", "test_count": 2 }
  { "type": "test", "event": "started", "name": "test_000000" }
  { "type": "test", "event": "started", "name": "test_000001" }
  { "type": "test", "name": "test_000000", "event": "ok" }
  { "type": "test", "name": "test_000001", "event": "ok" }
  $ sort slow
  bench_suite: test_000000 has been running for over 200 ms
  bench_suite: test_000001 has been running for over 200 ms
  n=2 format=json threads=2 fail_every=0 .* (re)

With 0 none are printed, and nor are they with the longest limit.

  $ bench_suite 1 json 1 wait 100 slow_limit 0 | timeless
  { "type": "suite", "event": "started", "test_count": 1 }
  { "type": "test", "event": "started", "name": "test_000000" }
  { "type": "test", "name": "test_000000", "event": "ok" }
  { "type": "suite", "event": "ok", "passed": 1, "failed": 0, "ignored": 0, "measured": 0, "filtered_out": 0, "exec_time": 0 }
  2> n=1 format=json threads=1 fail_every=0 .* (re)
  $ bench_suite 1 json 2 wait 100 slow_limit 18446744073709551615 | timeless
  { "type": "suite", "event": "started", "test_count": 1 }
  { "type": "test", "event": "started", "name": "test_000000" }
  { "type": "test", "name": "test_000000", "event": "ok" }
  { "type": "suite", "event": "ok", "passed": 1, "failed": 0, "ignored": 0, "measured": 0, "filtered_out": 0, "exec_time": 0 }
  2> n=1 format=json threads=2 fail_every=0 .* (re)

Words that are refused.

  $ while read -r words; do bench_suite $words 2>>said; echo "status $?"; done <<'.' | uniq -c; uniq -c said
  > 
  > 7 terse
  > 7 dots 2
  > x terse 2
  > 7 terse 2 captures
  > 7 terse 2 captures 0
  > 7 terse 2 boxes 0
  > 7 terse 2 work 1 wait 5
  > 7 terse 2 wait soon
  > 7 terse 2 wait 5 fail_every 2
  > 7 terse 2 report_time 0
  > 7 terse 2 report_time
  > 7 terse 2 clock still
  > 7 terse 2 clock
  > 7 terse 2 slow_limit
  > 7 terse 2 slow_limit soon
  > 7 terse 2 report_time 1 report_time 1
  > 7 terse 2 clock real clock real
  > .
       18 status 2
       18 bench_suite: usage: bench_suite N pretty|terse|json THREADS [fail_every K] [captures 1] [work K] [wait MS] [uneven HOW] [dealt 1] [report_time 1] [clock real] [slow_limit MS] [logfile PATH]
