Standard streams that are closed when a program begins. Reading or writing one fails, and no file that the program opens gets its
descriptor: nothing that is printed goes into a report, and no file is read as standard input.

  $ content() {
  >     if [ -s $1 ]; then readreport <$1 2>/dev/null | cut -d ';' -f 1 || echo "$(wc -l <$1) lines"; else echo nothing; fi
  > }
  $ closed() {
  >     for streams in '<&-' '>&-' '2>&-' '<&- >&-' '<&- 2>&-' '>&- 2>&-' '<&- >&- 2>&-'; do
  >         rm -f out err log; eval '"$@" >out 2>err' "$streams"
  >         echo "$? of $streams: $(content out) printed, $(content log) logged"
  >         sed -E '/^n=/d; s/test_[0-9]+ has/a trial has/' err | sort -u
  >     done
  > }
  $ closed bench_suite 30 json 1 wait 8 slow_limit 1
  0 of <&-: 30 trials: 30 passed printed, nothing logged
  bench_suite: a trial has been running for over 1 ms
  1 of >&-: nothing printed, nothing logged
  bench_suite: cannot write the report to standard output: Bad file descriptor (os error 9)
  0 of 2>&-: 30 trials: 30 passed printed, nothing logged
  1 of <&- >&-: nothing printed, nothing logged
  bench_suite: cannot write the report to standard output: Bad file descriptor (os error 9)
  0 of <&- 2>&-: 30 trials: 30 passed printed, nothing logged
  1 of >&- 2>&-: nothing printed, nothing logged
  1 of <&- >&- 2>&-: nothing printed, nothing logged
  $ closed bench_suite 30 json 2 wait 8 slow_limit 1
  0 of <&-: 30 trials: 30 passed printed, nothing logged
  bench_suite: a trial has been running for over 1 ms
  1 of >&-: nothing printed, nothing logged
  bench_suite: cannot write the report to standard output: Bad file descriptor (os error 9)
  0 of 2>&-: 30 trials: 30 passed printed, nothing logged
  1 of <&- >&-: nothing printed, nothing logged
  bench_suite: cannot write the report to standard output: Bad file descriptor (os error 9)
  0 of <&- 2>&-: 30 trials: 30 passed printed, nothing logged
  1 of >&- 2>&-: nothing printed, nothing logged
  1 of <&- >&- 2>&-: nothing printed, nothing logged
  $ closed bench_suite 30 json 1 wait 8 slow_limit 1 logfile log
  0 of <&-: nothing printed, 30 trials: 30 passed logged
  bench_suite: a trial has been running for over 1 ms
  0 of >&-: nothing printed, 30 trials: 30 passed logged
  bench_suite: a trial has been running for over 1 ms
  0 of 2>&-: nothing printed, 30 trials: 30 passed logged
  0 of <&- >&-: nothing printed, 30 trials: 30 passed logged
  bench_suite: a trial has been running for over 1 ms
  0 of <&- 2>&-: nothing printed, 30 trials: 30 passed logged
  0 of >&- 2>&-: nothing printed, 30 trials: 30 passed logged
  0 of <&- >&- 2>&-: nothing printed, 30 trials: 30 passed logged
  $ closed bench_suite 30 json 2 wait 8 slow_limit 1 logfile log
  0 of <&-: nothing printed, 30 trials: 30 passed logged
  bench_suite: a trial has been running for over 1 ms
  0 of >&-: nothing printed, 30 trials: 30 passed logged
  bench_suite: a trial has been running for over 1 ms
  0 of 2>&-: nothing printed, 30 trials: 30 passed logged
  0 of <&- >&-: nothing printed, 30 trials: 30 passed logged
  bench_suite: a trial has been running for over 1 ms
  0 of <&- 2>&-: nothing printed, 30 trials: 30 passed logged
  0 of >&- 2>&-: nothing printed, 30 trials: 30 passed logged
  0 of <&- >&- 2>&-: nothing printed, 30 trials: 30 passed logged
  $ closed harness --format json
  101 of <&-: 17 trials: 4 passed printed, nothing logged
  1 of >&-: nothing printed, nothing logged
  harness: cannot write the report
  101 of 2>&-: 17 trials: 4 passed printed, nothing logged
  1 of <&- >&-: nothing printed, nothing logged
  harness: cannot write the report
  101 of <&- 2>&-: 17 trials: 4 passed printed, nothing logged
  1 of >&- 2>&-: nothing printed, nothing logged
  1 of <&- >&- 2>&-: nothing printed, nothing logged
  $ closed harness --format json --logfile log
  101 of <&-: nothing printed, 17 trials: 4 passed logged
  101 of >&-: nothing printed, 17 trials: 4 passed logged
  101 of 2>&-: nothing printed, 17 trials: 4 passed logged
  101 of <&- >&-: nothing printed, 17 trials: 4 passed logged
  101 of <&- 2>&-: nothing printed, 17 trials: 4 passed logged
  101 of >&- 2>&-: nothing printed, 17 trials: 4 passed logged
  101 of <&- >&- 2>&-: nothing printed, 17 trials: 4 passed logged
  $ closed harness --list
  0 of <&-: 17 lines printed, nothing logged
  1 of >&-: nothing printed, nothing logged
  harness: cannot write the report
  0 of 2>&-: 17 lines printed, nothing logged
  1 of <&- >&-: nothing printed, nothing logged
  harness: cannot write the report
  0 of <&- 2>&-: 17 lines printed, nothing logged
  1 of >&- 2>&-: nothing printed, nothing logged
  1 of <&- >&- 2>&-: nothing printed, nothing logged
  $ closed harness --list --logfile log
  0 of <&-: nothing printed, 17 lines logged
  0 of >&-: nothing printed, 17 lines logged
  0 of 2>&-: nothing printed, 17 lines logged
  0 of <&- >&-: nothing printed, 17 lines logged
  0 of <&- 2>&-: nothing printed, 17 lines logged
  0 of >&- 2>&-: nothing printed, 17 lines logged
  0 of <&- >&- 2>&-: nothing printed, 17 lines logged

Those of `reports`.

  $ sums >all; harness --format json >mixed; [ $? = 101 ]
  $ reports compare - all <&-
  2> reports: -: Bad file descriptor (os error 9)
  [1]
  $ reports compare all - <&-
  0 new failure; 0 regressed; 0 missing; 3 not run; 0 new; 0 not run before; 0 newly ignored; 0 newly passing; 0 another message; 0 still failing; 0 unchanged; 0 slower; 0 faster
  2> reports: -: Bad file descriptor (os error 9)
  [1]

Each subcommand with each stream closed.

  $ calls() {
  >     for call in 'join --shards 1 -' 'join --cut --shards 1 -' 'junit --name n -' 'show -' 'show --failed -' 'known -' \
  >         'expect /dev/null -' 'compare - all' 'page -' 'slowest -' watch; do
  >         "$@" "$call"; echo "$? of reports $call"
  >     done
  > }
  $ no_input() { reports $1 <&- >out 2>err; local status=$?; cat err; return $status; }
  $ calls no_input
  reports: -: Bad file descriptor (os error 9)
  1 of reports join --shards 1 -
  reports: -: Bad file descriptor (os error 9)
  1 of reports join --cut --shards 1 -
  reports: -: Bad file descriptor (os error 9)
  1 of reports junit --name n -
  reports: -: Bad file descriptor (os error 9)
  1 of reports show -
  reports: -: Bad file descriptor (os error 9)
  1 of reports show --failed -
  reports: -: Bad file descriptor (os error 9)
  1 of reports known -
  reports: -: Bad file descriptor (os error 9)
  1 of reports expect /dev/null -
  reports: -: Bad file descriptor (os error 9)
  1 of reports compare - all
  reports: -: Bad file descriptor (os error 9)
  1 of reports page -
  reports: -: Bad file descriptor (os error 9)
  1 of reports slowest -
  reports: Bad file descriptor (os error 9)
  1 of reports watch
  $ no_output() { reports $1 <mixed >&- 2>err; local status=$?; cat err; return $status; }
  $ calls no_output
  reports: cannot write to standard output: Bad file descriptor (os error 9)
  1 of reports join --shards 1 -
  reports: cannot write to standard output: Bad file descriptor (os error 9)
  1 of reports join --cut --shards 1 -
  reports: cannot write to standard output: Bad file descriptor (os error 9)
  1 of reports junit --name n -
  reports: cannot write to standard output: Bad file descriptor (os error 9)
  1 of reports show -
  reports: cannot write to standard output: Bad file descriptor (os error 9)
  1 of reports show --failed -
  reports: cannot write to standard output: Bad file descriptor (os error 9)
  1 of reports known -
  reports: cannot write to standard output: Bad file descriptor (os error 9)
  1 of reports expect /dev/null -
  reports: cannot write to standard output: Bad file descriptor (os error 9)
  1 of reports compare - all
  reports: cannot write to standard output: Bad file descriptor (os error 9)
  1 of reports page -
  0 of reports slowest -
  reports: cannot write to standard output: Bad file descriptor (os error 9)
  1 of reports watch
  $ no_error() { reports $1 <mixed 2>&- | cksum; return ${PIPESTATUS[0]}; }
  $ with_error() { reports $1 <mixed 2>err | cksum; return ${PIPESTATUS[0]}; }
  $ diff <(calls no_error) <(calls with_error)
