`reports show` prints a report as the harness does that wrote it. Its status is that of the run.

  $ sums >sums
  $ reports show sums
  
  running 3 tests
  test 1 + 1 ... ok
  test 2 + 2 ... FAILED
  test 7 + 0 ... ok
  
  failures:
  
  ---- 2 + 2 ----
  assertion `left == right` failed
    left: 4
   right: 5
  
  
  failures:
      2 + 2
  
  test result: FAILED. 2 passed; 1 failed; 0 ignored; 0 measured; 0 filtered out; finished in 0.00s
  
  [101]
  $ reports show - <sums
  
  running 3 tests
  test 1 + 1 ... ok
  test 2 + 2 ... FAILED
  test 7 + 0 ... ok
  
  failures:
  
  ---- 2 + 2 ----
  assertion `left == right` failed
    left: 4
   right: 5
  
  
  failures:
      2 + 2
  
  test result: FAILED. 2 passed; 1 failed; 0 ignored; 0 measured; 0 filtered out; finished in 0.00s
  
  [101]
  $ reports show --color always sums
  
  running 3 tests
  test 1 + 1 ... \x1b[32mok\x1b[0m (esc)
  test 2 + 2 ... \x1b[31mFAILED\x1b[0m (esc)
  test 7 + 0 ... \x1b[32mok\x1b[0m (esc)
  
  failures:
  
  ---- 2 + 2 ----
  assertion `left == right` failed
    left: 4
   right: 5
  
  
  failures:
      2 + 2
  
  test result: \x1b[31mFAILED\x1b[0m. 2 passed; 1 failed; 0 ignored; 0 measured; 0 filtered out; finished in 0.00s (esc)
  
  [101]
  $ report --took 1.495 --out 7 'ok z' 'ignored [a/c] xy' 'ok [b] c' >kinds
  $ reports show kinds
  
  running 3 tests
  test       z  ... ok
  test [a/c] xy ... ignored
  test [b]   c  ... ok
  
  test result: ok. 2 passed; 0 failed; 1 ignored; 0 measured; 7 filtered out; finished in 1.50s
  
  $ report 'bench b: 5' >bench
  $ reports show bench
  
  running 1 test
  test b ... bench:           5 ns/iter (+/- 1)
  
  test result: ok. 0 passed; 0 failed; 0 ignored; 1 measured; 0 filtered out; finished in 0.00s
  
  $ report >none
  $ reports show none
  
  running 0 tests
  
  test result: ok. 0 passed; 0 failed; 0 ignored; 0 measured; 0 filtered out; finished in 0.00s
  

Times of trials are shown if the report has them.

  $ report --took 62.5 --out 13 'ok plain <0.35>' 'failed [k] b: no\nno <1.4999995>' 'ignored c' 'ok d' 'ok [k] e <0.35>' \
  >     'bench m: 1234 5 <61>' 'ok z <0>' 'failed short <0.000499999>' >times
  $ reports show times
  
  running 8 tests
  test     plain ... ok <0.350s>
  test [k] b     ... FAILED <1.500s>
  test     c     ... ignored
  test     d     ... ok
  test [k] e     ... ok <0.350s>
  test     m     ... bench:       1,234 ns/iter (+/- 5) <61.000s>
  test     z     ... ok <0.000s>
  test     short ... FAILED <0.000s>
  
  failures:
  
  ---- b ----
  no
  no
  
  ---- short ----
  
  
  failures:
      b
      short
  
  test result: FAILED. 4 passed; 2 failed; 1 ignored; 1 measured; 13 filtered out; finished in 62.50s
  
  [101]
  $ reports show --color always times
  
  running 8 tests
  test     plain ... \x1b[32mok\x1b[0m <0.350s> (esc)
  test [k] b     ... \x1b[31mFAILED\x1b[0m <1.500s> (esc)
  test     c     ... \x1b[33mignored\x1b[0m (esc)
  test     d     ... \x1b[32mok\x1b[0m (esc)
  test [k] e     ... \x1b[32mok\x1b[0m <0.350s> (esc)
  test     m     ... \x1b[36mbench\x1b[0m:       1,234 ns/iter (+/- 5) <61.000s> (esc)
  test     z     ... \x1b[32mok\x1b[0m <0.000s> (esc)
  test     short ... \x1b[31mFAILED\x1b[0m <0.000s> (esc)
  
  failures:
  
  ---- b ----
  no
  no
  
  ---- short ----
  
  
  failures:
      b
      short
  
  test result: \x1b[31mFAILED\x1b[0m. 4 passed; 2 failed; 1 ignored; 1 measured; 13 filtered out; finished in 62.50s (esc)
  
  [101]
  $ report --took 62.5 --out 13 'ok plain' 'failed [k] b: no\nno' 'ignored c' 'ok d' 'ok [k] e' 'bench m: 1234 5' 'ok z' \
  >     'failed short' >plain
  $ reports show plain
  
  running 8 tests
  test     plain ... ok
  test [k] b     ... FAILED
  test     c     ... ignored
  test     d     ... ok
  test [k] e     ... ok
  test     m     ... bench:       1,234 ns/iter (+/- 5)
  test     z     ... ok
  test     short ... FAILED
  
  failures:
  
  ---- b ----
  no
  no
  
  ---- short ----
  
  
  failures:
      b
      short
  
  test result: FAILED. 4 passed; 2 failed; 1 ignored; 1 measured; 13 filtered out; finished in 62.50s
  
  [101]

Of a report that is cut it shows the trials that had ended, their failures, and where the report ends.

  $ head -c -1 sums >cut
  $ reports show cut
  
  running 3 tests
  test 1 + 1 ... ok
  test 2 + 2 ... FAILED
  test 7 + 0 ... ok
  
  failures:
  
  ---- 2 + 2 ----
  assertion `left == right` failed
    left: 4
   right: 5
  
  
  failures:
      2 + 2
  
  the report ends after 3 of 3 trials
  2> reports: cut: the report is cut
  [1]
  $ head -n 6 sums >killed
  $ reports show killed
  
  running 3 tests
  test 1 + 1 ... ok
  test 2 + 2 ... FAILED
  
  failures:
  
  ---- 2 + 2 ----
  assertion `left == right` failed
    left: 4
   right: 5
  
  
  failures:
      2 + 2
  
  the report ends after 2 of 3 trials; running: 7 + 0
  2> reports: killed: the report is cut
  [1]
  $ reports show --color always killed
  
  running 3 tests
  test 1 + 1 ... \x1b[32mok\x1b[0m (esc)
  test 2 + 2 ... \x1b[31mFAILED\x1b[0m (esc)
  
  failures:
  
  ---- 2 + 2 ----
  assertion `left == right` failed
    left: 4
   right: 5
  
  
  failures:
      2 + 2
  
  the report ends after 2 of 3 trials; running: 7 + 0
  2> reports: killed: the report is cut
  [1]
  $ head -n 5 sums >two
  $ reports show two
  
  running 3 tests
  test 1 + 1 ... ok
  test 2 + 2 ... FAILED
  
  failures:
  
  ---- 2 + 2 ----
  assertion `left == right` failed
    left: 4
   right: 5
  
  
  failures:
      2 + 2
  
  the report ends after 2 of 3 trials
  2> reports: two: the report is cut
  [1]
  $ reports show --color always two
  
  running 3 tests
  test 1 + 1 ... \x1b[32mok\x1b[0m (esc)
  test 2 + 2 ... \x1b[31mFAILED\x1b[0m (esc)
  
  failures:
  
  ---- 2 + 2 ----
  assertion `left == right` failed
    left: 4
   right: 5
  
  
  failures:
      2 + 2
  
  the report ends after 2 of 3 trials
  2> reports: two: the report is cut
  [1]
  $ head -n 5 kinds >two_kinds
  $ reports show two_kinds
  
  running 3 tests
  test       z  ... ok
  test [a/c] xy ... ignored
  
  the report ends after 2 of 3 trials
  2> reports: two_kinds: the report is cut
  [1]
  $ head -n 6 times >cut_times
  $ reports show cut_times
  
  running 8 tests
  test     plain ... ok <0.350s>
  test [k] b     ... FAILED <1.500s>
  
  failures:
  
  ---- b ----
  no
  no
  
  
  failures:
      b
  
  the report ends after 2 of 8 trials; running: c
  2> reports: cut_times: the report is cut
  [1]
  $ begun 3 'failed a: x' 'running [k] b' | reports show -
  
  running 3 tests
  test a ... FAILED
  
  failures:
  
  ---- a ----
  x
  
  
  failures:
      a
  
  the report ends after 1 of 3 trials; running: [k] b
  2> reports: -: the report is cut
  [1]
  $ begun 3 'failed a: x' 'running [k] b' | reports show --color always -
  
  running 3 tests
  test a ... \x1b[31mFAILED\x1b[0m (esc)
  
  failures:
  
  ---- a ----
  x
  
  
  failures:
      a
  
  the report ends after 1 of 3 trials; running: [k] b
  2> reports: -: the report is cut
  [1]
  $ reports show - <two
  
  running 3 tests
  test 1 + 1 ... ok
  test 2 + 2 ... FAILED
  
  failures:
  
  ---- 2 + 2 ----
  assertion `left == right` failed
    left: 4
   right: 5
  
  
  failures:
      2 + 2
  
  the report ends after 2 of 3 trials
  2> reports: -: the report is cut
  [1]

Characters from U+0080 to U+009F are as the report has them. On a terminal they are by number (checks/terminal.py).

  $ report $'failed [\xc2\x80] 2\xc2\x9b2: \\\\u{9b}\xc2\x9f' >controls
  $ reports show --color always controls
  
  running 1 test
  test [\xc2\x80] 2\xc2\x9b2 ... \x1b[31mFAILED\x1b[0m (esc)
  
  failures:
  
  ---- 2\xc2\x9b2 ---- (esc)
  \\u{9b}\xc2\x9f (esc)
  
  
  failures:
      2\xc2\x9b2 (esc)
  
  test result: \x1b[31mFAILED\x1b[0m. 0 passed; 1 failed; 0 ignored; 0 measured; 0 filtered out; finished in 0.00s (esc)
  
  [101]
  $ reports show --failed controls
  
  failures:
  
  ---- [\xc2\x80] 2\xc2\x9b2 ---- (esc)
  \\u{9b}\xc2\x9f (esc)
  
  
  failures:
      [\xc2\x80] 2\xc2\x9b2 (esc)
  [101]

What comes behind a wrong line doesn't count. A report without its first line is none, and nor is an empty file.

  $ sums | sed '2s/1 + 1/1 + 2/' >wrong
  $ reports show wrong
  
  running 3 tests
  
  line 3 is no line of a report; the report ends after 0 of 3 trials; running: 1 + 2
  2> reports: wrong: line 3: not what a report has there
  [1]
  $ sed 1d sums | reports show -
  2> reports: -: line 1: not what a report has there; does the program run with --format json?
  [1]
  $ touch empty
  $ reports show empty
  2> reports: empty: the report is cut
  [1]
  $ reports show nowhere
  2> reports: nowhere: No such file or directory (os error 2)
  [1]

Control characters in names show as numbers where a report ends.

  $ begun 1 'running [k\u001b] a\n' >odd
  $ reports show odd
  
  running 1 test
  
  the report ends after 0 of 1 trials; running: [k\u{1b}] a\u{a}
  2> reports: odd: the report is cut
  [1]

  $ reports show
  2> error: the following required arguments were not provided:
  2>   <FILE>
  2> 
  2> Usage: reports show <FILE>
  2> 
  2> For more information, try '--help'.
  [2]
  $ reports show sums kinds
  2> error: unexpected argument 'kinds' found
  2> 
  2> Usage: reports show [OPTIONS] <FILE>
  2> 
  2> For more information, try '--help'.
  [2]
  $ reports show --color blue sums
  2> error: invalid value 'blue' for '--color <WHEN>'
  2>   [possible values: auto, always, never]
  2> 
  2> For more information, try '--help'.
  [2]
  $ reports show --help
  Print a report as the harness does
  
  Usage: reports show [OPTIONS] <FILE>
  
  Arguments:
    <FILE>  A report in JSON; - is standard input
  
  Options:
        --failed        Print the failures alone
        --color <WHEN>  When to use colours [possible values: auto, always, never]
    -h, --help          Print help
