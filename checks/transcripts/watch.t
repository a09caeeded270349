`reports watch` shows a run as it goes: each failure and average as soon as it is read, and last what the run came to. Here
standard output is no terminal, so no line says how far the run is.

  $ sums | reports watch
  FAILED 2 + 2
      assertion `left == right` failed
        left: 4
       right: 5
  
  failures:
      2 + 2
  
  test result: FAILED. 2 passed; 1 failed; 0 ignored; 0 measured; 0 filtered out; finished in 0.00s
  
  [101]
  $ sums | reports watch --columns 20 | diff - <(sums | reports watch)
  [101]
  $ report 'ok 1 + 1 <1>' 'failed 2 + 2: assertion `left == right` failed\n  left: 4\n right: 5 <0.35>' \
  >     'ok 7 + 0 <18446744073.709551615>' | reports watch
  FAILED 2 + 2
      assertion `left == right` failed
        left: 4
       right: 5
  
  failures:
      2 + 2
  
  test result: FAILED. 2 passed; 1 failed; 0 ignored; 0 measured; 0 filtered out; finished in 0.00s
  
  [101]
  $ report --took 1.495 --out 7 'ok z' 'ignored [a/c] xy' 'ok [b] c' | reports watch
  
  test result: ok. 2 passed; 0 failed; 1 ignored; 0 measured; 7 filtered out; finished in 1.50s
  
  $ report 'bench b: 5' | reports watch
  bench  b: 5 ns/iter (+/- 1)
  
  test result: ok. 0 passed; 0 failed; 0 ignored; 1 measured; 0 filtered out; finished in 0.00s
  
  $ report | reports watch
  
  test result: ok. 0 passed; 0 failed; 0 ignored; 0 measured; 0 filtered out; finished in 0.00s
  

Of a message twenty lines are shown, and nothing that would act on a terminal.

  $ reports watch <hostile
  FAILED [k\u{1b}]0;x\u{7}] a\u{9b}\u{5c}u{
      line 0
      line 1
      line 2
      line 3
      line 4
      line 5
      line 6
      line 7
      line 8
      line 9
      line 10
      line 11
      line 12
      line 13
      line 14
      line 15
      line 16
      line 17
      line 18
      line 19
      .. 5 more lines
  FAILED \u{7f}
  
  failures:
      [k\u{1b}]0;x\u{7}] a\u{9b}\u{5c}u{
      \u{7f}
  
  test result: FAILED. 0 passed; 2 failed; 0 ignored; 0 measured; 0 filtered out; finished in 0.00s
  
  [101]

A report that is cut, wrong or none. A wrong line ends the watch.

  $ sums | head -c -1 | reports watch
  FAILED 2 + 2
      assertion `left == right` failed
        left: 4
       right: 5
  2> reports: the report is cut
  [1]
  $ reports watch </dev/null
  2> reports: the report is cut
  [1]
  $ printf '\nrunning 1 test\n' | reports watch
  2> reports: line 1: not what a report has there; does the program run with --format json?
  [1]
  $ sums | sed '6s/7 + 0/7 + 1/' | reports watch
  FAILED 2 + 2
      assertion `left == right` failed
        left: 4
       right: 5
  2> reports: line 7: not what a report has there; running: 7 + 1
  [1]
  $ { sums; yes more | head -n 600000; } 2>/dev/null | reports watch
  FAILED 2 + 2
      assertion `left == right` failed
        left: 4
       right: 5
  2> reports: line 9: not what a report has there
  [1]
  $ mkdir folder; reports watch <folder
  2> reports: Is a directory (os error 21)
  [1]

  $ reports watch --columns wide </dev/null
  2> error: invalid value 'wide' for '--columns <N>': invalid digit found in string
  2> 
  2> For more information, try '--help'.
  [2]
  $ reports watch --help
  Show the report on standard input as it comes
  
  Usage: reports watch [OPTIONS]
  
  Options:
        --columns <N>  How wide lines of how far the run is may be; else COLUMNS, 39 on a terminal, or 79
    -h, --help         Print help
