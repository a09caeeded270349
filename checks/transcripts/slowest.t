`reports slowest` prints the slowest trials of all its reports, 20 of them or as many as `-n` says: the seconds, rounded, and
the name.

  $ report --took 62.5 --out 13 'ok plain <0.35>' 'failed [k] b: no\nno <1.4999995>' 'ignored c' 'ok d' 'ok [k] e <0.35>' \
  >     'bench m: 1234 5 <61>' 'ok z <0>' 'failed short <0.000499999>' >times
  $ reports slowest times
  61.000  m
  1.500  [k] b
  0.350  plain
  0.350  [k] e
  0.000  short
  0.000  z
  $ reports slowest - <times
  61.000  m
  1.500  [k] b
  0.350  plain
  0.350  [k] e
  0.000  short
  0.000  z
  $ reports slowest -n 0 times
  $ reports slowest -n 1 times
  61.000  m
  $ reports slowest -n 2 times
  61.000  m
  1.500  [k] b
  $ reports slowest -n 3 times
  61.000  m
  1.500  [k] b
  0.350  plain
  $ reports slowest -n 6 times
  61.000  m
  1.500  [k] b
  0.350  plain
  0.350  [k] e
  0.000  short
  0.000  z
  $ reports slowest -n 18446744073709551615 times
  61.000  m
  1.500  [k] b
  0.350  plain
  0.350  [k] e
  0.000  short
  0.000  z

  $ for place in $(seq 0 24); do many+=("ok $place <0.35>"); done; report "${many[@]}" >many
  $ reports slowest many
  0.350  0
  0.350  1
  0.350  2
  0.350  3
  0.350  4
  0.350  5
  0.350  6
  0.350  7
  0.350  8
  0.350  9
  0.350  10
  0.350  11
  0.350  12
  0.350  13
  0.350  14
  0.350  15
  0.350  16
  0.350  17
  0.350  18
  0.350  19
  $ reports slowest -n 21 many
  0.350  0
  0.350  1
  0.350  2
  0.350  3
  0.350  4
  0.350  5
  0.350  6
  0.350  7
  0.350  8
  0.350  9
  0.350  10
  0.350  11
  0.350  12
  0.350  13
  0.350  14
  0.350  15
  0.350  16
  0.350  17
  0.350  18
  0.350  19
  0.350  20

Trials without a time aren't listed.

  $ report --took 62.5 --out 13 'ok plain' 'failed [k] b: no\nno' 'ignored c' 'ok d' 'ok [k] e' 'bench m: 1234 5' 'ok z' \
  >     'failed short' >plain
  $ reports slowest plain
  $ sums >sums
  $ reports slowest sums

Equal times come in the order of the rows, and those of several reports in the order of these. A time that is rounded up to
another one is still less.

  $ report 'ok y <0.35>' 'failed x: no <0.35>' 'ok below <0.3495>' 'ok longest <18446744073.709551615>' 'ok y <0.35>' \
  >     $'ok [\\u001b] a\\n9.000  \\\\u{1}\xc2\x9b <0.35>' >equal
  $ reports slowest equal
  18446744073.710  longest
  0.350  y
  0.350  x
  0.350  y
  0.350  [\u{1b}] a\u{a}9.000  \u{5c}u{1}\u{9b}
  0.350  below
  $ reports slowest -n 6 times equal
  18446744073.710  longest
  61.000  m
  1.500  [k] b
  0.350  plain
  0.350  [k] e
  0.350  y
  $ reports slowest -n 6 equal plain times
  18446744073.710  longest
  61.000  m
  1.500  [k] b
  0.350  y
  0.350  x
  0.350  y
  $ report --took 1 'ok x <0.35>' 'ok y' >first
  $ reports slowest -n 4 first times
  61.000  m
  1.500  [k] b
  0.350  x
  0.350  plain
  $ reports slowest -n 4 times first
  61.000  m
  1.500  [k] b
  0.350  plain
  0.350  [k] e

Names show what would act on a terminal by its number.

  $ reports slowest hostile
  18446744073.710  [\u{1b}] \u{1b}[2J
  18446744073.710  [\u{1b}] a\u{a}regressed: b
  18446744073.710  [\\u{1b}] \\u{7f}\\u{9b}\\u{80}\\u{9f}\xc2\xa0 (esc)
  18446744073.710  [\\u{1b}] \\u{2028}\\u{2029}\xe2\x80\xaa (esc)
  18446744073.710  [\u{1b}] \u{5c}u{1b} \u \

Of a report that is cut, wrong or absent, the trials count that had ended.

  $ report --took 3 'failed [k] x: no <0.000000001>' >second
  $ head -n 6 times >cut
  $ reports slowest cut second
  1.500  [k] b
  0.350  plain
  0.000  [k] x
  2> reports: cut: the report is cut
  [1]
  $ reports slowest nowhere second
  0.000  [k] x
  2> reports: nowhere: No such file or directory (os error 2)
  [1]
  $ reports slowest second nowhere
  0.000  [k] x
  2> reports: nowhere: No such file or directory (os error 2)
  [1]
  $ begun 3 'ok a <1>' 'running b' | reports slowest -
  1.000  a
  2> reports: -: the report is cut
  [1]
  $ echo what >what
  $ { begun 2 'ok a <1>'; echo what; rows 'ok b <2>'; } >spoilt
  $ reports slowest what spoilt
  1.000  a
  2> reports: what: line 1: not what a report has there; does the program run with --format json?
  2> reports: spoilt: line 4: not what a report has there
  [1]

  $ reports slowest - - <times
  2> reports: standard input can be read once only
  [2]
  $ reports slowest
  2> error: the following required arguments were not provided:
  2>   <FILE>...
  2> 
  2> Usage: reports slowest <FILE>...
  2> 
  2> For more information, try '--help'.
  [2]
  $ reports slowest -n 2
  2> error: the following required arguments were not provided:
  2>   <FILE>...
  2> 
  2> Usage: reports slowest -n <COUNT> <FILE>...
  2> 
  2> For more information, try '--help'.
  [2]
  $ reports slowest -n x times
  2> error: invalid value 'x' for '-n <COUNT>': invalid digit found in string
  2> 
  2> For more information, try '--help'.
  [2]
  $ reports slowest -n -1 times
  2> error: unexpected argument '-1' found
  2> 
  2>   tip: to pass '-1' as a value, use '-- -1'
  2> 
  2> Usage: reports slowest [OPTIONS] <FILE>...
  2> 
  2> For more information, try '--help'.
  [2]
  $ reports slowest --help
  Print the slowest trials of reports
  
  Usage: reports slowest [OPTIONS] <FILE>...
  
  Arguments:
    <FILE>...  Reports in JSON, of runs with --report-time; - is standard input
  
  Options:
    -n <COUNT>  How many trials to print at most [default: 20]
    -h, --help  Print help
