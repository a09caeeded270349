`readreport` counts the trials of a report on standard input.

  $ sums | readreport
  3 trials: 2 passed; 1 failed; 0 ignored; 0 measured; 0 filtered out; 0 ns
  $ report 'ok 1 + 1 <1>' 'failed 2 + 2: assertion `left == right` failed\n  left: 4\n right: 5 <0.35>' \
  >     'ok 7 + 0 <18446744073.709551615>' | readreport
  3 trials: 2 passed; 1 failed; 0 ignored; 0 measured; 0 filtered out; 0 ns

Other texts are no reports, whatever its words.

  $ readreport --words </dev/null
  2> not a report
  [1]
  $ sums | head -c -1 | readreport --words
  2> not a report
  [1]
  $ { sums; echo; } | readreport --words
  2> not a report
  [1]
  $ { sums; sums; } | readreport --words
  2> not a report
  [1]
