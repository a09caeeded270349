`reports show --failed` prints the failures alone, and nothing if there is none. Of a report that is cut it prints where that
ends, too.

  $ sums >sums
  $ reports show --color never --failed sums
  
  failures:
  
  ---- 2 + 2 ----
  assertion `left == right` failed
    left: 4
   right: 5
  
  
  failures:
      2 + 2
  [101]
  $ report --took 1.495 --out 7 'ok z' 'ignored [a/c] xy' 'ok [b] c' >kinds
  $ reports show --failed kinds
  $ report 'ok a' | reports show --failed -
  $ report 'failed a: x' | reports show --failed -
  
  failures:
  
  ---- a ----
  x
  
  
  failures:
      a
  [101]

Kinds are shown if any trial has one, and texts as they are.

  $ report --took 62.5 --out 13 'ok plain <0.35>' 'failed [k] b: no\nno <1.4999995>' 'ignored c' 'ok d' 'ok [k] e <0.35>' \
  >     'bench m: 1234 5 <61>' 'ok z <0>' 'failed short <0.000499999>' >times
  $ reports show --failed times
  
  failures:
  
  ---- [k] b ----
  no
  no
  
  ---- short ----
  
  
  failures:
      [k] b
      short
  [101]
  $ report --took 62.5 --out 13 'ok plain' 'failed [k] b: no\nno' 'ignored c' 'ok d' 'ok [k] e' 'bench m: 1234 5' 'ok z' \
  >     'failed short' >plain
  $ reports show --failed plain
  
  failures:
  
  ---- [k] b ----
  no
  no
  
  ---- short ----
  
  
  failures:
      [k] b
      short
  [101]
  $ report 'failed [k] a\u001b\n: x' 'ok b' 'failed [k] c' 'ignored d' 'bench e: 7' >hostile
  $ reports show --failed hostile
  
  failures:
  
  ---- [k] a\x1b (esc)
   ----
  x
  
  ---- [k] c ----
  
  
  failures:
      [k] a\x1b (esc)
  
      [k] c
  [101]

The trial in which a run was killed is named.

  $ head -n 6 sums >killed
  $ reports show --failed killed
  
  failures:
  
  ---- 2 + 2 ----
  assertion `left == right` failed
    left: 4
   right: 5
  
  
  failures:
      2 + 2
  
  the report ends after 2 of 3 trials; running: 7 + 0
  2> reports: killed: the report is cut
  [1]
  $ head -c -1 sums >cut
  $ reports show --failed cut
  
  failures:
  
  ---- 2 + 2 ----
  assertion `left == right` failed
    left: 4
   right: 5
  
  
  failures:
      2 + 2
  
  the report ends after 3 of 3 trials
  2> reports: cut: the report is cut
  [1]
  $ begun 2 'failed [k] b: x' 'ok [k] c' | reports show --failed -
  
  failures:
  
  ---- [k] b ----
  x
  
  
  failures:
      [k] b
  
  the report ends after 2 of 2 trials
  2> reports: -: the report is cut
  [1]
  $ begun 3 'failed a: x' 'running [k] b' | reports show --failed -
  
  failures:
  
  ---- a ----
  x
  
  
  failures:
      a
  
  the report ends after 1 of 3 trials; running: [k] b
  2> reports: -: the report is cut
  [1]
  $ begun 2 'running a' | reports show --failed -
  
  the report ends after 0 of 2 trials; running: a
  2> reports: -: the report is cut
  [1]

A line that has no end doesn't count: the trial of an outcome is still running, and one that is announced is not.

  $ { begun 1 'running a'; printf '{ "type": "test", "name": "a"'; } | reports show --failed -
  
  the report ends after 0 of 1 trials; running: a
  2> reports: -: the report is cut
  [1]
  $ { begun 2 'ok a'; printf '{ "type": "test", "event"'; } | reports show --failed -
  
  the report ends after 1 of 2 trials
  2> reports: -: the report is cut
  [1]

Workers write both lines of a trial at once, so none is running between two trials.

  $ begun 2 'failed a' | reports show --failed -
  
  failures:
  
  ---- a ----
  
  
  failures:
      a
  
  the report ends after 1 of 2 trials
  2> reports: -: the report is cut
  [1]
  $ begun 1 'ok a' | reports show --failed -
  
  the report ends after 1 of 1 trials
  2> reports: -: the report is cut
  [1]

A name doesn't end the line that says where a report ends.

  $ begun 1 'running [k\u001b] a\n' >odd
  $ reports show --failed odd
  
  the report ends after 0 of 1 trials; running: [k\u{1b}] a\u{a}
  2> reports: odd: the report is cut
  [1]
  $ begun 1 $'running [\\u001b] a\\nfailures:\\\\u{1}\xc2\x9b' | reports show --failed -
  
  the report ends after 0 of 1 trials; running: [\u{1b}] a\u{a}failures:\u{5c}u{1}\u{9b}
  2> reports: -: the report is cut
  [1]

Nothing counts behind a wrong line.

  $ sums | sed '2s/1 + 1/1 + 2/' >wrong
  $ reports show --failed wrong
  
  line 3 is no line of a report; the report ends after 0 of 3 trials; running: 1 + 2
  2> reports: wrong: line 3: not what a report has there
  [1]
  $ { begun 2 'running a'; echo what; rows 'failed a: x' | tail -n 1; } | reports show --failed -
  
  line 3 is no line of a report; the report ends after 0 of 2 trials; running: a
  2> reports: -: line 3: not what a report has there
  [1]
  $ echo what | reports show --failed -
  
  line 1 is no line of a report; no report
  2> reports: -: line 1: not what a report has there; does the program run with --format json?
  [1]

  $ reports show --failed - </dev/null
  
  no report
  2> reports: -: the report is cut
  [1]
  $ touch empty
  $ reports show --failed empty
  
  no report
  2> reports: empty: the report is cut
  [1]
  $ reports show --failed nowhere
  2> reports: nowhere: No such file or directory (os error 2)
  [1]
