`reports join --cut` joins what there is of a suite's shards. If any is cut, wrong or absent, the joined report is cut, too, and
the status is 1.

  $ unequal='2 + 2: assertion `left == right` failed\n  left: 4\n right: 5'
  $ report 'ok 1 + 1' 'ok 7 + 0' >0; report "failed $unequal" >1
  $ reports join --cut --shards 2 0 1 | cmp - <(sums)
  [101]

The run of one shard was killed, in its second trial or behind its first.

  $ head -n 4 0 >killed; begun 3 'ok 1 + 1' "failed $unequal" >both
  $ reports join --cut --shards 2 killed 1
  { "type": "suite", "event": "started", "test_count": 3 }
  { "type": "test", "event": "started", "name": "1 + 1" }
  { "type": "test", "name": "1 + 1", "event": "ok" }
  { "type": "test", "event": "started", "name": "2 + 2" }
  { "type": "test", "name": "2 + 2", "event": "failed", "stdout": "Error: \"assertion `left == right` failed\n  left: 4\n right: 5\"\n" }
  2> reports: killed: the report is cut; running: 7 + 0
  [1]
  $ reports join --cut --shards 2 - 1 <killed | cmp - both
  2> reports: -: the report is cut; running: 7 + 0
  [1]
  $ head -n 3 0 >ended; reports join --cut --shards 2 ended 1 | cmp - both
  2> reports: ended: the report is cut
  [1]
  $ reports join --cut --shards 2 1 killed | diff - <(begun 3 "failed $unequal" 'ok 1 + 1')
  2> reports: killed: the report is cut; running: 7 + 0
  [1]
  $ begun 1 'running [k\u001b] a\n' >odd; reports join --cut --shards 1 odd
  { "type": "suite", "event": "started", "test_count": 1 }
  2> reports: odd: the report is cut; running: [k\u{1b}] a\u{a}
  [1]
  $ sums | sed '2s/1 + 1/1 + 2/' >wrong; reports join --cut --shards 2 wrong 1 | diff - <(begun 4 "failed $unequal")
  2> reports: wrong: line 3: not what a report has there; running: 1 + 2
  [1]

Reports that aren't there, or are none.

  $ reports join --cut --shards 2 nowhere 1 | diff - <(begun 1 "failed $unequal")
  2> reports: nowhere: No such file or directory (os error 2)
  [1]
  $ : >empty; reports join --cut --shards 2 empty 1 | diff - <(begun 1 "failed $unequal")
  2> reports: empty: the report is cut
  [1]
  $ reports join --cut --shards 2 empty nowhere
  2> reports: empty: the report is cut
  2> reports: nowhere: No such file or directory (os error 2)
  [1]
  $ reports join --cut --shards 3 0 1 | diff - <(sums | head -n 7)
  2> reports: no report of 1 of 3 shards
  [1]
  $ reports join --cut --shards 4 nowhere killed 1 | cmp - both
  2> reports: nowhere: No such file or directory (os error 2)
  2> reports: killed: the report is cut; running: 7 + 0
  2> reports: no report of 1 of 4 shards
  [1]
  $ reports join --cut --shards 1 0 1
  2> reports: the number of shards is 1, but that of reports is 2
  [1]
  $ reports join --cut --shards 1 nowhere killed
  2> reports: the number of shards is 1, but that of reports is 2
  [1]
  $ reports join --cut --shards 0 nowhere
  2> reports: the number of shards is 0, but that of reports is 1
  [1]
  $ report --took 1 'ok c' >c; reports join --cut --shards 1 - <c | cmp - c

What is read of such a report.

  $ reports show - <both
  
  running 3 tests
  test 1 + 1 ... ok
  test 2 + 2 ... FAILED
  
  failures:
  
  ---- 2 + 2 ----
  assertion `left == right` failed
    left: 4
   right: 5
  
  
  failures:
      2 + 2
  
  the report ends after 2 of 3 trials
  2> reports: -: the report is cut
  [1]
  $ reports junit --status --name sums - <both
  <?xml version="1.0" encoding="UTF-8"?>
  <testsuites tests="3" failures="1" errors="1" skipped="0" time="0.000">
    <testsuite name="sums" tests="3" failures="1" errors="1" skipped="0" time="0.000">
      <testcase classname="sums" name="1 + 1"/>
      <testcase classname="sums" name="2 + 2"><failure type="failed" message="assertion `left == right` failed">assertion `left == right` failed
    left: 4
   right: 5</failure></testcase>
      <testcase classname="sums" name="(whole report)"><error type="incomplete" message="the report ends after 2 of 3 trials"/></testcase>
    </testsuite>
  </testsuites>
  2> reports: -: the report is cut
  [1]
