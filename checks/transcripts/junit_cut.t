What `reports junit` makes of a report that is cut, or has a wrong line, behind each of its lines: the trials that ended, and an
error that says where the report ends, and which trial was running.

Shown are the numbers and texts of the lines in which the XML differs from that of the whole report, and which of its lines are
there.

  $ cp "$top"/checks/transcripts/junit/hostile.json .
  $ reports junit hostile.json >whole; grep -n '' whole
  1:<?xml version="1.0" encoding="UTF-8"?>
  2:<testsuites tests="7" failures="3" errors="0" skipped="1" time="0.000">
  3:  <testsuite name="hostile" tests="7" failures="3" errors="0" skipped="1" time="0.000">
  4:    <testcase classname="hostile" name="plain"/>
  5:    <testcase classname="hostile.a&lt;b" name="&amp;&quot;'&gt;"/>
  6:    <testcase classname="hostile" name="\\u{1}\\u{fffe}\x7f"><skipped/></testcase> (esc)
  7:    <testcase classname="hostile" name="none"><failure type="failed"/></testcase>
  8:    <testcase classname="hostile" name="empty"><failure type="failed" message=""></failure></testcase>
  9:    <testcase classname="hostile.k" name="a\\u{5c}u{1}"><failure type="failed" message="first &lt;&amp;&gt;&quot;&#9;&#13;">first &lt;&amp;&gt;"\t&#13; (esc)
  10:second\t]]&gt;&#13; (esc)
  11:\u{5c}u{</failure></testcase>
  12:    <testcase classname="hostile" name=""/>
  13:  </testsuite>
  14:</testsuites>
  $ junit() {
  >     reports junit $1.json >xml; local status=$?
  >     sed "s/\"$1/\"hostile/" xml | awk 'NR == FNR { at[$0] = FNR; next }
  >         $0 in at { same = same " " at[$0]; next } { print FNR, $0 } END { print "   of the whole:" same }' whole -
  >     return $status
  > }
  $ for lines in {0..15}; do head -n $lines hostile.json >cut$lines.json; junit cut$lines; echo "status $?"; done
  2 <testsuites tests="1" failures="0" errors="1" skipped="0" time="0.000">
  3   <testsuite name="hostile" tests="1" failures="0" errors="1" skipped="0" time="0.000">
  4     <testcase classname="hostile" name="(whole report)"><error type="incomplete" message="no report"/></testcase>
     of the whole: 1 13 14
  status 1
  2 <testsuites tests="1" failures="0" errors="1" skipped="0" time="0.000">
  3   <testsuite name="hostile" tests="1" failures="0" errors="1" skipped="0" time="0.000">
  4     <testcase classname="hostile" name="(whole report)"><error type="incomplete" message="the report ends after 0 of 7 trials"/></testcase>
     of the whole: 1 13 14
  status 1
  2 <testsuites tests="1" failures="0" errors="1" skipped="0" time="0.000">
  3   <testsuite name="hostile" tests="1" failures="0" errors="1" skipped="0" time="0.000">
  4     <testcase classname="hostile" name="(whole report)"><error type="incomplete" message="the report ends after 0 of 7 trials; running: plain"/></testcase>
     of the whole: 1 13 14
  status 1
  2 <testsuites tests="2" failures="0" errors="1" skipped="0" time="0.000">
  3   <testsuite name="hostile" tests="2" failures="0" errors="1" skipped="0" time="0.000">
  5     <testcase classname="hostile" name="(whole report)"><error type="incomplete" message="the report ends after 1 of 7 trials"/></testcase>
     of the whole: 1 4 13 14
  status 1
  2 <testsuites tests="2" failures="0" errors="1" skipped="0" time="0.000">
  3   <testsuite name="hostile" tests="2" failures="0" errors="1" skipped="0" time="0.000">
  5     <testcase classname="hostile" name="(whole report)"><error type="incomplete" message="the report ends after 1 of 7 trials; running: [a&lt;b] &amp;&quot;'&gt;"/></testcase>
     of the whole: 1 4 13 14
  status 1
  2 <testsuites tests="3" failures="0" errors="1" skipped="0" time="0.000">
  3   <testsuite name="hostile" tests="3" failures="0" errors="1" skipped="0" time="0.000">
  6     <testcase classname="hostile" name="(whole report)"><error type="incomplete" message="the report ends after 2 of 7 trials"/></testcase>
     of the whole: 1 4 5 13 14
  status 1
  2 <testsuites tests="3" failures="0" errors="1" skipped="0" time="0.000">
  3   <testsuite name="hostile" tests="3" failures="0" errors="1" skipped="0" time="0.000">
  6     <testcase classname="hostile" name="(whole report)"><error type="incomplete" message="the report ends after 2 of 7 trials; running: \\u{1}\\u{fffe}\x7f"/></testcase> (esc)
     of the whole: 1 4 5 13 14
  status 1
  2 <testsuites tests="4" failures="0" errors="1" skipped="1" time="0.000">
  3   <testsuite name="hostile" tests="4" failures="0" errors="1" skipped="1" time="0.000">
  7     <testcase classname="hostile" name="(whole report)"><error type="incomplete" message="the report ends after 3 of 7 trials"/></testcase>
     of the whole: 1 4 5 6 13 14
  status 1
  2 <testsuites tests="4" failures="0" errors="1" skipped="1" time="0.000">
  3   <testsuite name="hostile" tests="4" failures="0" errors="1" skipped="1" time="0.000">
  7     <testcase classname="hostile" name="(whole report)"><error type="incomplete" message="the report ends after 3 of 7 trials; running: none"/></testcase>
     of the whole: 1 4 5 6 13 14
  status 1
  2 <testsuites tests="5" failures="1" errors="1" skipped="1" time="0.000">
  3   <testsuite name="hostile" tests="5" failures="1" errors="1" skipped="1" time="0.000">
  8     <testcase classname="hostile" name="(whole report)"><error type="incomplete" message="the report ends after 4 of 7 trials"/></testcase>
     of the whole: 1 4 5 6 7 13 14
  status 1
  2 <testsuites tests="5" failures="1" errors="1" skipped="1" time="0.000">
  3   <testsuite name="hostile" tests="5" failures="1" errors="1" skipped="1" time="0.000">
  8     <testcase classname="hostile" name="(whole report)"><error type="incomplete" message="the report ends after 4 of 7 trials; running: empty"/></testcase>
     of the whole: 1 4 5 6 7 13 14
  status 1
  2 <testsuites tests="6" failures="2" errors="1" skipped="1" time="0.000">
  3   <testsuite name="hostile" tests="6" failures="2" errors="1" skipped="1" time="0.000">
  9     <testcase classname="hostile" name="(whole report)"><error type="incomplete" message="the report ends after 5 of 7 trials"/></testcase>
     of the whole: 1 4 5 6 7 8 13 14
  status 1
  2 <testsuites tests="6" failures="2" errors="1" skipped="1" time="0.000">
  3   <testsuite name="hostile" tests="6" failures="2" errors="1" skipped="1" time="0.000">
  9     <testcase classname="hostile" name="(whole report)"><error type="incomplete" message="the report ends after 5 of 7 trials; running: [k] a\u{5c}u{1}"/></testcase>
     of the whole: 1 4 5 6 7 8 13 14
  status 1
  2 <testsuites tests="7" failures="3" errors="1" skipped="1" time="0.000">
  3   <testsuite name="hostile" tests="7" failures="3" errors="1" skipped="1" time="0.000">
  12     <testcase classname="hostile" name="(whole report)"><error type="incomplete" message="the report ends after 6 of 7 trials"/></testcase>
     of the whole: 1 4 5 6 7 8 9 10 11 13 14
  status 1
  2 <testsuites tests="7" failures="3" errors="1" skipped="1" time="0.000">
  3   <testsuite name="hostile" tests="7" failures="3" errors="1" skipped="1" time="0.000">
  12     <testcase classname="hostile" name="(whole report)"><error type="incomplete" message="the report ends after 6 of 7 trials; running: "/></testcase>
     of the whole: 1 4 5 6 7 8 9 10 11 13 14
  status 1
  2 <testsuites tests="8" failures="3" errors="1" skipped="1" time="0.000">
  3   <testsuite name="hostile" tests="8" failures="3" errors="1" skipped="1" time="0.000">
  13     <testcase classname="hostile" name="(whole report)"><error type="incomplete" message="the report ends after 7 of 7 trials"/></testcase>
     of the whole: 1 4 5 6 7 8 9 10 11 12 13 14
  status 1
  2> reports: cut0.json: the report is cut
  2> reports: cut1.json: the report is cut
  2> reports: cut2.json: the report is cut
  2> reports: cut3.json: the report is cut
  2> reports: cut4.json: the report is cut
  2> reports: cut5.json: the report is cut
  2> reports: cut6.json: the report is cut
  2> reports: cut7.json: the report is cut
  2> reports: cut8.json: the report is cut
  2> reports: cut9.json: the report is cut
  2> reports: cut10.json: the report is cut
  2> reports: cut11.json: the report is cut
  2> reports: cut12.json: the report is cut
  2> reports: cut13.json: the report is cut
  2> reports: cut14.json: the report is cut
  2> reports: cut15.json: the report is cut

The same from standard input.

  $ for lines in {0..15}; do
  >     reports junit --status --name cut$lines - <cut$lines.json | cmp - <(reports junit cut$lines.json 2>/dev/null)
  >     echo "status $?"
  > done 2>&1 | sort | uniq -c
       16 reports: -: the report is cut
       16 status 1

Nothing counts behind a wrong line.

  $ for lines in {0..16}; do
  >     { head -n $lines hostile.json; echo; tail -n +$((lines + 1)) hostile.json; } >wrong$lines.json
  >     junit wrong$lines; echo "status $?"
  > done
  2 <testsuites tests="1" failures="0" errors="1" skipped="0" time="0.000">
  3   <testsuite name="hostile" tests="1" failures="0" errors="1" skipped="0" time="0.000">
  4     <testcase classname="hostile" name="(whole report)"><error type="incomplete" message="line 1 is no line of a report; no report"/></testcase>
     of the whole: 1 13 14
  status 1
  2 <testsuites tests="1" failures="0" errors="1" skipped="0" time="0.000">
  3   <testsuite name="hostile" tests="1" failures="0" errors="1" skipped="0" time="0.000">
  4     <testcase classname="hostile" name="(whole report)"><error type="incomplete" message="line 2 is no line of a report; the report ends after 0 of 7 trials"/></testcase>
     of the whole: 1 13 14
  status 1
  2 <testsuites tests="1" failures="0" errors="1" skipped="0" time="0.000">
  3   <testsuite name="hostile" tests="1" failures="0" errors="1" skipped="0" time="0.000">
  4     <testcase classname="hostile" name="(whole report)"><error type="incomplete" message="line 3 is no line of a report; the report ends after 0 of 7 trials; running: plain"/></testcase>
     of the whole: 1 13 14
  status 1
  2 <testsuites tests="2" failures="0" errors="1" skipped="0" time="0.000">
  3   <testsuite name="hostile" tests="2" failures="0" errors="1" skipped="0" time="0.000">
  5     <testcase classname="hostile" name="(whole report)"><error type="incomplete" message="line 4 is no line of a report; the report ends after 1 of 7 trials"/></testcase>
     of the whole: 1 4 13 14
  status 1
  2 <testsuites tests="2" failures="0" errors="1" skipped="0" time="0.000">
  3   <testsuite name="hostile" tests="2" failures="0" errors="1" skipped="0" time="0.000">
  5     <testcase classname="hostile" name="(whole report)"><error type="incomplete" message="line 5 is no line of a report; the report ends after 1 of 7 trials; running: [a&lt;b] &amp;&quot;'&gt;"/></testcase>
     of the whole: 1 4 13 14
  status 1
  2 <testsuites tests="3" failures="0" errors="1" skipped="0" time="0.000">
  3   <testsuite name="hostile" tests="3" failures="0" errors="1" skipped="0" time="0.000">
  6     <testcase classname="hostile" name="(whole report)"><error type="incomplete" message="line 6 is no line of a report; the report ends after 2 of 7 trials"/></testcase>
     of the whole: 1 4 5 13 14
  status 1
  2 <testsuites tests="3" failures="0" errors="1" skipped="0" time="0.000">
  3   <testsuite name="hostile" tests="3" failures="0" errors="1" skipped="0" time="0.000">
  6     <testcase classname="hostile" name="(whole report)"><error type="incomplete" message="line 7 is no line of a report; the report ends after 2 of 7 trials; running: \\u{1}\\u{fffe}\x7f"/></testcase> (esc)
     of the whole: 1 4 5 13 14
  status 1
  2 <testsuites tests="4" failures="0" errors="1" skipped="1" time="0.000">
  3   <testsuite name="hostile" tests="4" failures="0" errors="1" skipped="1" time="0.000">
  7     <testcase classname="hostile" name="(whole report)"><error type="incomplete" message="line 8 is no line of a report; the report ends after 3 of 7 trials"/></testcase>
     of the whole: 1 4 5 6 13 14
  status 1
  2 <testsuites tests="4" failures="0" errors="1" skipped="1" time="0.000">
  3   <testsuite name="hostile" tests="4" failures="0" errors="1" skipped="1" time="0.000">
  7     <testcase classname="hostile" name="(whole report)"><error type="incomplete" message="line 9 is no line of a report; the report ends after 3 of 7 trials; running: none"/></testcase>
     of the whole: 1 4 5 6 13 14
  status 1
  2 <testsuites tests="5" failures="1" errors="1" skipped="1" time="0.000">
  3   <testsuite name="hostile" tests="5" failures="1" errors="1" skipped="1" time="0.000">
  8     <testcase classname="hostile" name="(whole report)"><error type="incomplete" message="line 10 is no line of a report; the report ends after 4 of 7 trials"/></testcase>
     of the whole: 1 4 5 6 7 13 14
  status 1
  2 <testsuites tests="5" failures="1" errors="1" skipped="1" time="0.000">
  3   <testsuite name="hostile" tests="5" failures="1" errors="1" skipped="1" time="0.000">
  8     <testcase classname="hostile" name="(whole report)"><error type="incomplete" message="line 11 is no line of a report; the report ends after 4 of 7 trials; running: empty"/></testcase>
     of the whole: 1 4 5 6 7 13 14
  status 1
  2 <testsuites tests="6" failures="2" errors="1" skipped="1" time="0.000">
  3   <testsuite name="hostile" tests="6" failures="2" errors="1" skipped="1" time="0.000">
  9     <testcase classname="hostile" name="(whole report)"><error type="incomplete" message="line 12 is no line of a report; the report ends after 5 of 7 trials"/></testcase>
     of the whole: 1 4 5 6 7 8 13 14
  status 1
  2 <testsuites tests="6" failures="2" errors="1" skipped="1" time="0.000">
  3   <testsuite name="hostile" tests="6" failures="2" errors="1" skipped="1" time="0.000">
  9     <testcase classname="hostile" name="(whole report)"><error type="incomplete" message="line 13 is no line of a report; the report ends after 5 of 7 trials; running: [k] a\u{5c}u{1}"/></testcase>
     of the whole: 1 4 5 6 7 8 13 14
  status 1
  2 <testsuites tests="7" failures="3" errors="1" skipped="1" time="0.000">
  3   <testsuite name="hostile" tests="7" failures="3" errors="1" skipped="1" time="0.000">
  12     <testcase classname="hostile" name="(whole report)"><error type="incomplete" message="line 14 is no line of a report; the report ends after 6 of 7 trials"/></testcase>
     of the whole: 1 4 5 6 7 8 9 10 11 13 14
  status 1
  2 <testsuites tests="7" failures="3" errors="1" skipped="1" time="0.000">
  3   <testsuite name="hostile" tests="7" failures="3" errors="1" skipped="1" time="0.000">
  12     <testcase classname="hostile" name="(whole report)"><error type="incomplete" message="line 15 is no line of a report; the report ends after 6 of 7 trials; running: "/></testcase>
     of the whole: 1 4 5 6 7 8 9 10 11 13 14
  status 1
  2 <testsuites tests="8" failures="3" errors="1" skipped="1" time="0.000">
  3   <testsuite name="hostile" tests="8" failures="3" errors="1" skipped="1" time="0.000">
  13     <testcase classname="hostile" name="(whole report)"><error type="incomplete" message="line 16 is no line of a report; the report ends after 7 of 7 trials"/></testcase>
     of the whole: 1 4 5 6 7 8 9 10 11 12 13 14
  status 1
  2 <testsuites tests="8" failures="3" errors="1" skipped="1" time="0.000">
  3   <testsuite name="hostile" tests="8" failures="3" errors="1" skipped="1" time="0.000">
  13     <testcase classname="hostile" name="(whole report)"><error type="incomplete" message="line 17 is no line of a report; the report ends after 7 of 7 trials"/></testcase>
     of the whole: 1 4 5 6 7 8 9 10 11 12 13 14
  status 1
  2> reports: wrong0.json: line 1: not what a report has there; does the program run with --format json?
  2> reports: wrong1.json: line 2: not what a report has there
  2> reports: wrong2.json: line 3: not what a report has there
  2> reports: wrong3.json: line 4: not what a report has there
  2> reports: wrong4.json: line 5: not what a report has there
  2> reports: wrong5.json: line 6: not what a report has there
  2> reports: wrong6.json: line 7: not what a report has there
  2> reports: wrong7.json: line 8: not what a report has there
  2> reports: wrong8.json: line 9: not what a report has there
  2> reports: wrong9.json: line 10: not what a report has there
  2> reports: wrong10.json: line 11: not what a report has there
  2> reports: wrong11.json: line 12: not what a report has there
  2> reports: wrong12.json: line 13: not what a report has there
  2> reports: wrong13.json: line 14: not what a report has there
  2> reports: wrong14.json: line 15: not what a report has there
  2> reports: wrong15.json: line 16: not what a report has there
  2> reports: wrong16.json: line 17: not what a report has there
