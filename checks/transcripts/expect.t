`reports expect KNOWN FILE..` prints the failures of reports that aren't in a file of known ones, and what of that file they
don't meet. Its status is 101 if there is any. Here it runs three times: with `--lines` it prints the reports' own lines, and
with `--lax` a known failure may also pass.

  $ expect() {
  >     reports expect "$@" <given >shown 2>said; local status=$? lax
  >     reports expect --lines "$@" <given >lines 2>same; [ $? = $status ] || echo "--lines has another status"
  >     reports expect --lines --lax "$@" <given >loose 2>lax; lax=$?
  >     cat shown; cat said >&2; diff shown lines | sed -n 's/^> /--lines: /p'
  >     cmp said same; cmp said lax; cmp lines loose
  >     [ $lax = $status ] || echo "--lax: status $lax"
  >     return $status
  > }
  $ unequal='2 + 2: assertion `left == right` failed\n  left: 4\n right: 5'
  $ sums >sums; report | tee none >given

A known failure has a message, or may have any. Empty lines and those with `#` at first are comments, and the last line needs no
end.

  $ failures "$unequal" >known; expect known sums
  1 known failures; 0 failed; 0 passed; 0 with another message; 0 absent
  $ failures '2 + 2' >known; expect known sums
  1 known failures; 0 failed; 0 passed; 0 with another message; 0 absent
  $ { printf '# known\n\n'; failures '2 + 2' | head -c -1; } >known; expect known sums none
  1 known failures; 0 failed; 0 passed; 0 with another message; 0 absent
  $ report 'failed a: x' >given; failures a | head -c -1 >known; expect known -
  1 known failures; 0 failed; 0 passed; 0 with another message; 0 absent
  $ report --took 1.495 --out 7 'ok z' 'ignored [a/c] xy' 'ok [b] c' >some; : >known; expect known some
  0 known failures; 0 failed; 0 passed; 0 with another message; 0 absent

Failures that aren't known.

  $ printf '# none' >known; expect known sums
  failed: 2 + 2: assertion `left == right` failed
  0 known failures; 1 failed; 0 passed; 0 with another message; 0 absent
  --lines: failed: { "type": "test", "name": "2 + 2", "event": "failed", "stdout": "Error: \"assertion `left == right` failed\n  left: 4\n right: 5\"\n" }
  [101]
  $ : >known; expect known -
  failed: a: x
  0 known failures; 1 failed; 0 passed; 0 with another message; 0 absent
  --lines: failed: { "type": "test", "name": "a", "event": "failed", "stdout": "Error: \"x\"\n" }
  [101]
  $ report 'failed a' >given; expect known -
  failed: a
  0 known failures; 1 failed; 0 passed; 0 with another message; 0 absent
  --lines: failed: { "type": "test", "name": "a", "event": "failed" }
  [101]
  $ report 'failed [k] b: no: 1\nyes' 'failed c: ' 'failed d: \nyes' >given; expect known -
  failed: [k] b: no: 1
  failed: c
  failed: d
  0 known failures; 3 failed; 0 passed; 0 with another message; 0 absent
  --lines: failed: { "type": "test", "name": "b", "kind": "k", "event": "failed", "stdout": "Error: \"no: 1\nyes\"\n" }
  --lines: failed: { "type": "test", "name": "c", "event": "failed", "stdout": "Error: \"\"\n" }
  --lines: failed: { "type": "test", "name": "d", "event": "failed", "stdout": "Error: \"\nyes\"\n" }
  [101]
  $ report 'failed [k] a\u001b\n: x' 'ok b' 'failed [k] c' 'ignored d' 'bench e: 7' >kinds; expect known kinds
  failed: [k] a\u{1b}\u{a}: x
  failed: [k] c
  0 known failures; 2 failed; 0 passed; 0 with another message; 0 absent
  --lines: failed: { "type": "test", "name": "a\u001b\n", "kind": "k", "event": "failed", "stdout": "Error: \"x\"\n" }
  --lines: failed: { "type": "test", "name": "c", "kind": "k", "event": "failed" }
  [101]
  $ report $'failed [\\u001b] a\\n\\\\u{41}\\"<\xc2\x85: \\r\\u0007\xe2\x80\xa8x\\ny' >given; expect known -
  failed: [\u{1b}] a\u{a}\u{5c}u{41}"<\u{85}: \u{d}\u{7}\u{2028}x
  0 known failures; 1 failed; 0 passed; 0 with another message; 0 absent
  --lines: failed: { "type": "test", "name": "a\\n\\\\u{41}\\"<\xc2\x85", "kind": "\\u001b", "event": "failed", "stdout": "Error: \\"\\r\\u0007\xe2\x80\xa8x\\ny\\"\\n" } (esc)
  [101]

Another message than the known one. An empty message is one, too.

  $ failures '2 + 2: three' >known; expect known sums
  another message, line 1 can go: 2 + 2: assertion `left == right` failed
  0 known failures; 0 failed; 0 passed; 1 with another message; 0 absent
  --lines: another message, line 1 can go: { "type": "test", "name": "2 + 2", "event": "failed", "stdout": "Error: \"assertion `left == right` failed\n  left: 4\n right: 5\"\n" }
  [101]
  $ failures 'a: ' >known; report 'failed a' >given; expect known -
  another message, line 1 can go: a
  0 known failures; 0 failed; 0 passed; 1 with another message; 0 absent
  --lines: another message, line 1 can go: { "type": "test", "name": "a", "event": "failed" }
  [101]
  $ failures 'a: z' >known; report 'failed a: x' >given; expect known -
  another message, line 1 can go: a: x
  0 known failures; 0 failed; 0 passed; 1 with another message; 0 absent
  --lines: another message, line 1 can go: { "type": "test", "name": "a", "event": "failed", "stdout": "Error: \"x\"\n" }
  [101]

A trial of another kind is another trial.

  $ failures '[k] a: x' >known; expect known -
  failed: a: x
  absent, line 1 can go: [k] a
  0 known failures; 1 failed; 0 passed; 0 with another message; 1 absent
  --lines: failed: { "type": "test", "name": "a", "event": "failed", "stdout": "Error: \"x\"\n" }
  --lines: absent, line 1 can go: { "type": "test", "name": "a", "kind": "k", "event": "failed", "stdout": "Error: \"x\"\n" }
  [101]

A known failure that passed, or is absent from reports of which no trial was filtered out.

  $ { echo; failures '7 + 0' "$unequal"; } >known; expect known sums
  passed, line 2 can go: 7 + 0
  1 known failures; 0 failed; 1 passed; 0 with another message; 0 absent
  --lines: passed, line 2 can go: { "type": "test", "name": "7 + 0", "event": "failed" }
  --lax: status 0
  [101]
  $ failures '7 + 0' "$unequal" >known; expect known sums
  passed, line 1 can go: 7 + 0
  1 known failures; 0 failed; 1 passed; 0 with another message; 0 absent
  --lines: passed, line 1 can go: { "type": "test", "name": "7 + 0", "event": "failed" }
  --lax: status 0
  [101]
  $ reports expect --lax known sums
  passed, line 1 can go: 7 + 0
  1 known failures; 0 failed; 1 passed; 0 with another message; 0 absent
  $ { printf '# why\n\n'; failures 'a: x'; } >known; report 'ok a' >given; expect known -
  passed, line 3 can go: a
  0 known failures; 0 failed; 1 passed; 0 with another message; 0 absent
  --lines: passed, line 3 can go: { "type": "test", "name": "a", "event": "failed", "stdout": "Error: \"x\"\n" }
  --lax: status 0
  [101]
  $ failures 'a: x' >known; expect known -
  passed, line 1 can go: a
  0 known failures; 0 failed; 1 passed; 0 with another message; 0 absent
  --lines: passed, line 1 can go: { "type": "test", "name": "a", "event": "failed", "stdout": "Error: \"x\"\n" }
  --lax: status 0
  [101]
  $ failures '[k] a' >known; report 'bench [k] a: 1234 5' >given; expect known -
  passed, line 1 can go: [k] a
  0 known failures; 0 failed; 1 passed; 0 with another message; 0 absent
  --lines: passed, line 1 can go: { "type": "test", "name": "a", "kind": "k", "event": "failed" }
  --lax: status 0
  [101]
  $ { echo '# why'; failures '[k] a: z'; } >known; expect known -
  passed, line 2 can go: [k] a
  0 known failures; 0 failed; 1 passed; 0 with another message; 0 absent
  --lines: passed, line 2 can go: { "type": "test", "name": "a", "kind": "k", "event": "failed", "stdout": "Error: \"z\"\n" }
  --lax: status 0
  [101]
  $ failures '[\u001b] a\n\"\\' >known; report 'ok [\u001b] a\n\"\\' >given; expect known -
  passed, line 1 can go: [\u{1b}] a\u{a}"\
  0 known failures; 0 failed; 1 passed; 0 with another message; 0 absent
  --lines: passed, line 1 can go: { "type": "test", "name": "a\n\"\\", "kind": "\u001b", "event": "failed" }
  --lax: status 0
  [101]
  $ failures b >known; report 'failed a' 'ok b' >given; expect known -
  failed: a
  passed, line 1 can go: b
  0 known failures; 1 failed; 1 passed; 0 with another message; 0 absent
  --lines: failed: { "type": "test", "name": "a", "event": "failed" }
  --lines: passed, line 1 can go: { "type": "test", "name": "b", "event": "failed" }
  [101]
  $ failures a >known; report 'ignored a' >given; expect known -
  0 known failures; 0 failed; 0 passed; 0 with another message; 0 absent
  $ failures nine >known; expect known none
  absent, line 1 can go: nine
  0 known failures; 0 failed; 0 passed; 0 with another message; 1 absent
  --lines: absent, line 1 can go: { "type": "test", "name": "nine", "event": "failed" }
  [101]
  $ failures nine >known; expect known some
  0 known failures; 0 failed; 0 passed; 0 with another message; 0 absent
  $ failures a >known; report >given; expect known -
  absent, line 1 can go: a
  0 known failures; 0 failed; 0 passed; 0 with another message; 1 absent
  --lines: absent, line 1 can go: { "type": "test", "name": "a", "event": "failed" }
  [101]
  $ failures 'c: z' >known; expect known -
  absent, line 1 can go: c
  0 known failures; 0 failed; 0 passed; 0 with another message; 1 absent
  --lines: absent, line 1 can go: { "type": "test", "name": "c", "event": "failed", "stdout": "Error: \"z\"\n" }
  [101]

A line expects one failure. A failure meets the line of its own message before one of any.

  $ failures a a >known; report 'failed a: x' >given; expect known -
  absent, line 2 can go: a
  1 known failures; 0 failed; 0 passed; 0 with another message; 1 absent
  --lines: absent, line 2 can go: { "type": "test", "name": "a", "event": "failed" }
  [101]
  $ failures a 'a: y' >known; report 'failed a: y' 'failed a: x' >given; expect known -
  2 known failures; 0 failed; 0 passed; 0 with another message; 0 absent
  $ report 'failed a: x' 'failed a' 'failed a: y' 'ok b' 'ignored c' >twice
  $ failures c >known; expect known twice
  failed: a: x
  failed: a
  failed: a: y
  0 known failures; 3 failed; 0 passed; 0 with another message; 0 absent
  --lines: failed: { "type": "test", "name": "a", "event": "failed", "stdout": "Error: \"x\"\n" }
  --lines: failed: { "type": "test", "name": "a", "event": "failed" }
  --lines: failed: { "type": "test", "name": "a", "event": "failed", "stdout": "Error: \"y\"\n" }
  [101]
  $ failures a 'a: y' >known; expect known twice
  failed: a
  2 known failures; 1 failed; 0 passed; 0 with another message; 0 absent
  --lines: failed: { "type": "test", "name": "a", "event": "failed" }
  [101]
  $ failures 'a: z' 'a: z' 'a: z' >known; expect known twice
  another message, line 1 can go: a: x
  another message, line 2 can go: a
  another message, line 3 can go: a: y
  0 known failures; 0 failed; 0 passed; 3 with another message; 0 absent
  --lines: another message, line 1 can go: { "type": "test", "name": "a", "event": "failed", "stdout": "Error: \"x\"\n" }
  --lines: another message, line 2 can go: { "type": "test", "name": "a", "event": "failed" }
  --lines: another message, line 3 can go: { "type": "test", "name": "a", "event": "failed", "stdout": "Error: \"y\"\n" }
  [101]
  $ failures '2 + 2: three' '2 + 2' >known; expect known sums
  absent, line 1 can go: 2 + 2
  1 known failures; 0 failed; 0 passed; 0 with another message; 1 absent
  --lines: absent, line 1 can go: { "type": "test", "name": "2 + 2", "event": "failed", "stdout": "Error: \"three\"\n" }
  [101]
  $ { failures c; echo '# why'; failures 'a: z'; } >known; report 'failed a: y' 'failed b' >given; expect known -
  failed: b
  absent, line 1 can go: c
  another message, line 3 can go: a: y
  0 known failures; 1 failed; 0 passed; 1 with another message; 1 absent
  --lines: failed: { "type": "test", "name": "b", "event": "failed" }
  --lines: absent, line 1 can go: { "type": "test", "name": "c", "event": "failed" }
  --lines: another message, line 3 can go: { "type": "test", "name": "a", "event": "failed", "stdout": "Error: \"y\"\n" }
  [101]

A time plays no part.

  $ report 'ok 1 + 1 <1>' "failed $unequal <0.35>" 'ok 7 + 0 <18446744073.709551615>' >timed
  $ failures "$unequal" >known; expect known timed
  1 known failures; 0 failed; 0 passed; 0 with another message; 0 absent
  $ failures "$unequal <1.5>" >known; expect known sums
  1 known failures; 0 failed; 0 passed; 0 with another message; 0 absent
  $ failures '2 + 2 <1.5>' >known; expect known timed
  1 known failures; 0 failed; 0 passed; 0 with another message; 0 absent
  $ : >known; expect known timed
  failed: 2 + 2: assertion `left == right` failed
  0 known failures; 1 failed; 0 passed; 0 with another message; 0 absent
  --lines: failed: { "type": "test", "name": "2 + 2", "event": "failed", "stdout": "Error: \"assertion `left == right` failed\n  left: 4\n right: 5\"\n" }
  [101]
  $ failures '2 + 2: three <1.5>' >known; expect known timed
  another message, line 1 can go: 2 + 2: assertion `left == right` failed
  0 known failures; 0 failed; 0 passed; 1 with another message; 0 absent
  --lines: another message, line 1 can go: { "type": "test", "name": "2 + 2", "event": "failed", "stdout": "Error: \"assertion `left == right` failed\n  left: 4\n right: 5\"\n" }
  [101]
  $ failures 'nine <1.5>' >known; expect known none
  absent, line 1 can go: nine
  0 known failures; 0 failed; 0 passed; 0 with another message; 1 absent
  --lines: absent, line 1 can go: { "type": "test", "name": "nine", "event": "failed" }
  [101]
  $ { failures '7 + 0 <1.5>'; failures "$unequal"; } >known; expect known timed
  passed, line 1 can go: 7 + 0
  1 known failures; 0 failed; 1 passed; 0 with another message; 0 absent
  --lines: passed, line 1 can go: { "type": "test", "name": "7 + 0", "event": "failed" }
  --lax: status 0
  [101]

A report that is cut, wrong or absent makes the status 1. The trial that was running then is printed, and nothing is absent.

  $ failures '2 + 2' >known; head -c -1 sums >cut; expect known cut
  1 known failures; 0 failed; 0 passed; 0 with another message; 0 absent
  2> reports: cut: the report is cut
  [1]
  $ expect known cut sums
  failed: 2 + 2: assertion `left == right` failed
  1 known failures; 1 failed; 0 passed; 0 with another message; 0 absent
  --lines: failed: { "type": "test", "name": "2 + 2", "event": "failed", "stdout": "Error: \"assertion `left == right` failed\n  left: 4\n right: 5\"\n" }
  2> reports: cut: the report is cut
  [1]
  $ head -n 6 sums >killed; expect known killed
  running: 7 + 0
  1 known failures; 0 failed; 0 passed; 0 with another message; 0 absent
  --lines: running: { "type": "test", "event": "started", "name": "7 + 0" }
  2> reports: killed: the report is cut
  [1]
  $ sed '2s/1 + 1/1 + 2/' sums >wrong; expect known wrong sums
  running: 1 + 2
  1 known failures; 0 failed; 0 passed; 0 with another message; 0 absent
  --lines: running: { "type": "test", "event": "started", "name": "1 + 2" }
  2> reports: wrong: line 3: not what a report has there
  [1]
  $ expect known nowhere
  0 known failures; 0 failed; 0 passed; 0 with another message; 0 absent
  2> reports: nowhere: No such file or directory (os error 2)
  [1]
  $ : >known; begun 1 'running [k\u001b] a\n' >odd; reports expect --lines --lax known odd killed
  failed: { "type": "test", "name": "2 + 2", "event": "failed", "stdout": "Error: \"assertion `left == right` failed\n  left: 4\n right: 5\"\n" }
  running: { "type": "test", "event": "started", "name": "a\n", "kind": "k\u001b" }
  running: { "type": "test", "event": "started", "name": "7 + 0" }
  0 known failures; 1 failed; 0 passed; 0 with another message; 0 absent
  2> reports: odd: the report is cut
  2> reports: killed: the report is cut
  [1]
  $ reports expect --lax known odd killed
  failed: 2 + 2: assertion `left == right` failed
  running: [k\u{1b}] a\u{a}
  running: 7 + 0
  0 known failures; 1 failed; 0 passed; 0 with another message; 0 absent
  2> reports: odd: the report is cut
  2> reports: killed: the report is cut
  [1]
  $ failures '[k] a\u001b\n: x' '[k] c' >known; reports expect --lax known cut killed
  failed: 2 + 2: assertion `left == right` failed
  failed: 2 + 2: assertion `left == right` failed
  running: 7 + 0
  0 known failures; 2 failed; 0 passed; 0 with another message; 0 absent
  2> reports: cut: the report is cut
  2> reports: killed: the report is cut
  [1]
  $ failures a >known; begun 1 'ok a' >given; expect known -
  passed, line 1 can go: a
  0 known failures; 0 failed; 1 passed; 0 with another message; 0 absent
  --lines: passed, line 1 can go: { "type": "test", "name": "a", "event": "failed" }
  2> reports: -: the report is cut
  [1]
  $ : >known; begun 1 'running [k] b\n' >given; expect known -
  running: [k] b\u{a}
  0 known failures; 0 failed; 0 passed; 0 with another message; 0 absent
  --lines: running: { "type": "test", "event": "started", "name": "b\n", "kind": "k" }
  2> reports: -: the report is cut
  [1]

A file that isn't one of known failures.

  $ { failures '2 + 2'; echo what; } >known; expect known sums
  2> reports: known: line 2: not the line of a failed trial; reports known makes such lines of a report
  [1]
  $ cp sums known; expect known sums
  2> reports: known: line 1: not the line of a failed trial; reports known makes such lines of a report
  [1]
  $ reports expect nowhere sums
  2> reports: nowhere: No such file or directory (os error 2)
  [1]
  $ reports expect - - <sums
  2> reports: standard input can be read once only
  [2]
  $ reports expect known - - <sums
  2> reports: standard input can be read once only
  [2]
  $ reports expect --help
  Print what is not as known failures say
  
  Usage: reports expect [OPTIONS] <KNOWN> <FILE>...
  
  Arguments:
    <KNOWN>    Lines of failed trials of a report, with # comments between; - is standard input
    <FILE>...  Reports in JSON; - is standard input
  
  Options:
        --lax     Let known failures pass
        --lines   Print trials as lines in JSON
        --update  Bring KNOWN up to date, if the reports are whole
    -h, --help    Print help

What `reports known` prints is such a file.

  $ reports known kinds | reports expect - kinds
  2 known failures; 0 failed; 0 passed; 0 with another message; 0 absent
