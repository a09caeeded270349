`reports known` prints the failures of reports as a file of known ones for `reports expect`. Times of trials aren't in it.

  $ sums >sums
  $ reports known sums
  { "type": "test", "name": "2 + 2", "event": "failed", "stdout": "Error: \"assertion `left == right` failed\n  left: 4\n right: 5\"\n" }
  $ reports known - <sums
  { "type": "test", "name": "2 + 2", "event": "failed", "stdout": "Error: \"assertion `left == right` failed\n  left: 4\n right: 5\"\n" }
  $ report 'ok 1 + 1 <1>' 'failed 2 + 2: assertion `left == right` failed\n  left: 4\n right: 5 <0.35>' \
  >     'ok 7 + 0 <18446744073.709551615>' >timed
  $ reports known timed
  { "type": "test", "name": "2 + 2", "event": "failed", "stdout": "Error: \"assertion `left == right` failed\n  left: 4\n right: 5\"\n" }
  $ report >none
  $ reports known none
  $ report 'failed [k] a\u001b\n: x' 'ok b' 'failed [k] c' 'ignored d' 'bench e: 7' >kinds
  $ reports known kinds
  { "type": "test", "name": "a\u001b\n", "kind": "k", "event": "failed", "stdout": "Error: \"x\"\n" }
  { "type": "test", "name": "c", "kind": "k", "event": "failed" }
  $ report 'failed a: x' 'failed a' 'failed a: y' 'ok b' 'ignored c' >twice
  $ reports known twice none kinds
  { "type": "test", "name": "a", "event": "failed", "stdout": "Error: \"x\"\n" }
  { "type": "test", "name": "a", "event": "failed" }
  { "type": "test", "name": "a", "event": "failed", "stdout": "Error: \"y\"\n" }
  { "type": "test", "name": "a\u001b\n", "kind": "k", "event": "failed", "stdout": "Error: \"x\"\n" }
  { "type": "test", "name": "c", "kind": "k", "event": "failed" }

Of a report that is cut or absent it prints the failures that there are.

  $ head -c -1 sums >cut
  $ reports known cut sums
  { "type": "test", "name": "2 + 2", "event": "failed", "stdout": "Error: \"assertion `left == right` failed\n  left: 4\n right: 5\"\n" }
  { "type": "test", "name": "2 + 2", "event": "failed", "stdout": "Error: \"assertion `left == right` failed\n  left: 4\n right: 5\"\n" }
  2> reports: cut: the report is cut
  [1]
  $ reports known sums cut | wc -l
  2
  2> reports: cut: the report is cut
  [1]
  $ head -n 6 sums >killed
  $ reports known killed
  { "type": "test", "name": "2 + 2", "event": "failed", "stdout": "Error: \"assertion `left == right` failed\n  left: 4\n right: 5\"\n" }
  2> reports: killed: the report is cut; running: 7 + 0
  [1]
  $ reports known nowhere sums
  { "type": "test", "name": "2 + 2", "event": "failed", "stdout": "Error: \"assertion `left == right` failed\n  left: 4\n right: 5\"\n" }
  2> reports: nowhere: No such file or directory (os error 2)
  [1]
  $ reports known - - <sums
  2> reports: standard input can be read once only
  [2]
  $ reports known --help
  Print the failures of reports, as expect reads them
  
  Usage: reports known <FILE>...
  
  Arguments:
    <FILE>...  Reports in JSON; - is standard input
  
  Options:
    -h, --help  Print help
