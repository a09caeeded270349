What `--logfile` does. The file is emptied first, before threads are counted.

  $ yes 'a longer text' | head -n 100 >log; harness --list a --logfile log
  $ diff log <(harness --list a)
  $ yes 'a longer text' | head -n 100 >log; harness --test-threads 0 --logfile log
  2> harness: no threads to run trials
  [1]
  $ cat log

Files that can't be made, and that take nothing. `example_sums` prints the cause, too, and that of standard output.

  $ harness --test-threads 0 --logfile /nowhere/to/be/found
  2> harness: cannot create the logfile
  [1]
  $ harness --logfile /nowhere/to/be/found
  2> harness: cannot create the logfile
  [1]
  $ harness --list --logfile /nowhere/to/be/found
  2> harness: cannot create the logfile
  [1]
  $ harness zebra --logfile /nowhere/to/be/found
  2> harness: cannot create the logfile
  [1]
  $ harness zebra --logfile /dev/full
  2> harness: cannot write the report
  [1]
  $ harness --list zebra --logfile /nowhere/to/be/found
  2> harness: cannot create the logfile
  [1]
  $ harness --logfile /dev/full
  2> harness: cannot write the report
  [1]
  $ harness --list --logfile /dev/full
  2> harness: cannot write the report
  [1]
  $ example_sums >/dev/full
  2> example_sums: cannot write the report to standard output: No space left on device (os error 28)
  [1]
  $ example_sums --logfile /dev/full
  2> example_sums: cannot write the report to /dev/full: No space left on device (os error 28)
  [1]
  $ example_sums --logfile /nowhere/to/be/found
  2> example_sums: cannot create the logfile /nowhere/to/be/found: No such file or directory (os error 2)
  [1]
  $ harness --logfile /nowhere/to/be/found 2>/dev/full
  [1]
