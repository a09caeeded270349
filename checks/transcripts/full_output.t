What can't be written makes the status of `reports` 1. The cause is printed, but not if a reader has closed its pipe.

  $ report 'ok 1 + 1' 'ok 7 + 0' >0; head -n 4 0 >killed
  $ report 'failed 2 + 2: assertion `left == right` failed\n  left: 4\n right: 5' >1
  $ report 'failed [k] a\u001b\n: x' 'ok b' 'failed [k] c' 'ignored d' 'bench e: 7' >kinds; reports known kinds >known
  $ report 'ok plain <0.35>' 'ok [k] b <1.4999995>' >times
  $ sums >sums; mkfifo pipe; exec 3<>pipe 4>pipe 3<&-
  $ full() {
  >     reports "$@" <sums >/dev/full; local status=$?
  >     reports "$@" <sums >&4; [ $? = $status ] || echo "another status of a pipe"
  >     return $status
  > }

  $ full --help
  2> reports: cannot write to standard output: No space left on device (os error 28)
  [1]
  $ full join --help
  2> reports: cannot write to standard output: No space left on device (os error 28)
  [1]
  $ full join --shards 2 0 1
  2> reports: cannot write to standard output: No space left on device (os error 28)
  [1]
  $ full join --cut --shards 3 0 killed
  2> reports: cannot write to standard output: No space left on device (os error 28)
  [1]
  $ full junit --name sums 1
  2> reports: cannot write to standard output: No space left on device (os error 28)
  [1]
  $ full junit --root testsuite --name sums 1
  2> reports: cannot write to standard output: No space left on device (os error 28)
  [1]
  $ full show 1
  2> reports: cannot write to standard output: No space left on device (os error 28)
  [1]
  $ full show --failed 1
  2> reports: cannot write to standard output: No space left on device (os error 28)
  [1]
  $ full show killed
  2> reports: cannot write to standard output: No space left on device (os error 28)
  [1]
  $ full known 1
  2> reports: cannot write to standard output: No space left on device (os error 28)
  [1]
  $ full expect known kinds
  2> reports: cannot write to standard output: No space left on device (os error 28)
  [1]
  $ full compare 0 1
  2> reports: cannot write to standard output: No space left on device (os error 28)
  [1]
  $ full page 1
  2> reports: cannot write to standard output: No space left on device (os error 28)
  [1]
  $ full slowest times
  2> reports: cannot write to standard output: No space left on device (os error 28)
  [1]
  $ full watch
  2> reports: cannot write to standard output: No space left on device (os error 28)
  [1]
