What `harness --list` lists, in the order of the trials.

  $ harness --list a
  cat: test
  [apple] fox: test
  [apple] bunny: test
  [banana] fly: test
  [banana] bear: test
  cyan: bench
  [banana] orange: bench
  [banana] pink: bench
  $ harness --list --ignored
  frog: test
  owl: test
  [banana] fly: test
  [banana] bear: test
  purple: bench
  cyan: bench
  [banana] orange: bench
  [banana] pink: bench
  $ harness --list --exact '[apple] fox'
  [apple] fox: test
  $ harness --list --exact fly
  [banana] fly: test
  $ harness --list --exact fly '[apple] fox'
  [apple] fox: test
  [banana] fly: test
  $ harness --list zzz '' | diff - <(harness --list)
  $ harness --list --exact --skip '[apple] fox' --skip fly
  cat: test
  "ups": test
  dog: test
  [apple] bunny: test
  frog: test
  owl: test
  [banana] bear: test
  red: bench
  blue: bench
  [kiwi] yellow: bench
  [kiwi] green: bench
  purple: bench
  cyan: bench
  [banana] orange: bench
  [banana] pink: bench
  $ harness --list --color=always --quiet re
  red: bench
  [kiwi] green: bench

Several filters select what any of them does, in any order.

  $ harness --list c o
  cat: test
  dog: test
  [apple] fox: test
  frog: test
  owl: test
  [kiwi] yellow: bench
  cyan: bench
  [banana] orange: bench
  $ harness --list o c
  cat: test
  dog: test
  [apple] fox: test
  frog: test
  owl: test
  [kiwi] yellow: bench
  cyan: bench
  [banana] orange: bench

A list starts no thread.

  $ harness --test-threads 0 --list a
  cat: test
  [apple] fox: test
  [apple] bunny: test
  [banana] fly: test
  [banana] bear: test
  cyan: bench
  [banana] orange: bench
  [banana] pink: bench
