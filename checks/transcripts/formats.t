`harness` has 17 trials, of which some fail, and some are ignored unless asked for. What it prints is what the example of the
Rust crate prints of the same trials, but for several filters, and for kinds in JSON.

  $ one() { harness --test-threads 1 "$@" | timeless; }

By default it has four threads. Then the rows of a report are in any order, and so are the marks of a terse one.

  $ four() { harness "$@" | timeless | sed 's/^i[.]$/.i/' | sort | diff - <(one "$@" | sort); }

Tests, and benchmarks as such.

  $ one --include-ignored
  
  running 17 tests
  test          cat    ... ok
  test          "ups"  ... FAILED
  test          dog    ... FAILED
  test [apple]  fox    ... ok
  test [apple]  bunny  ... FAILED
  test          frog   ... ok
  test          owl    ... FAILED
  test [banana] fly    ... ok
  test [banana] bear   ... FAILED
  test          red    ... ok
  test          blue   ... FAILED
  test [kiwi]   yellow ... ok
  test [kiwi]   green  ... FAILED
  test          purple ... ok
  test          cyan   ... FAILED
  test [banana] orange ... ok
  test [banana] pink   ... FAILED
  
  failures:
  
  ---- "ups" ----
  failed to parse "abc"
  
  ---- dog ----
  was not a good boy
  
  ---- bunny ----
  jumped too high
  
  ---- owl ----
  broke neck
  
  ---- bear ----
  no honey
  
  ---- blue ----
  sky fell down
  
  ---- green ----
  was poisoned
  
  ---- cyan ----
  not creative enough
  
  ---- pink ----
  bad
  
  
  failures:
      "ups"
      dog
      bunny
      owl
      bear
      blue
      green
      cyan
      pink
  
  test result: FAILED. 8 passed; 9 failed; 0 ignored; 0 measured; 0 filtered out; finished in 0.00s
  
  [101]
  $ four --include-ignored
  [101]
  $ one --bench --include-ignored
  
  running 17 tests
  test          cat    ... ignored
  test          "ups"  ... ignored
  test          dog    ... ignored
  test [apple]  fox    ... ignored
  test [apple]  bunny  ... ignored
  test          frog   ... ignored
  test          owl    ... ignored
  test [banana] fly    ... ignored
  test [banana] bear   ... ignored
  test          red    ... bench:          32 ns/iter (+/- 3)
  test          blue   ... FAILED
  test [kiwi]   yellow ... bench:          64 ns/iter (+/- 4)
  test [kiwi]   green  ... FAILED
  test          purple ... bench:         100 ns/iter (+/- 5)
  test          cyan   ... FAILED
  test [banana] orange ... bench:          17 ns/iter (+/- 6)
  test [banana] pink   ... FAILED
  
  failures:
  
  ---- blue ----
  sky fell down
  
  ---- green ----
  was poisoned
  
  ---- cyan ----
  not creative enough
  
  ---- pink ----
  bad
  
  
  failures:
      blue
      green
      cyan
      pink
  
  test result: FAILED. 0 passed; 4 failed; 9 ignored; 4 measured; 0 filtered out; finished in 0.00s
  
  [101]
  $ four --bench --include-ignored
  [101]

The formats, and colours.

  $ one --bench -q --color always --skip e
  
  running 8 tests
  \x1b[33mi\x1b[0m\x1b[33mi\x1b[0m\x1b[33mi\x1b[0m\x1b[33mi\x1b[0m\x1b[33mi\x1b[0m\x1b[33mi\x1b[0m\x1b[33mi\x1b[0m\x1b[33mi\x1b[0m (esc)
  test result: \x1b[32mok\x1b[0m. 0 passed; 0 failed; 8 ignored; 0 measured; 9 filtered out; finished in 0.00s (esc)
  
  $ four --bench -q --color always --skip e
  $ one --ignored --format=terse bear
  
  running 1 test
  F
  failures:
  
  ---- bear ----
  no honey
  
  
  failures:
      bear
  
  test result: FAILED. 0 passed; 1 failed; 0 ignored; 0 measured; 16 filtered out; finished in 0.00s
  
  [101]
  $ four --ignored --format=terse bear
  [101]
  $ one --exact --color=always cat
  
  running 1 test
  test cat ... \x1b[32mok\x1b[0m (esc)
  
  test result: \x1b[32mok\x1b[0m. 1 passed; 0 failed; 0 ignored; 0 measured; 16 filtered out; finished in 0.00s (esc)
  
  $ four --exact --color=always cat
  $ one --format json fly
  { "type": "suite", "event": "started", "test_count": 1 }
  { "type": "test", "event": "started", "name": "fly", "kind": "banana" }
  { "type": "test", "name": "fly", "kind": "banana", "event": "ignored" }
  { "type": "suite", "event": "ok", "passed": 0, "failed": 0, "ignored": 1, "measured": 0, "filtered_out": 16, "exec_time": 0 }
  $ four --format json fly
  $ one -q
  
  running 17 tests
  .FF.Fiiii.F.Fiiii
  failures:
  
  ---- "ups" ----
  failed to parse "abc"
  
  ---- dog ----
  was not a good boy
  
  ---- bunny ----
  jumped too high
  
  ---- blue ----
  sky fell down
  
  ---- green ----
  was poisoned
  
  
  failures:
      "ups"
      dog
      bunny
      blue
      green
  
  test result: FAILED. 4 passed; 5 failed; 8 ignored; 0 measured; 0 filtered out; finished in 0.00s
  
  [101]

In JSON a report has two lines for each trial, and two more.

  $ one --format json --color always
  { "type": "suite", "event": "started", "test_count": 17 }
  { "type": "test", "event": "started", "name": "cat" }
  { "type": "test", "name": "cat", "event": "ok" }
  { "type": "test", "event": "started", "name": "\"ups\"" }
  { "type": "test", "name": "\"ups\"", "event": "failed", "stdout": "Error: \"failed to parse \"abc\"\"\n" }
  { "type": "test", "event": "started", "name": "dog" }
  { "type": "test", "name": "dog", "event": "failed", "stdout": "Error: \"was not a good boy\"\n" }
  { "type": "test", "event": "started", "name": "fox", "kind": "apple" }
  { "type": "test", "name": "fox", "kind": "apple", "event": "ok" }
  { "type": "test", "event": "started", "name": "bunny", "kind": "apple" }
  { "type": "test", "name": "bunny", "kind": "apple", "event": "failed", "stdout": "Error: \"jumped too high\"\n" }
  { "type": "test", "event": "started", "name": "frog" }
  { "type": "test", "name": "frog", "event": "ignored" }
  { "type": "test", "event": "started", "name": "owl" }
  { "type": "test", "name": "owl", "event": "ignored" }
  { "type": "test", "event": "started", "name": "fly", "kind": "banana" }
  { "type": "test", "name": "fly", "kind": "banana", "event": "ignored" }
  { "type": "test", "event": "started", "name": "bear", "kind": "banana" }
  { "type": "test", "name": "bear", "kind": "banana", "event": "ignored" }
  { "type": "test", "event": "started", "name": "red" }
  { "type": "test", "name": "red", "event": "ok" }
  { "type": "test", "event": "started", "name": "blue" }
  { "type": "test", "name": "blue", "event": "failed", "stdout": "Error: \"sky fell down\"\n" }
  { "type": "test", "event": "started", "name": "yellow", "kind": "kiwi" }
  { "type": "test", "name": "yellow", "kind": "kiwi", "event": "ok" }
  { "type": "test", "event": "started", "name": "green", "kind": "kiwi" }
  { "type": "test", "name": "green", "kind": "kiwi", "event": "failed", "stdout": "Error: \"was poisoned\"\n" }
  { "type": "test", "event": "started", "name": "purple" }
  { "type": "test", "name": "purple", "event": "ignored" }
  { "type": "test", "event": "started", "name": "cyan" }
  { "type": "test", "name": "cyan", "event": "ignored" }
  { "type": "test", "event": "started", "name": "orange", "kind": "banana" }
  { "type": "test", "name": "orange", "kind": "banana", "event": "ignored" }
  { "type": "test", "event": "started", "name": "pink", "kind": "banana" }
  { "type": "test", "name": "pink", "kind": "banana", "event": "ignored" }
  { "type": "suite", "event": "failed", "passed": 4, "failed": 5, "ignored": 8, "measured": 0, "filtered_out": 0, "exec_time": 0 }
  [101]
  $ one --test --ignored o
  
  running 3 tests
  test          frog   ... ok
  test          owl    ... FAILED
  test [banana] orange ... ignored
  
  failures:
  
  ---- owl ----
  broke neck
  
  
  failures:
      owl
  
  test result: FAILED. 1 passed; 1 failed; 1 ignored; 0 measured; 14 filtered out; finished in 0.00s
  
  [101]

Names, and names with their kind.

  $ one --include-ignored --bench '[banana] o'
  
  running 1 test
  test [banana] orange ... bench:          17 ns/iter (+/- 6)
  
  test result: ok. 0 passed; 0 failed; 0 ignored; 1 measured; 16 filtered out; finished in 0.00s
  
  $ four --include-ignored --bench '[banana] o'
  $ one --test --exact '[apple] bunny'
  
  running 1 test
  test [apple] bunny ... FAILED
  
  failures:
  
  ---- bunny ----
  jumped too high
  
  
  failures:
      bunny
  
  test result: FAILED. 0 passed; 1 failed; 0 ignored; 0 measured; 16 filtered out; finished in 0.00s
  
  [101]
  $ four --test --exact '[apple] bunny'
  [101]
  $ one --skip= -q
  
  running 0 tests
  
  test result: ok. 0 passed; 0 failed; 0 ignored; 0 measured; 17 filtered out; finished in 0.00s
  
  $ four --skip= -q
  $ one '] f' -q
  
  running 2 tests
  .i
  test result: ok. 1 passed; 0 failed; 1 ignored; 0 measured; 15 filtered out; finished in 0.00s
  
  $ four '] f' -q
  $ one --bench --exact --ignored purple
  
  running 1 test
  test purple ... bench:         100 ns/iter (+/- 5)
  
  test result: ok. 0 passed; 0 failed; 0 ignored; 1 measured; 16 filtered out; finished in 0.00s
  
  $ four --bench --exact --ignored purple

Words that change nothing.

  $ one --nocapture --show-output -Zunstable-options --exact owl
  
  running 1 test
  test owl ... ignored
  
  test result: ok. 0 passed; 0 failed; 1 ignored; 0 measured; 16 filtered out; finished in 0.00s
  
  $ four --nocapture --show-output -Zunstable-options --exact owl
