What options and filters select of the 17 trials of `harness`. Only the last lines of each report are shown.

  $ one() { harness --test-threads 1 "$@" | timeless | tail -n 2; }
  $ four() { harness "$@" | timeless | tail -n 2 | diff - <(one "$@"); }

Tests and benchmarks.

  $ one
  test result: FAILED. 4 passed; 5 failed; 8 ignored; 0 measured; 0 filtered out; finished in 0.00s
  
  [101]
  $ four
  [101]
  $ one --test
  test result: FAILED. 2 passed; 3 failed; 12 ignored; 0 measured; 0 filtered out; finished in 0.00s
  
  [101]
  $ four --test
  [101]
  $ one --bench
  test result: FAILED. 0 passed; 2 failed; 13 ignored; 2 measured; 0 filtered out; finished in 0.00s
  
  [101]
  $ four --bench
  [101]

Trials that are ignored otherwise.

  $ one --include-ignored
  test result: FAILED. 8 passed; 9 failed; 0 ignored; 0 measured; 0 filtered out; finished in 0.00s
  
  [101]
  $ four --include-ignored
  [101]
  $ one --ignored
  test result: FAILED. 4 passed; 4 failed; 0 ignored; 0 measured; 9 filtered out; finished in 0.00s
  
  [101]
  $ four --ignored
  [101]

Filters. Several of them select what any of them does.

  $ one c
  test result: ok. 1 passed; 0 failed; 1 ignored; 0 measured; 15 filtered out; finished in 0.00s
  
  $ four c
  $ one --test o
  test result: FAILED. 1 passed; 1 failed; 4 ignored; 0 measured; 11 filtered out; finished in 0.00s
  
  [101]
  $ four --test o
  [101]
  $ one --test --include-ignored o
  test result: FAILED. 2 passed; 2 failed; 2 ignored; 0 measured; 11 filtered out; finished in 0.00s
  
  [101]
  $ four --test --include-ignored o
  [101]
  $ one --test --ignored o
  test result: FAILED. 1 passed; 1 failed; 1 ignored; 0 measured; 14 filtered out; finished in 0.00s
  
  [101]
  $ four --test --ignored o
  [101]
  $ one --include-ignored --skip g --test o
  test result: FAILED. 1 passed; 1 failed; 1 ignored; 0 measured; 14 filtered out; finished in 0.00s
  
  [101]
  $ four --include-ignored --skip g --test o
  [101]
  $ one c o
  test result: FAILED. 3 passed; 1 failed; 4 ignored; 0 measured; 9 filtered out; finished in 0.00s
  
  [101]
  $ four c o
  [101]
  $ one c o --skip o
  test result: ok. 1 passed; 0 failed; 1 ignored; 0 measured; 15 filtered out; finished in 0.00s
  
  $ four c o --skip o
  $ one cat owl
  test result: ok. 1 passed; 0 failed; 1 ignored; 0 measured; 15 filtered out; finished in 0.00s
  
  $ four cat owl
