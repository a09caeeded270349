What `--test-threads` does. A report is the same with any number of threads, but for its order.

  $ one() { harness --test-threads 1 | timeless | sort; }
  $ for threads in {1..20}; do harness --test-threads $threads | timeless | sort | diff - <(one); echo "status $?"; done | uniq -c
       20 status 101

No threads. A run of no trials needs none.

  $ harness --test-threads 0
  2> harness: no threads to run trials
  [1]
  $ harness --test-threads 0 zebra | timeless
  
  running 0 tests
  
  test result: ok. 0 passed; 0 failed; 0 ignored; 0 measured; 17 filtered out; finished in 0.00s
  
  $ example_sums --test-threads 0
  2> example_sums: no threads to run trials
  [1]
  $ harness --test-threads 0 2>/dev/full
  [1]
