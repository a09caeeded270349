`example_sorts` has a test and a benchmark for each way to sort. Those of 10,000 numbers are ignored, since they take long.

  $ example_sorts --test --format json --test-threads 1 | timeless
  { "type": "suite", "event": "started", "test_count": 18 }
  { "type": "test", "event": "started", "name": "100 falling", "kind": "stable" }
  { "type": "test", "name": "100 falling", "kind": "stable", "event": "ok" }
  { "type": "test", "event": "started", "name": "time of 100 falling", "kind": "stable" }
  { "type": "test", "name": "time of 100 falling", "kind": "stable", "event": "ignored" }
  { "type": "test", "event": "started", "name": "100 mixed", "kind": "stable" }
  { "type": "test", "name": "100 mixed", "kind": "stable", "event": "ok" }
  { "type": "test", "event": "started", "name": "time of 100 mixed", "kind": "stable" }
  { "type": "test", "name": "time of 100 mixed", "kind": "stable", "event": "ignored" }
  { "type": "test", "event": "started", "name": "10000 mixed", "kind": "stable" }
  { "type": "test", "name": "10000 mixed", "kind": "stable", "event": "ignored" }
  { "type": "test", "event": "started", "name": "time of 10000 mixed", "kind": "stable" }
  { "type": "test", "name": "time of 10000 mixed", "kind": "stable", "event": "ignored" }
  { "type": "test", "event": "started", "name": "100 falling", "kind": "unstable" }
  { "type": "test", "name": "100 falling", "kind": "unstable", "event": "ok" }
  { "type": "test", "event": "started", "name": "time of 100 falling", "kind": "unstable" }
  { "type": "test", "name": "time of 100 falling", "kind": "unstable", "event": "ignored" }
  { "type": "test", "event": "started", "name": "100 mixed", "kind": "unstable" }
  { "type": "test", "name": "100 mixed", "kind": "unstable", "event": "ok" }
  { "type": "test", "event": "started", "name": "time of 100 mixed", "kind": "unstable" }
  { "type": "test", "name": "time of 100 mixed", "kind": "unstable", "event": "ignored" }
  { "type": "test", "event": "started", "name": "10000 mixed", "kind": "unstable" }
  { "type": "test", "name": "10000 mixed", "kind": "unstable", "event": "ignored" }
  { "type": "test", "event": "started", "name": "time of 10000 mixed", "kind": "unstable" }
  { "type": "test", "name": "time of 10000 mixed", "kind": "unstable", "event": "ignored" }
  { "type": "test", "event": "started", "name": "100 falling", "kind": "heap" }
  { "type": "test", "name": "100 falling", "kind": "heap", "event": "ok" }
  { "type": "test", "event": "started", "name": "time of 100 falling", "kind": "heap" }
  { "type": "test", "name": "time of 100 falling", "kind": "heap", "event": "ignored" }
  { "type": "test", "event": "started", "name": "100 mixed", "kind": "heap" }
  { "type": "test", "name": "100 mixed", "kind": "heap", "event": "ok" }
  { "type": "test", "event": "started", "name": "time of 100 mixed", "kind": "heap" }
  { "type": "test", "name": "time of 100 mixed", "kind": "heap", "event": "ignored" }
  { "type": "test", "event": "started", "name": "10000 mixed", "kind": "heap" }
  { "type": "test", "name": "10000 mixed", "kind": "heap", "event": "ignored" }
  { "type": "test", "event": "started", "name": "time of 10000 mixed", "kind": "heap" }
  { "type": "test", "name": "time of 10000 mixed", "kind": "heap", "event": "ignored" }
  { "type": "suite", "event": "ok", "passed": 6, "failed": 0, "ignored": 12, "measured": 0, "filtered_out": 0, "exec_time": 0 }
  $ example_sorts --list
  [stable] 100 falling: test
  [stable] time of 100 falling: bench
  [stable] 100 mixed: test
  [stable] time of 100 mixed: bench
  [stable] 10000 mixed: test
  [stable] time of 10000 mixed: bench
  [unstable] 100 falling: test
  [unstable] time of 100 falling: bench
  [unstable] 100 mixed: test
  [unstable] time of 100 mixed: bench
  [unstable] 10000 mixed: test
  [unstable] time of 10000 mixed: bench
  [heap] 100 falling: test
  [heap] time of 100 falling: bench
  [heap] 100 mixed: test
  [heap] time of 100 mixed: bench
  [heap] 10000 mixed: test
  [heap] time of 10000 mixed: bench
  $ example_sorts --list --ignored
  [stable] 10000 mixed: test
  [stable] time of 10000 mixed: bench
  [unstable] 10000 mixed: test
  [unstable] time of 10000 mixed: bench
  [heap] 10000 mixed: test
  [heap] time of 10000 mixed: bench
