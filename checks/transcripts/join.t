`reports join` makes the reports of all shards into the one of all trials, in the order in which a run without shards has them.
It does the same with `--cut` if every report is whole, so most of these run twice.

  $ join() {
  >     reports join "$@" >joined 2>said; local status=$?
  >     reports join --cut "$@" 2>same | cmp - joined; [ $? = $status ] || echo "--cut has another status"
  >     cat joined; cat said >&2; cmp said same
  >     return $status
  > }

Reports of trials that are named by letters, of which some were filtered out.

  $ letters() {
  >     local trials=() place
  >     for ((place = 0; place < ${#1}; place++)); do trials+=("ok ${1:place:1}"); done
  >     report --out "${2:-0}" "${trials[@]}"
  > }
  $ letters abc 2 >0; join --shards 1 0 | diff - <(letters abc 2)
  $ letters adg >0; letters be >1; letters cf >2; join --shards 3 0 1 2 | diff - <(letters abcdefg)
  $ letters adg >0; letters b 1 >1; letters '' 2 >2; join --shards 3 0 1 2 | diff - <(letters abdg 3)
  $ letters '' 1 >0; letters a >1; letters b >2; join --shards 3 0 1 2 | diff - <(letters ab 1)
  $ letters '' >0; letters '' >1; join --shards 2 0 1 | diff - <(letters '')
  $ letters aa >0; letters ba >1; join --shards 2 --equal-names 0 1 | diff - <(letters abaa)

The status is that of the run. The run took as long as the longest one, and rows keep their times.

  $ report --took 0.5 --out 2 'ok a <0.35>' 'ignored c' >0
  $ report --took 62 --out 1 'failed [k] b: no <0.000000001>' 'bench d: 7 8 <61>' >1
  $ reports join --shards 2 0 1
  { "type": "suite", "event": "started", "test_count": 4 }
  { "type": "test", "event": "started", "name": "a" }
  { "type": "test", "name": "a", "event": "ok", "exec_time": 0.35 }
  { "type": "test", "event": "started", "name": "b", "kind": "k" }
  { "type": "test", "name": "b", "kind": "k", "event": "failed", "exec_time": 0.000000001, "stdout": "Error: \"no\"\n" }
  { "type": "test", "event": "started", "name": "c" }
  { "type": "test", "name": "c", "event": "ignored" }
  { "type": "test", "event": "started", "name": "d" }
  { "type": "bench", "name": "d", "median": 7, "deviation": 8, "exec_time": 61 }
  { "type": "suite", "event": "failed", "passed": 1, "failed": 1, "ignored": 1, "measured": 1, "filtered_out": 3, "exec_time": 62 }
  [101]
  $ report --took 62 --out 1 'failed [k] b: no' 'bench d: 7 8' >1; reports join --shards 2 0 1
  { "type": "suite", "event": "started", "test_count": 4 }
  { "type": "test", "event": "started", "name": "a" }
  { "type": "test", "name": "a", "event": "ok", "exec_time": 0.35 }
  { "type": "test", "event": "started", "name": "b", "kind": "k" }
  { "type": "test", "name": "b", "kind": "k", "event": "failed", "stdout": "Error: \"no\"\n" }
  { "type": "test", "event": "started", "name": "c" }
  { "type": "test", "name": "c", "event": "ignored" }
  { "type": "test", "event": "started", "name": "d" }
  { "type": "bench", "name": "d", "median": 7, "deviation": 8 }
  { "type": "suite", "event": "failed", "passed": 1, "failed": 1, "ignored": 1, "measured": 1, "filtered_out": 3, "exec_time": 62 }
  [101]
  $ report --took 1 'ok x <0.35>' 'ok y' >0; report --took 3 'failed [k] x: no <0.000000001>' >1; reports join --shards 2 0 1
  { "type": "suite", "event": "started", "test_count": 3 }
  { "type": "test", "event": "started", "name": "x" }
  { "type": "test", "name": "x", "event": "ok", "exec_time": 0.35 }
  { "type": "test", "event": "started", "name": "x", "kind": "k" }
  { "type": "test", "name": "x", "kind": "k", "event": "failed", "exec_time": 0.000000001, "stdout": "Error: \"no\"\n" }
  { "type": "test", "event": "started", "name": "y" }
  { "type": "test", "name": "y", "event": "ok" }
  { "type": "suite", "event": "failed", "passed": 2, "failed": 1, "ignored": 0, "measured": 0, "filtered_out": 0, "exec_time": 3 }
  [101]

Reports that are no shards of one suite.

  $ letters ac >0; letters b >1; reports join --shards 3 0 1
  2> reports: the number of shards is 3, but that of reports is 2
  [1]
  $ letters a >0; join --shards 0 0
  2> reports: the number of shards is 0, but that of reports is 1
  [1]
  $ letters a >0; letters b 1 >1; join --shards 2 0 1
  2> reports: 1: its number of trials doesn't fit those of the reports before it; reports are taken in the order of their shards: 0, 1, 2, .., 10, 11; --by-name sorts them
  [1]
  $ letters ad 1 >0; letters be >1; letters '' 1 >2; join --shards 3 0 1 2
  2> reports: 2: its number of trials doesn't fit those of the reports before it; reports are taken in the order of their shards: 0, 1, 2, .., 10, 11; --by-name sorts them
  [1]
  $ letters a 1 >0; letters b >1; letters c 1 >2; join --shards 3 0 1 2
  2> reports: 2: its number of trials doesn't fit those of the reports before it; reports are taken in the order of their shards: 0, 1, 2, .., 10, 11; --by-name sorts them
  [1]
  $ letters ad >0; letters be >1; letters be >2; join --shards 3 0 1 2
  2> reports: 2: line 2: its trial is in a report before it too; a suite with equal names needs --equal-names
  [1]
  $ letters adg >0; letters beh >1; letters cfa >2; join --shards 3 0 1 2
  2> reports: 2: line 6: its trial is in a report before it too; a suite with equal names needs --equal-names
  [1]
  $ letters aa >0; letters ba >1; join --shards 2 0 1
  2> reports: 1: line 4: its trial is in a report before it too; a suite with equal names needs --equal-names
  [1]
  $ letters a 18446744073709551615 >0; letters b 18446744073709551615 >1; join --shards 2 0 1
  2> reports: too many trials were filtered out
  [1]

More reports than files that may be open at once.

  $ for shard in {00..63}; do report "ok t$shard" >$shard; done
  $ (ulimit -n 30; reports join --shards 64 {00..63}) | cmp - <(report ok\ t{00..63})

  $ reports join --shards 2 - - <0
  2> reports: standard input can be read once only
  [2]
  $ reports join --help
  Print one report of all shards
  
  Usage: reports join [OPTIONS] --shards <N> <FILE>...
  
  Arguments:
    <FILE>...  The shards' reports in JSON, from index 0 on if not --by-name; - is standard input
  
  Options:
        --shards <N>   How many shards there are
        --equal-names  Let trials in two shards have the same kind and name
        --cut          Join what can be read, also if reports are cut, unreadable or absent
        --by-name      Take the reports in the order of the numbers in the files' names
    -h, --help         Print help
