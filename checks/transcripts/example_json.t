`example_json` tests parsers of JSON over the files of a suite, whose names say what is wanted: `y_` and `n_`, of any text, and
`i_`.

  $ run() { example_json "$@" --format json --test-threads 1 | timeless; }
  $ mkdir suite; cd suite; printf '[1]' >y_taken.json; printf '[1' >y_refused.json
  $ printf '[2]' >n_taken.json; printf '\377' >n_refused.json
  $ printf 3 >i_taken.json; printf '[1e999999, "\377"]' >i_refused.json; printf '[4' >x_other.json; printf '[5' >y_names.txt; cd ..
  $ run suite --
  { "type": "suite", "event": "started", "test_count": 6 }
  { "type": "test", "event": "started", "name": "i_refused" }
  { "type": "test", "name": "i_refused", "event": "ignored" }
  { "type": "test", "event": "started", "name": "i_taken" }
  { "type": "test", "name": "i_taken", "event": "ignored" }
  { "type": "test", "event": "started", "name": "n_refused" }
  { "type": "test", "name": "n_refused", "event": "ok" }
  { "type": "test", "event": "started", "name": "n_taken" }
  { "type": "test", "name": "n_taken", "event": "failed", "stdout": "Error: \"n_taken.json was accepted\"\n" }
  { "type": "test", "event": "started", "name": "y_refused" }
  { "type": "test", "name": "y_refused", "event": "failed", "stdout": "Error: \"y_refused.json was refused: EOF while parsing at line 1 column 2\"\n" }
  { "type": "test", "event": "started", "name": "y_taken" }
  { "type": "test", "name": "y_taken", "event": "ok" }
  { "type": "suite", "event": "failed", "passed": 2, "failed": 2, "ignored": 2, "measured": 0, "filtered_out": 0, "exec_time": 0 }
  [101]
  $ run suite -- --include-ignored
  { "type": "suite", "event": "started", "test_count": 6 }
  { "type": "test", "event": "started", "name": "i_refused" }
  { "type": "test", "name": "i_refused", "event": "ok" }
  { "type": "test", "event": "started", "name": "i_taken" }
  { "type": "test", "name": "i_taken", "event": "ok" }
  { "type": "test", "event": "started", "name": "n_refused" }
  { "type": "test", "name": "n_refused", "event": "ok" }
  { "type": "test", "event": "started", "name": "n_taken" }
  { "type": "test", "name": "n_taken", "event": "failed", "stdout": "Error: \"n_taken.json was accepted\"\n" }
  { "type": "test", "event": "started", "name": "y_refused" }
  { "type": "test", "name": "y_refused", "event": "failed", "stdout": "Error: \"y_refused.json was refused: EOF while parsing at line 1 column 2\"\n" }
  { "type": "test", "event": "started", "name": "y_taken" }
  { "type": "test", "name": "y_taken", "event": "ok" }
  { "type": "suite", "event": "failed", "passed": 4, "failed": 2, "ignored": 0, "measured": 0, "filtered_out": 0, "exec_time": 0 }
  [101]
  $ example_json suite -- --list
  i_refused: test
  i_taken: test
  n_refused: test
  n_taken: test
  y_refused: test
  y_taken: test

Folders, links and a FIFO.

  $ mkdir -p wrong/y_folder.json wrong/a/b; cd wrong; printf '[1,]' >y_comma.json; printf 1 >a/b/y_deep.json
  $ touch y_folder.json/{names.txt,n_inner.json}
  $ ln -s ../suite/y_taken.json y_link.json; mkfifo y_pipe.json; cd ..
  $ run wrong --
  { "type": "suite", "event": "started", "test_count": 5 }
  { "type": "test", "event": "started", "name": "y_comma" }
  { "type": "test", "name": "y_comma", "event": "failed", "stdout": "Error: \"y_comma.json was refused: invalid JSON at line 1 column 4\"\n" }
  { "type": "test", "event": "started", "name": "y_link" }
  { "type": "test", "name": "y_link", "event": "ok" }
  { "type": "test", "event": "started", "name": "y_pipe" }
  { "type": "test", "name": "y_pipe", "event": "failed", "stdout": "Error: \"cannot read y_pipe.json: it is no file\"\n" }
  { "type": "test", "event": "started", "name": "y_deep", "kind": "a/b" }
  { "type": "test", "name": "y_deep", "kind": "a/b", "event": "ok" }
  { "type": "test", "event": "started", "name": "n_inner", "kind": "y_folder.json" }
  { "type": "test", "name": "n_inner", "kind": "y_folder.json", "event": "ok" }
  { "type": "suite", "event": "failed", "passed": 3, "failed": 2, "ignored": 0, "measured": 0, "filtered_out": 0, "exec_time": 0 }
  [101]

Reports, which two readers read.

  $ mkdir reports; sums | head -c -1 >reports/r_cut.json; report 'bench b: 5' >reports/r_measured.json
  $ report 'ok a' 'failed [k] b: x' >reports/r_kinds.json
  $ run reports --
  { "type": "suite", "event": "started", "test_count": 3 }
  { "type": "test", "event": "started", "name": "r_cut" }
  { "type": "test", "name": "r_cut", "event": "failed", "stdout": "Error: \"it is no report\"\n" }
  { "type": "test", "event": "started", "name": "r_kinds" }
  { "type": "test", "name": "r_kinds", "event": "ok" }
  { "type": "test", "event": "started", "name": "r_measured" }
  { "type": "test", "name": "r_measured", "event": "ok" }
  { "type": "suite", "event": "failed", "passed": 2, "failed": 1, "ignored": 0, "measured": 0, "filtered_out": 0, "exec_time": 0 }
  [101]

If a folder can't be read, no trial is run, whatever is asked.

  $ mkdir -p deep strange/b/c; touch deep/z.in strange/b/c/$'\xff'; printf 1 >strange/y_a.json
  $ for folder in /nowhere deep/z.in strange; do
  >     for options in '' --list '--exact a' '--logfile log'; do
  >         example_json $folder ${options:+-- $options}; echo "status $?"
  >     done
  > done | uniq -c
       12 status 1
  2> example_json: cannot read the folder /nowhere: No such file or directory (os error 2)
  2> example_json: cannot read the folder /nowhere: No such file or directory (os error 2)
  2> example_json: cannot read the folder /nowhere: No such file or directory (os error 2)
  2> example_json: cannot read the folder /nowhere: No such file or directory (os error 2)
  2> example_json: cannot read the folder deep/z.in: Not a directory (os error 20)
  2> example_json: cannot read the folder deep/z.in: Not a directory (os error 20)
  2> example_json: cannot read the folder deep/z.in: Not a directory (os error 20)
  2> example_json: cannot read the folder deep/z.in: Not a directory (os error 20)
  2> example_json: cannot read the folder strange/b/c: invalid filename
  2> example_json: cannot read the folder strange/b/c: invalid filename
  2> example_json: cannot read the folder strange/b/c: invalid filename
  2> example_json: cannot read the folder strange/b/c: invalid filename
  $ [ -e log ]
  [1]

Words.

  $ example_json
  2> error: too few arguments: 0 of at least 1
  2> 
  2> usage: example_json DIR [-- OPTIONS]
  2> 
  2> Runs a trial for each file below the folder: the parser must accept y_*.json and
  2> refuse n_*.json. It may do either with i_*.json, which are ignored trials. In
  2> r_*.json, which are reports of a harness, it must find what their reader finds.
  2> `example_json -- --help` shows the options.
  [2]
  $ example_json suite wrong
  2> error: too many arguments: 2 of at most 1
  2> 
  2> usage: example_json DIR [-- OPTIONS]
  2> 
  2> Runs a trial for each file below the folder: the parser must accept y_*.json and
  2> refuse n_*.json. It may do either with i_*.json, which are ignored trials. In
  2> r_*.json, which are reports of a harness, it must find what their reader finds.
  2> `example_json -- --help` shows the options.
  [2]
  $ example_json --list suite
  2> error: unexpected argument '--list' before '--'
  2> 
  2> usage: example_json DIR [-- OPTIONS]
  2> 
  2> Runs a trial for each file below the folder: the parser must accept y_*.json and
  2> refuse n_*.json. It may do either with i_*.json, which are ignored trials. In
  2> r_*.json, which are reports of a harness, it must find what their reader finds.
  2> `example_json -- --help` shows the options.
  [2]
  $ example_json --help
  usage: example_json DIR [-- OPTIONS]
  
  Runs a trial for each file below the folder: the parser must accept y_*.json and
  refuse n_*.json. It may do either with i_*.json, which are ignored trials. In
  r_*.json, which are reports of a harness, it must find what their reader finds.
  `example_json -- --help` shows the options.
  $ example_json -- --help
  Usage: example_json .. -- [OPTIONS] [FILTER]...
  
  Arguments:
    [FILTER]...  Run only tests whose full name, `[kind] name`, contains one of the FILTERs
  
  Options:
        --include-ignored         Run ignored tests as well
        --ignored                 Run only ignored tests
        --test                    Run tests; benchmarks count as ignored
        --bench                   Run and measure benchmarks; tests count as ignored
        --list                    List tests and benchmarks, and run none
        --nocapture               Print output of tests at once (no effect: it is never held back)
        --show-output             Print output of tests that pass (no effect: it is never held back)
        --report-time             Show how long each test ran
        --exact                   Match each FILTER exactly, not as a part of a full name
    -q, --quiet                   Use the terse format
    -Z <FLAG>                     Unstable options (no effect) [possible values: unstable-options]
        --test-threads <THREADS>  Number of threads used for running tests in parallel
        --logfile <PATH>          Write the report to the file PATH
        --skip <FILTER>           Skip tests that match FILTER; may be given many times
        --color <WHEN>            When to use colours [possible values: auto, always, never]
        --format <FORMAT>         How to write the report [possible values: pretty, terse, json]
    -h, --help                    Print help
  $ example_json suite -- --nope
  2> error: unexpected argument '--nope' found
  2> 
  2>   tip: a similar argument exists: '--ignored'
  2> 
  2> Usage: example_json .. -- --ignored [FILTER]...
  2> 
  2> For more information, try '--help'.
  [2]
