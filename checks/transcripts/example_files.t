`example_files` finds pairs of files in folders, `NAME.in` and `NAME.out`, and tests a function that answers in capitals.

  $ run() { example_files "$@" -- --format json --test-threads 1 | timeless; }

  $ for name in pairs/*; do echo $name: $(od -An -c $name); done
  pairs/another.in: a \n b \n c \n
  pairs/another.out: A \n b \n c \n
  pairs/empty.in: \n
  pairs/empty.out:
  pairs/end.in: a
  pairs/end.out: A \n
  pairs/less.in: a \n
  pairs/less.out: A \n B \n
  pairs/more.in: a \n b
  pairs/more.out: A \n
  pairs/same_empty.in:
  pairs/same_empty.out:
  pairs/same_line.in: a
  pairs/same_line.out: A
  pairs/same_lines.in: a \n b \n
  pairs/same_lines.out: A \n B \n
  $ run pairs
  { "type": "suite", "event": "started", "test_count": 8 }
  { "type": "test", "event": "started", "name": "another" }
  { "type": "test", "name": "another", "event": "failed", "stdout": "Error: \"another.out: line 2 differs\nexpected: \"b\\n\"\nanswered: \"B\\n\"\"\n" }
  { "type": "test", "event": "started", "name": "empty" }
  { "type": "test", "name": "empty", "event": "failed", "stdout": "Error: \"empty.out: line 1 differs\nexpected: nothing, the text has ended\nanswered: \"\\n\"\"\n" }
  { "type": "test", "event": "started", "name": "end" }
  { "type": "test", "name": "end", "event": "failed", "stdout": "Error: \"end.out: line 1 differs\nexpected: \"A\\n\"\nanswered: \"A\"\"\n" }
  { "type": "test", "event": "started", "name": "less" }
  { "type": "test", "name": "less", "event": "failed", "stdout": "Error: \"less.out: line 2 differs\nexpected: \"B\\n\"\nanswered: nothing, the text has ended\"\n" }
  { "type": "test", "event": "started", "name": "more" }
  { "type": "test", "name": "more", "event": "failed", "stdout": "Error: \"more.out: line 2 differs\nexpected: nothing, the text has ended\nanswered: \"B\"\"\n" }
  { "type": "test", "event": "started", "name": "same_empty" }
  { "type": "test", "name": "same_empty", "event": "ok" }
  { "type": "test", "event": "started", "name": "same_line" }
  { "type": "test", "name": "same_line", "event": "ok" }
  { "type": "test", "event": "started", "name": "same_lines" }
  { "type": "test", "name": "same_lines", "event": "ok" }
  { "type": "suite", "event": "failed", "passed": 3, "failed": 5, "ignored": 0, "measured": 0, "filtered_out": 0, "exec_time": 0 }
  [101]

Texts that aren't UTF-8, and files without the other one.

  $ mkdir -p cases/words; cd cases
  $ printf '\303\244' >words/umlaut.in; printf '\303\204' >words/umlaut.out; printf 'no case' >words/notes.txt
  $ echo ab >same.in; echo AB >same.out; printf 'a\nb\n' >other.in; printf 'A\nC\n' >other.out
  $ printf a >no_output.in; printf A >no_input.out; printf '\377' >bytes.in; : >bytes.out; cd ..
  $ run cases
  { "type": "suite", "event": "started", "test_count": 6 }
  { "type": "test", "event": "started", "name": "bytes" }
  { "type": "test", "name": "bytes", "event": "failed", "stdout": "Error: \"cannot read bytes.in: stream did not contain valid UTF-8\"\n" }
  { "type": "test", "event": "started", "name": "no_input" }
  { "type": "test", "name": "no_input", "event": "failed", "stdout": "Error: \"cannot read no_input.in: No such file or directory (os error 2)\"\n" }
  { "type": "test", "event": "started", "name": "no_output" }
  { "type": "test", "name": "no_output", "event": "failed", "stdout": "Error: \"cannot read no_output.out: No such file or directory (os error 2)\"\n" }
  { "type": "test", "event": "started", "name": "other" }
  { "type": "test", "name": "other", "event": "failed", "stdout": "Error: \"other.out: line 2 differs\nexpected: \"C\\n\"\nanswered: \"B\\n\"\"\n" }
  { "type": "test", "event": "started", "name": "same" }
  { "type": "test", "name": "same", "event": "ok" }
  { "type": "test", "event": "started", "name": "umlaut", "kind": "words" }
  { "type": "test", "name": "umlaut", "kind": "words", "event": "ok" }
  { "type": "suite", "event": "failed", "passed": 2, "failed": 4, "ignored": 0, "measured": 0, "filtered_out": 0, "exec_time": 0 }
  [101]
  $ example_files cases -- --list
  bytes: test
  no_input: test
  no_output: test
  other: test
  same: test
  [words] umlaut: test

Folders in folders are kinds. Names are in order, and kinds behind the names of their folder.

  $ mkdir -p deep/{b,a/c}; touch deep/{z,b/case,a/case,a/c/y,a/c/x}.{in,out}
  $ run deep
  { "type": "suite", "event": "started", "test_count": 5 }
  { "type": "test", "event": "started", "name": "z" }
  { "type": "test", "name": "z", "event": "ok" }
  { "type": "test", "event": "started", "name": "case", "kind": "a" }
  { "type": "test", "name": "case", "kind": "a", "event": "ok" }
  { "type": "test", "event": "started", "name": "x", "kind": "a/c" }
  { "type": "test", "name": "x", "kind": "a/c", "event": "ok" }
  { "type": "test", "event": "started", "name": "y", "kind": "a/c" }
  { "type": "test", "name": "y", "kind": "a/c", "event": "ok" }
  { "type": "test", "event": "started", "name": "case", "kind": "b" }
  { "type": "test", "name": "case", "kind": "b", "event": "ok" }
  { "type": "suite", "event": "ok", "passed": 5, "failed": 0, "ignored": 0, "measured": 0, "filtered_out": 0, "exec_time": 0 }
  $ run deep cases
  { "type": "suite", "event": "started", "test_count": 11 }
  { "type": "test", "event": "started", "name": "z" }
  { "type": "test", "name": "z", "event": "ok" }
  { "type": "test", "event": "started", "name": "case", "kind": "a" }
  { "type": "test", "name": "case", "kind": "a", "event": "ok" }
  { "type": "test", "event": "started", "name": "x", "kind": "a/c" }
  { "type": "test", "name": "x", "kind": "a/c", "event": "ok" }
  { "type": "test", "event": "started", "name": "y", "kind": "a/c" }
  { "type": "test", "name": "y", "kind": "a/c", "event": "ok" }
  { "type": "test", "event": "started", "name": "case", "kind": "b" }
  { "type": "test", "name": "case", "kind": "b", "event": "ok" }
  { "type": "test", "event": "started", "name": "bytes" }
  { "type": "test", "name": "bytes", "event": "failed", "stdout": "Error: \"cannot read bytes.in: stream did not contain valid UTF-8\"\n" }
  { "type": "test", "event": "started", "name": "no_input" }
  { "type": "test", "name": "no_input", "event": "failed", "stdout": "Error: \"cannot read no_input.in: No such file or directory (os error 2)\"\n" }
  { "type": "test", "event": "started", "name": "no_output" }
  { "type": "test", "name": "no_output", "event": "failed", "stdout": "Error: \"cannot read no_output.out: No such file or directory (os error 2)\"\n" }
  { "type": "test", "event": "started", "name": "other" }
  { "type": "test", "name": "other", "event": "failed", "stdout": "Error: \"other.out: line 2 differs\nexpected: \"C\\n\"\nanswered: \"B\\n\"\"\n" }
  { "type": "test", "event": "started", "name": "same" }
  { "type": "test", "name": "same", "event": "ok" }
  { "type": "test", "event": "started", "name": "umlaut", "kind": "words" }
  { "type": "test", "name": "umlaut", "kind": "words", "event": "ok" }
  { "type": "suite", "event": "failed", "passed": 7, "failed": 4, "ignored": 0, "measured": 0, "filtered_out": 0, "exec_time": 0 }
  [101]
  $ example_files cases deep -- --list
  bytes: test
  no_input: test
  no_output: test
  other: test
  same: test
  [words] umlaut: test
  z: test
  [a] case: test
  [a/c] x: test
  [a/c] y: test
  [b] case: test

Each folder is looked into, however deep it is, and however many there are.

  $ below=many/below/$(seq -s / 40); mkdir -p "$below" many/{1..1000}; touch {"$below",many/{1..1000}}/case.{in,out}
  $ example_files many -- --list | sort -u | wc -l
  1001

Names that are equal but for their kinds are no reason for a warning.

  $ mkdir -p twins/{a,b}; touch twins/{a,b}/case.{in,out}; run twins
  { "type": "suite", "event": "started", "test_count": 2 }
  { "type": "test", "event": "started", "name": "case", "kind": "a" }
  { "type": "test", "name": "case", "kind": "a", "event": "ok" }
  { "type": "test", "event": "started", "name": "case", "kind": "b" }
  { "type": "test", "name": "case", "kind": "b", "event": "ok" }
  { "type": "suite", "event": "ok", "passed": 2, "failed": 0, "ignored": 0, "measured": 0, "filtered_out": 0, "exec_time": 0 }

What is no file. No link to a folder is gone into, and a FIFO or a link to a device is no case.

  $ mkdir -p odd/x.in; touch odd/x.in/case.{in,out} odd/{half,lost}.out; mkfifo odd/{half,pipe}.in
  $ ln -s ../cases/same.in odd/link.in; ln -s ../cases/same.out odd/link.out; ln -s . odd/round; ln -s . odd/round.in
  $ ln -s nowhere odd/gone.in; ln -s nowhere odd/lost.in; ln -s /dev/zero odd/zero.in
  $ run odd
  { "type": "suite", "event": "started", "test_count": 8 }
  { "type": "test", "event": "started", "name": "gone" }
  { "type": "test", "name": "gone", "event": "failed", "stdout": "Error: \"cannot read gone.in: No such file or directory (os error 2)\"\n" }
  { "type": "test", "event": "started", "name": "half" }
  { "type": "test", "name": "half", "event": "failed", "stdout": "Error: \"cannot read half.in: it is no file\"\n" }
  { "type": "test", "event": "started", "name": "link" }
  { "type": "test", "name": "link", "event": "ok" }
  { "type": "test", "event": "started", "name": "lost" }
  { "type": "test", "name": "lost", "event": "failed", "stdout": "Error: \"cannot read lost.in: No such file or directory (os error 2)\"\n" }
  { "type": "test", "event": "started", "name": "pipe" }
  { "type": "test", "name": "pipe", "event": "failed", "stdout": "Error: \"cannot read pipe.in: it is no file\"\n" }
  { "type": "test", "event": "started", "name": "round" }
  { "type": "test", "name": "round", "event": "failed", "stdout": "Error: \"cannot read round.in: it is no file\"\n" }
  { "type": "test", "event": "started", "name": "zero" }
  { "type": "test", "name": "zero", "event": "failed", "stdout": "Error: \"cannot read zero.in: it is no file\"\n" }
  { "type": "test", "event": "started", "name": "case", "kind": "x.in" }
  { "type": "test", "name": "case", "kind": "x.in", "event": "ok" }
  { "type": "suite", "event": "failed", "passed": 2, "failed": 6, "ignored": 0, "measured": 0, "filtered_out": 0, "exec_time": 0 }
  [101]

If a folder can't be read, no trial is run, whatever is asked.

  $ mkdir -p strange/b/c; touch strange/{a,b/c/a}.{in,out} strange/b/c/$'\xff'; printf 1 >strange/y_a.json
  $ for folder in /nowhere deep/z.in strange; do
  >     for options in '' --list '--exact a' '--logfile log'; do
  >         example_files $folder ${options:+-- $options}; echo "status $?"
  >     done
  >     example_files deep cases $folder deep cases; echo "status $?"
  > done | uniq -c
       15 status 1
  2> example_files: cannot read the folder /nowhere: No such file or directory (os error 2)
  2> example_files: cannot read the folder /nowhere: No such file or directory (os error 2)
  2> example_files: cannot read the folder /nowhere: No such file or directory (os error 2)
  2> example_files: cannot read the folder /nowhere: No such file or directory (os error 2)
  2> example_files: cannot read the folder /nowhere: No such file or directory (os error 2)
  2> example_files: cannot read the folder deep/z.in: Not a directory (os error 20)
  2> example_files: cannot read the folder deep/z.in: Not a directory (os error 20)
  2> example_files: cannot read the folder deep/z.in: Not a directory (os error 20)
  2> example_files: cannot read the folder deep/z.in: Not a directory (os error 20)
  2> example_files: cannot read the folder deep/z.in: Not a directory (os error 20)
  2> example_files: cannot read the folder strange/b/c: invalid filename
  2> example_files: cannot read the folder strange/b/c: invalid filename
  2> example_files: cannot read the folder strange/b/c: invalid filename
  2> example_files: cannot read the folder strange/b/c: invalid filename
  2> example_files: cannot read the folder strange/b/c: invalid filename
  $ [ -e log ]
  [1]

Words.

  $ example_files
  2> error: too few arguments: 0 of at least 1
  2> 
  2> usage: example_files [--bless] DIR.. [-- OPTIONS]
  2> 
  2> Runs a trial for each pair NAME.in and NAME.out below the folders. With --bless
  2> it runs none, and writes what is answered into each NAME.out that differs or is
  2> missing, of the trials that OPTIONS select.
  2> `example_files -- --help` shows the options.
  [2]
  $ example_files --list cases
  2> error: unexpected argument '--list' before '--'
  2> 
  2> usage: example_files [--bless] DIR.. [-- OPTIONS]
  2> 
  2> Runs a trial for each pair NAME.in and NAME.out below the folders. With --bless
  2> it runs none, and writes what is answered into each NAME.out that differs or is
  2> missing, of the trials that OPTIONS select.
  2> `example_files -- --help` shows the options.
  [2]
  $ example_files --help
  usage: example_files [--bless] DIR.. [-- OPTIONS]
  
  Runs a trial for each pair NAME.in and NAME.out below the folders. With --bless
  it runs none, and writes what is answered into each NAME.out that differs or is
  missing, of the trials that OPTIONS select.
  `example_files -- --help` shows the options.
  $ example_files -- --help
  Usage: example_files .. -- [OPTIONS] [FILTER]...
  
  Arguments:
    [FILTER]...  Run only tests whose full name, `[kind] name`, contains one of the FILTERs
  
  Options:
        --include-ignored         Run ignored tests as well
        --ignored                 Run only ignored tests
        --test                    Run tests; benchmarks count as ignored
        --bench                   Run and measure benchmarks; tests count as ignored
        --list                    List tests and benchmarks, and run none
        --nocapture               Print output of tests at once (no effect: it is never held back)
        --show-output             Print output of tests that pass (no effect: it is never held back)
        --report-time             Show how long each test ran
        --exact                   Match each FILTER exactly, not as a part of a full name
    -q, --quiet                   Use the terse format
    -Z <FLAG>                     Unstable options (no effect) [possible values: unstable-options]
        --test-threads <THREADS>  Number of threads used for running tests in parallel
        --logfile <PATH>          Write the report to the file PATH
        --skip <FILTER>           Skip tests that match FILTER; may be given many times
        --color <WHEN>            When to use colours [possible values: auto, always, never]
        --format <FORMAT>         How to write the report [possible values: pretty, terse, json]
    -h, --help                    Print help
