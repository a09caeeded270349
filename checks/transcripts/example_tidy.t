`example_tidy` has options of its own beside those of the harness. It tests texts for tabs, blanks at ends, and long lines.

  $ mkdir -p tidy/k; printf 'é%.0s' {1..80} >tidy/a.txt; echo >>tidy/a.txt; printf 'b\nb \n' >tidy/b.txt; printf '\tc' >tidy/k/c.txt
  $ printf 'd%.0s' {1..81} >tidy/k/d.txt; printf ' ' >tidy/k/e
  $ run() { example_tidy "$@" --format json --test-threads 1 | timeless; }
  $ run tidy
  { "type": "suite", "event": "started", "test_count": 8 }
  { "type": "test", "event": "started", "name": "a" }
  { "type": "test", "name": "a", "event": "ok" }
  { "type": "test", "event": "started", "name": "read a" }
  { "type": "test", "name": "read a", "event": "ok" }
  { "type": "test", "event": "started", "name": "b" }
  { "type": "test", "name": "b", "event": "failed", "stdout": "Error: \"line 2 ends with a blank\"\n" }
  { "type": "test", "event": "started", "name": "read b" }
  { "type": "test", "name": "read b", "event": "ok" }
  { "type": "test", "event": "started", "name": "c", "kind": "k" }
  { "type": "test", "name": "c", "kind": "k", "event": "failed", "stdout": "Error: \"line 1 has a tab\"\n" }
  { "type": "test", "event": "started", "name": "read c", "kind": "k" }
  { "type": "test", "name": "read c", "kind": "k", "event": "ok" }
  { "type": "test", "event": "started", "name": "d", "kind": "k" }
  { "type": "test", "name": "d", "kind": "k", "event": "failed", "stdout": "Error: \"line 1 has 81 characters\"\n" }
  { "type": "test", "event": "started", "name": "read d", "kind": "k" }
  { "type": "test", "name": "read d", "kind": "k", "event": "ok" }
  { "type": "suite", "event": "failed", "passed": 5, "failed": 3, "ignored": 0, "measured": 0, "filtered_out": 0, "exec_time": 0 }
  [101]
  $ run tidy --tabs --width 81 k
  { "type": "suite", "event": "started", "test_count": 4 }
  { "type": "test", "event": "started", "name": "c", "kind": "k" }
  { "type": "test", "name": "c", "kind": "k", "event": "ok" }
  { "type": "test", "event": "started", "name": "read c", "kind": "k" }
  { "type": "test", "name": "read c", "kind": "k", "event": "ok" }
  { "type": "test", "event": "started", "name": "d", "kind": "k" }
  { "type": "test", "name": "d", "kind": "k", "event": "ok" }
  { "type": "test", "event": "started", "name": "read d", "kind": "k" }
  { "type": "test", "name": "read d", "kind": "k", "event": "ok" }
  { "type": "suite", "event": "ok", "passed": 4, "failed": 0, "ignored": 0, "measured": 0, "filtered_out": 4, "exec_time": 0 }
  $ run tidy --tabs k
  { "type": "suite", "event": "started", "test_count": 4 }
  { "type": "test", "event": "started", "name": "c", "kind": "k" }
  { "type": "test", "name": "c", "kind": "k", "event": "ok" }
  { "type": "test", "event": "started", "name": "read c", "kind": "k" }
  { "type": "test", "name": "read c", "kind": "k", "event": "ok" }
  { "type": "test", "event": "started", "name": "d", "kind": "k" }
  { "type": "test", "name": "d", "kind": "k", "event": "failed", "stdout": "Error: \"line 1 has 81 characters\"\n" }
  { "type": "test", "event": "started", "name": "read d", "kind": "k" }
  { "type": "test", "name": "read d", "kind": "k", "event": "ok" }
  { "type": "suite", "event": "failed", "passed": 3, "failed": 1, "ignored": 0, "measured": 0, "filtered_out": 4, "exec_time": 0 }
  [101]
  $ run tidy --width 81 k
  { "type": "suite", "event": "started", "test_count": 4 }
  { "type": "test", "event": "started", "name": "c", "kind": "k" }
  { "type": "test", "name": "c", "kind": "k", "event": "failed", "stdout": "Error: \"line 1 has a tab\"\n" }
  { "type": "test", "event": "started", "name": "read c", "kind": "k" }
  { "type": "test", "name": "read c", "kind": "k", "event": "ok" }
  { "type": "test", "event": "started", "name": "d", "kind": "k" }
  { "type": "test", "name": "d", "kind": "k", "event": "ok" }
  { "type": "test", "event": "started", "name": "read d", "kind": "k" }
  { "type": "test", "name": "read d", "kind": "k", "event": "ok" }
  { "type": "suite", "event": "failed", "passed": 3, "failed": 1, "ignored": 0, "measured": 0, "filtered_out": 4, "exec_time": 0 }
  [101]
  $ example_tidy --format json --test-threads 1 --width=81 tidy --exact --tabs -- '[k] c' | timeless
  { "type": "suite", "event": "started", "test_count": 1 }
  { "type": "test", "event": "started", "name": "c", "kind": "k" }
  { "type": "test", "name": "c", "kind": "k", "event": "ok" }
  { "type": "suite", "event": "ok", "passed": 1, "failed": 0, "ignored": 0, "measured": 0, "filtered_out": 7, "exec_time": 0 }
  $ run tidy --test a
  { "type": "suite", "event": "started", "test_count": 5 }
  { "type": "test", "event": "started", "name": "a" }
  { "type": "test", "name": "a", "event": "ok" }
  { "type": "test", "event": "started", "name": "read a" }
  { "type": "test", "name": "read a", "event": "ignored" }
  { "type": "test", "event": "started", "name": "read b" }
  { "type": "test", "name": "read b", "event": "ignored" }
  { "type": "test", "event": "started", "name": "read c", "kind": "k" }
  { "type": "test", "name": "read c", "kind": "k", "event": "ignored" }
  { "type": "test", "event": "started", "name": "read d", "kind": "k" }
  { "type": "test", "name": "read d", "kind": "k", "event": "ignored" }
  { "type": "suite", "event": "ok", "passed": 1, "failed": 0, "ignored": 4, "measured": 0, "filtered_out": 3, "exec_time": 0 }
  $ example_tidy tidy --bench --exact 'read a' | timeless
  
  running 1 test
  test read a \.\.\. bench: +[\d,]+ ns/iter \(\+/- 0\) (re)
  
  test result: ok. 0 passed; 0 failed; 0 ignored; 1 measured; 7 filtered out; finished in 0.00s
  
  $ example_tidy tidy --list
  a: test
  read a: bench
  b: test
  read b: bench
  [k] c: test
  [k] read c: bench
  [k] d: test
  [k] read d: bench
  $ run nowhere
  2> example_tidy: cannot read the folder nowhere: No such file or directory (os error 2)
  [1]

  $ example_tidy
  2> error: the following required arguments were not provided:
  2>   <DIR>
  2> 
  2> Usage: example_tidy <DIR> [FILTER]...
  2> 
  2> For more information, try '--help'.
  [2]
  $ example_tidy --tabs
  2> error: the following required arguments were not provided:
  2>   <DIR>
  2> 
  2> Usage: example_tidy --tabs <DIR> [FILTER]...
  2> 
  2> For more information, try '--help'.
  [2]
  $ example_tidy tidy --nope
  2> error: unexpected argument '--nope' found
  2> 
  2>   tip: a similar argument exists: '--ignored'
  2> 
  2> Usage: example_tidy --ignored <DIR> [FILTER]...
  2> 
  2> For more information, try '--help'.
  [2]
  $ example_tidy tidy --test --bench
  2> error: the argument '--test' cannot be used with '--bench'
  2> 
  2> Usage: example_tidy --test <DIR> [FILTER]...
  2> 
  2> For more information, try '--help'.
  [2]
  $ example_tidy tidy --width x
  2> error: invalid value 'x' for '--width <N>': invalid digit found in string
  2> 
  2> For more information, try '--help'.
  [2]
  $ example_tidy tidy --width 18446744073709551616
  2> error: invalid value '18446744073709551616' for '--width <N>': number too large to fit in target type
  2> 
  2> For more information, try '--help'.
  [2]
  $ example_tidy tidy --width 1 --width 2
  2> error: the argument '--width <N>' cannot be used multiple times
  2> 
  2> Usage: example_tidy [OPTIONS] <DIR> [FILTER]...
  2> 
  2> For more information, try '--help'.
  [2]
  $ run tidy --width 18446744073709551615 --exact '[k] d' | grep -c '"event": "ok" }'
  1
  $ run tidy --width=0 --exact b | grep -o 'line . has . characters'
  line 1 has 1 characters
  [101]
  $ example_tidy --help
  Usage: example_tidy [OPTIONS] <DIR> [FILTER]...
  
  Arguments:
    <DIR>        The folder whose texts are tested
    [FILTER]...  Run only tests whose full name, `[kind] name`, contains one of the FILTERs
  
  Options:
        --include-ignored         Run ignored tests as well
        --ignored                 Run only ignored tests
        --test                    Run tests; benchmarks count as ignored
        --bench                   Run and measure benchmarks; tests count as ignored
        --list                    List tests and benchmarks, and run none
        --nocapture               Print output of tests at once (no effect: it is never held back)
        --show-output             Print output of tests that pass (no effect: it is never held back)
        --report-time             Show how long each test ran
        --exact                   Match each FILTER exactly, not as a part of a full name
    -q, --quiet                   Use the terse format
    -Z <FLAG>                     Unstable options (no effect) [possible values: unstable-options]
        --test-threads <THREADS>  Number of threads used for running tests in parallel
        --logfile <PATH>          Write the report to the file PATH
        --skip <FILTER>           Skip tests that match FILTER; may be given many times
        --color <WHEN>            When to use colours [possible values: auto, always, never]
        --format <FORMAT>         How to write the report [possible values: pretty, terse, json]
        --width <N>               How many characters a line may have [default: 80]
        --tabs                    Allow tabs
    -h, --help                    Print help

Help comes also by `-h`, and before what is wrong behind it. The word `help` is a folder.

  $ diff <(example_tidy --help) <(example_tidy tidy -qh) && diff <(example_tidy --help) <(example_tidy --width 5 --help --nope)
  $ refused() { example_tidy "$@" 2>&1 | sed -n 1p; }
  $ refused --nope --help
  error: unexpected argument '--nope' found
  [2]
  $ refused help
  example_tidy: cannot read the folder help: No such file or directory (os error 2)
  [1]
  $ refused --help=x
  error: unexpected value 'x' for '--help' found; no more were expected
  [2]
  $ refused --version
  error: unexpected argument '--version' found
  [2]

An option may be there once, but `--skip` many times.

  $ refused tidy --tabs --width 1 --tabs
  error: the argument '--tabs' cannot be used multiple times
  [2]
  $ refused --width=1 tidy --width=1
  error: the argument '--width <N>' cannot be used multiple times
  [2]
  $ refused tidy -q --quiet
  error: the argument '--quiet' cannot be used multiple times
  [2]
  $ refused --format json tidy --format json
  error: the argument '--format <FORMAT>' cannot be used multiple times
  [2]
  $ example_tidy --skip 'read ' tidy --skip=a --skip d --list
  b: test
  [k] c: test

Values that are missing, and those that an option can't have.

  $ refused tidy --width
  error: a value is required for '--width <N>' but none was supplied
  [2]
  $ refused tidy --width=
  error: invalid value '' for '--width <N>': cannot parse integer from empty string
  [2]
  $ refused tidy --width --tabs
  error: a value is required for '--width <N>' but none was supplied
  [2]
  $ refused --width tidy
  error: invalid value 'tidy' for '--width <N>': invalid digit found in string
  [2]
  $ refused --width 5
  error: the following required arguments were not provided:
  [2]
  $ refused tidy --width -1
  error: unexpected argument '-1' found
  [2]
  $ refused tidy --width=-1
  error: invalid value '-1' for '--width <N>': invalid digit found in string
  [2]
  $ refused tidy --width 5.0
  error: invalid value '5.0' for '--width <N>': invalid digit found in string
  [2]
  $ refused tidy --tabs=yes
  error: unexpected value 'yes' for '--tabs' found; no more were expected
  [2]
  $ refused tidy --format
  error: a value is required for '--format <FORMAT>' but none was supplied
  [2]
  $ refused ''
  example_tidy: cannot read the folder : No such file or directory (os error 2)
  [1]

Unknown words.

  $ refused tidy --widths 5
  error: unexpected argument '--widths' found
  [2]
  $ refused tidy --Tabs
  error: unexpected argument '--Tabs' found
  [2]
  $ refused tidy --tab
  error: unexpected argument '--tab' found
  [2]
  $ refused tidy -w 5
  error: unexpected argument '-w' found
  [2]
  $ refused tidy -qt
  error: unexpected argument '-t' found
  [2]

Behind `--` each word is the folder or a filter.

  $ mkdir ./--tabs; touch ./--tabs/{--list,--,-q,x}.txt
  $ example_tidy --list -- --tabs --list -q
  --list: test
  read --list: bench
  -q: test
  read -q: bench
  $ example_tidy --list --skip read -- --tabs
  --: test
  --list: test
  -q: test
  x: test
  $ example_tidy --exact --list ./--tabs -- --
  --: test
  $ refused --
  error: the following required arguments were not provided:
  [2]
  $ refused --tabs -- --nope
  example_tidy: cannot read the folder --nope: No such file or directory (os error 2)
  [1]

Words that aren't UTF-8.

  $ example_tidy $'caf\xe9'
  2> cannot read the arguments
  [2]
  $ example_tidy --help $'\xff'
  2> cannot read the arguments
  [2]
  $ example_tidy tidy --width=$'\xff'
  2> cannot read the arguments
  [2]
  $ example_tidy tidy -- $'\xff'
  2> cannot read the arguments
  [2]
