The words of a line: help, and lines that are refused before anything is run.

  $ harness --help
  Usage: harness [OPTIONS] [FILTER]...
  
  Arguments:
    [FILTER]...  Run only tests whose full name, `[kind] name`, contains one of the FILTERs
  
  Options:
        --include-ignored         Run ignored tests as well
        --ignored                 Run only ignored tests
        --test                    Run tests; benchmarks count as ignored
        --bench                   Run and measure benchmarks; tests count as ignored
        --list                    List tests and benchmarks, and run none
        --nocapture               Print output of tests at once (no effect: it is never held back)
        --show-output             Print output of tests that pass (no effect: it is never held back)
        --report-time             Show how long each test ran
        --exact                   Match each FILTER exactly, not as a part of a full name
    -q, --quiet                   Use the terse format
    -Z <FLAG>                     Unstable options (no effect) [possible values: unstable-options]
        --test-threads <THREADS>  Number of threads used for running tests in parallel
        --logfile <PATH>          Write the report to the file PATH
        --skip <FILTER>           Skip tests that match FILTER; may be given many times
        --color <WHEN>            When to use colours [possible values: auto, always, never]
        --format <FORMAT>         How to write the report [possible values: pretty, terse, json]
    -h, --help                    Print help

Lines that are refused. No logfile is made.

  $ harness --test --bench
  2> error: the argument '--test' cannot be used with '--bench'
  2> 
  2> Usage: harness --test [FILTER]...
  2> 
  2> For more information, try '--help'.
  [2]
  $ harness --quiet --format json
  2> error: the argument '--quiet' cannot be used with '--format <FORMAT>'
  2> 
  2> Usage: harness --quiet [FILTER]...
  2> 
  2> For more information, try '--help'.
  [2]
  $ harness --nope
  2> error: unexpected argument '--nope' found
  2> 
  2>   tip: a similar argument exists: '--ignored'
  2> 
  2> Usage: harness --ignored [FILTER]...
  2> 
  2> For more information, try '--help'.
  [2]
  $ harness --nope --logfile /nowhere/to/be/found
  2> error: unexpected argument '--nope' found
  2> 
  2>   tip: a similar argument exists: '--ignored'
  2> 
  2> Usage: harness --ignored [FILTER]...
  2> 
  2> For more information, try '--help'.
  [2]
  $ harness --test --bench --logfile log
  2> error: the argument '--test' cannot be used with '--bench'
  2> 
  2> Usage: harness --test --logfile <PATH> [FILTER]...
  2> 
  2> For more information, try '--help'.
  [2]
  $ [ -e log ]
  [1]

Words that aren't UTF-8.

  $ harness --list $'caf\xe9'
  2> cannot read the arguments
  [2]
  $ harness --help $'\xff'
  2> cannot read the arguments
  [2]
  $ harness --list fox
  [apple] fox: test

If a stream takes nothing, the status is the same.

  $ harness --nope >/dev/full
  2> error: unexpected argument '--nope' found
  2> 
  2>   tip: a similar argument exists: '--ignored'
  2> 
  2> Usage: harness --ignored [FILTER]...
  2> 
  2> For more information, try '--help'.
  [2]
  $ harness --format xml 2>/dev/full
  [2]
