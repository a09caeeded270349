What the subcommands of `reports` have in common.

  $ reports --help
  Reads reports in JSON
  
  Usage: reports <COMMAND>
  
  Commands:
    join     Print one report of all shards
    junit    Print reports as JUnit's XML
    show     Print a report as the harness does
    expect   Print what is not as known failures say
    known    Print the failures of reports, as expect reads them
    compare  Print what is not in a report as in an older one
    page     Print a report as a page of HTML
    slowest  Print the slowest trials of reports
    watch    Show the report on standard input as it comes
    help     Print this message or the help of the given subcommand(s)
  
  Options:
    -h, --help  Print help
  $ reports
  2> error: 'reports' requires a subcommand but one was not provided
  2>   [subcommands: join, junit, show, expect, known, compare, page, slowest, watch, help]
  2> 
  2> Usage: reports <COMMAND>
  2> 
  2> For more information, try '--help'.
  [2]
  $ reports nosuch
  2> error: unrecognized subcommand 'nosuch'
  2> 
  2> Usage: reports <COMMAND>
  2> 
  2> For more information, try '--help'.
  [2]
  $ reports --version
  2> error: unexpected argument '--version' found
  2> 
  2> Usage: reports <COMMAND>
  2> 
  2> For more information, try '--help'.
  [2]

A path in an error shows no control characters, so it can't act on a terminal or make two lines of one.

  $ odd=$'no\x1b[31m\nsuch\xc2\x9b\\u{7}'; sums >sums
  $ reports show "$odd"
  2> reports: no\u{1b}[31m\u{a}such\u{9b}\u{5c}u{7}: No such file or directory (os error 2)
  [1]
  $ reports known "$odd"
  2> reports: no\u{1b}[31m\u{a}such\u{9b}\u{5c}u{7}: No such file or directory (os error 2)
  [1]
  $ reports page "$odd" | grep title
  <title>no\u{1b}[31m
  such\u{9b}\u{5c}u{7}: unread. 0 failed; 0 passed; 0 ignored; 0 measured</title>
  2> reports: no\u{1b}[31m\u{a}such\u{9b}\u{5c}u{7}: No such file or directory (os error 2)
  [1]
  $ reports join --shards 1 "$odd"
  2> reports: no\u{1b}[31m\u{a}such\u{9b}\u{5c}u{7}: No such file or directory (os error 2)
  [1]
  $ reports expect "$odd" sums
  2> reports: no\u{1b}[31m\u{a}such\u{9b}\u{5c}u{7}: No such file or directory (os error 2)
  [1]
  $ example_files "$odd"
  2> example_files: cannot read the folder no\u{1b}[31m\u{a}such\u{9b}\u{5c}u{7}: No such file or directory (os error 2)
  [1]
  $ example_sums --logfile "$odd/log"
  2> example_sums: cannot create the logfile no\u{1b}[31m\u{a}such\u{9b}\u{5c}u{7}/log: No such file or directory (os error 2)
  [1]

It has no other line end either, and is whole if it is longer than a block.

  $ reports show $'a\xe2\x80\xa8b\xe2\x80\xa9c'
  2> reports: a\u{2028}b\u{2029}c: No such file or directory (os error 2)
  [1]
  $ example_files $'a\xe2\x80\xa8b\xe2\x80\xa9c'
  2> example_files: cannot read the folder a\u{2028}b\u{2029}c: No such file or directory (os error 2)
  [1]
  $ long=$(printf 'x%.0s' {1..5000}); reports show $long 2>&1 | sed 's/x\{5000\}/5000 x/'
  reports: 5000 x: File name too long (os error 36)
  [1]
  $ example_files $long 2>&1 | sed 's/x\{5000\}/5000 x/'
  example_files: cannot read the folder 5000 x: File name too long (os error 36)
  [1]
