`reports compare` prints what became of the trials of an older report in a later one, class by class, and counts them. Its
status is 101 if there is a new failure, or a trial regressed or is missing. Here it runs twice: with `--missing` it lists what was not run, too.

  $ compare() {
  >     reports compare old new >listed 2>said; local status=$?
  >     reports compare --missing old new >all 2>same; [ $? = $status ] || echo "--missing has another status"
  >     cat listed; cat said >&2
  >     cmp said same; diff listed all | sed -n 's/^> /--missing: /p; s/^</--missing has not:/p'
  >     return $status
  > }
  $ sums >old; sums >new; compare
  0 new failure; 0 regressed; 0 missing; 0 not run; 0 new; 0 not run before; 0 newly ignored; 0 newly passing; 0 another message; 1 still failing; 2 unchanged; 0 slower; 0 faster
  $ report >old; report >new; compare
  0 new failure; 0 regressed; 0 missing; 0 not run; 0 new; 0 not run before; 0 newly ignored; 0 newly passing; 0 another message; 0 still failing; 0 unchanged; 0 slower; 0 faster

A trial regressed if the older report has a row of it that didn't fail.

  $ report 'ok a' >old; report 'failed a: x' >new; compare
  regressed: a: x
  0 new failure; 1 regressed; 0 missing; 0 not run; 0 new; 0 not run before; 0 newly ignored; 0 newly passing; 0 another message; 0 still failing; 0 unchanged; 0 slower; 0 faster
  [101]
  $ report 'ignored a' >old; report 'failed a: x' >new; compare
  regressed: a: x
  0 new failure; 1 regressed; 0 missing; 0 not run; 0 new; 0 not run before; 0 newly ignored; 0 newly passing; 0 another message; 0 still failing; 0 unchanged; 0 slower; 0 faster
  [101]
  $ report 'bench a: 5' >old; report 'failed a: x' >new; compare
  regressed: a: x
  0 new failure; 1 regressed; 0 missing; 0 not run; 0 new; 0 not run before; 0 newly ignored; 0 newly passing; 0 another message; 0 still failing; 0 unchanged; 0 slower; 0 faster
  [101]
  $ report 'failed a: x' 'ok a' >old; report 'failed a: x' 'failed a: x' >new; compare
  regressed: a: x
  0 new failure; 1 regressed; 0 missing; 0 not run; 0 new; 0 not run before; 0 newly ignored; 0 newly passing; 0 another message; 0 still failing; 0 unchanged; 0 slower; 0 faster
  [101]
  $ report --out 1 'ok a' >old; report --out 1 'ok a' 'failed a: x' >new; compare
  regressed: a: x
  0 new failure; 1 regressed; 0 missing; 0 not run; 0 new; 0 not run before; 0 newly ignored; 0 newly passing; 0 another message; 0 still failing; 0 unchanged; 0 slower; 0 faster
  [101]

Else it is a new failure, also if the older report is cut or trials were filtered out of it.

  $ report >old; report 'failed a: x' >new; compare
  new failure: a: x
  1 new failure; 0 regressed; 0 missing; 0 not run; 0 new; 0 not run before; 0 newly ignored; 0 newly passing; 0 another message; 0 still failing; 0 unchanged; 0 slower; 0 faster
  [101]
  $ report 'failed a: x' >old; report 'failed a: x' 'failed a: x' >new; compare
  new failure: a: x
  1 new failure; 0 regressed; 0 missing; 0 not run; 0 new; 0 not run before; 0 newly ignored; 0 newly passing; 0 another message; 0 still failing; 0 unchanged; 0 slower; 0 faster
  [101]
  $ report --out 3 >old; report 'failed a: x' >new; compare
  new failure: a: x
  1 new failure; 0 regressed; 0 missing; 0 not run; 0 new; 0 not run before; 0 newly ignored; 0 newly passing; 0 another message; 0 still failing; 0 unchanged; 0 slower; 0 faster
  [101]
  $ begun 1 >old; report 'failed a: x' >new; compare
  new failure: a: x
  1 new failure; 0 regressed; 0 missing; 0 not run; 0 new; 0 not run before; 0 newly ignored; 0 newly passing; 0 another message; 0 still failing; 0 unchanged; 0 slower; 0 faster
  2> reports: old: the report is cut
  [101]
  $ report 'failed a: x' >old; report 'ok a' 'failed a: x' 'failed a: x' >new; compare
  new failure: a: x
  1 new failure; 0 regressed; 0 missing; 0 not run; 0 new; 0 not run before; 0 newly ignored; 0 newly passing; 0 another message; 0 still failing; 0 unchanged; 0 slower; 0 faster
  [101]
  $ report 'ok a' >old; report 'failed [k] a: x' 'ok a' >new; compare
  new failure: [k] a: x
  1 new failure; 0 regressed; 0 missing; 0 not run; 0 new; 0 not run before; 0 newly ignored; 0 newly passing; 0 another message; 0 still failing; 1 unchanged; 0 slower; 0 faster
  [101]

Of several trials of one name the first failure is shown, and of a message the first line.

  $ report >old; report 'ok a' 'failed a: y\nz' 'failed a: x' >new; compare
  new failure: a: y
  1 new failure; 0 regressed; 0 missing; 0 not run; 0 new; 0 not run before; 0 newly ignored; 0 newly passing; 0 another message; 0 still failing; 0 unchanged; 0 slower; 0 faster
  [101]
  $ report >old; report 'failed a: \nz' >new; compare
  new failure: a
  1 new failure; 0 regressed; 0 missing; 0 not run; 0 new; 0 not run before; 0 newly ignored; 0 newly passing; 0 another message; 0 still failing; 0 unchanged; 0 slower; 0 faster
  [101]
  $ report >old; report 'failed a' >new; compare
  new failure: a
  1 new failure; 0 regressed; 0 missing; 0 not run; 0 new; 0 not run before; 0 newly ignored; 0 newly passing; 0 another message; 0 still failing; 0 unchanged; 0 slower; 0 faster
  [101]
  $ report >old; report 'failed a: b\u001b\nregressed: c' 'failed b: \nx' 'failed c: ' >new; compare
  new failure: a: b\u{1b}
  new failure: b
  new failure: c
  3 new failure; 0 regressed; 0 missing; 0 not run; 0 new; 0 not run before; 0 newly ignored; 0 newly passing; 0 another message; 0 still failing; 0 unchanged; 0 slower; 0 faster
  [101]

Names and messages show control characters by their numbers, so none looks like another line.

  $ report >old; report $'failed [k] a: \\u001b\xe2\x80\xa8: \\\\u{1b}' >new; compare
  new failure: [k] a: \u{1b}\u{2028}: \u{5c}u{1b}
  1 new failure; 0 regressed; 0 missing; 0 not run; 0 new; 0 not run before; 0 newly ignored; 0 newly passing; 0 another message; 0 still failing; 0 unchanged; 0 slower; 0 faster
  [101]
  $ report >old; report $'ok [\\u001b] a\\nnew: \\\\u{1}\xc2\x9b' >new; compare
  new: [\u{1b}] a\u{a}new: \u{5c}u{1}\u{9b}
  0 new failure; 0 regressed; 0 missing; 0 not run; 1 new; 0 not run before; 0 newly ignored; 0 newly passing; 0 another message; 0 still failing; 0 unchanged; 0 slower; 0 faster
  $ report >old; cp hostile new; compare
  new: [\u{1b}] \u{1b}[2J
  new: [\u{1b}] a\u{a}regressed: b
  new: [\\u{1b}] \\u{7f}\\u{9b}\\u{80}\\u{9f}\xc2\xa0 (esc)
  new: [\\u{1b}] \\u{2028}\\u{2029}\xe2\x80\xaa (esc)
  new: [\u{1b}] \u{5c}u{1b} \u \
  0 new failure; 0 regressed; 0 missing; 0 not run; 5 new; 0 not run before; 0 newly ignored; 0 newly passing; 0 another message; 0 still failing; 0 unchanged; 0 slower; 0 faster

A trial is missing if all trials were run, and was not run if some were filtered out, in either report.

  $ report 'ok a' >old; report >new; compare
  missing: a
  0 new failure; 0 regressed; 1 missing; 0 not run; 0 new; 0 not run before; 0 newly ignored; 0 newly passing; 0 another message; 0 still failing; 0 unchanged; 0 slower; 0 faster
  [101]
  $ report 'failed a: x' >old; report >new; compare
  missing: a
  0 new failure; 0 regressed; 1 missing; 0 not run; 0 new; 0 not run before; 0 newly ignored; 0 newly passing; 0 another message; 0 still failing; 0 unchanged; 0 slower; 0 faster
  [101]
  $ report 'ok a' 'ok a' >old; report 'ok a' >new; compare
  missing: a
  0 new failure; 0 regressed; 1 missing; 0 not run; 0 new; 0 not run before; 0 newly ignored; 0 newly passing; 0 another message; 0 still failing; 0 unchanged; 0 slower; 0 faster
  [101]
  $ report 'ok a' >old; report --out 1 >new; compare
  0 new failure; 0 regressed; 0 missing; 1 not run; 0 new; 0 not run before; 0 newly ignored; 0 newly passing; 0 another message; 0 still failing; 0 unchanged; 0 slower; 0 faster
  --missing: not run: a
  $ report --out 3 'ok a' >old; report >new; compare
  0 new failure; 0 regressed; 0 missing; 1 not run; 0 new; 0 not run before; 0 newly ignored; 0 newly passing; 0 another message; 0 still failing; 0 unchanged; 0 slower; 0 faster
  --missing: not run: a
  $ report >old; report 'ok a' >new; compare
  new: a
  0 new failure; 0 regressed; 0 missing; 0 not run; 1 new; 0 not run before; 0 newly ignored; 0 newly passing; 0 another message; 0 still failing; 0 unchanged; 0 slower; 0 faster
  $ report >old; report 'ignored a' >new; compare
  new: a
  0 new failure; 0 regressed; 0 missing; 0 not run; 1 new; 0 not run before; 0 newly ignored; 0 newly passing; 0 another message; 0 still failing; 0 unchanged; 0 slower; 0 faster
  $ report 'failed a: x' >old; report 'failed a: x' 'ok a' >new; compare
  new: a
  0 new failure; 0 regressed; 0 missing; 0 not run; 1 new; 0 not run before; 0 newly ignored; 0 newly passing; 0 another message; 0 still failing; 0 unchanged; 0 slower; 0 faster
  $ report --out 1 >old; report 'ok a' >new; compare
  0 new failure; 0 regressed; 0 missing; 0 not run; 0 new; 1 not run before; 0 newly ignored; 0 newly passing; 0 another message; 0 still failing; 0 unchanged; 0 slower; 0 faster
  --missing: not run before: a
  $ report >old; report --out 3 'ok a' >new; compare
  0 new failure; 0 regressed; 0 missing; 0 not run; 0 new; 1 not run before; 0 newly ignored; 0 newly passing; 0 another message; 0 still failing; 0 unchanged; 0 slower; 0 faster
  --missing: not run before: a
  $ report 'failed a: x' >old; report 'failed a: x' 'ok [k] a' >new; compare
  new: [k] a
  0 new failure; 0 regressed; 0 missing; 0 not run; 1 new; 0 not run before; 0 newly ignored; 0 newly passing; 0 another message; 1 still failing; 0 unchanged; 0 slower; 0 faster
  $ report 'ok [k] a' >old; report 'ok a' >new; compare
  missing: [k] a
  new: a
  0 new failure; 0 regressed; 1 missing; 0 not run; 1 new; 0 not run before; 0 newly ignored; 0 newly passing; 0 another message; 0 still failing; 0 unchanged; 0 slower; 0 faster
  [101]

Trials that are ignored now, that pass now, and that fail otherwise.

  $ report 'ok a' >old; report 'ignored a' >new; compare
  newly ignored: a
  0 new failure; 0 regressed; 0 missing; 0 not run; 0 new; 0 not run before; 1 newly ignored; 0 newly passing; 0 another message; 0 still failing; 0 unchanged; 0 slower; 0 faster
  $ report 'failed a: x' >old; report 'ignored a' >new; compare
  newly ignored: a
  0 new failure; 0 regressed; 0 missing; 0 not run; 0 new; 0 not run before; 1 newly ignored; 0 newly passing; 0 another message; 0 still failing; 0 unchanged; 0 slower; 0 faster
  $ report 'failed a: x' >old; report 'ok a' >new; compare
  newly passing: a
  0 new failure; 0 regressed; 0 missing; 0 not run; 0 new; 0 not run before; 0 newly ignored; 1 newly passing; 0 another message; 0 still failing; 0 unchanged; 0 slower; 0 faster
  $ report 'ignored a' >old; report 'ok a' >new; compare
  newly passing: a
  0 new failure; 0 regressed; 0 missing; 0 not run; 0 new; 0 not run before; 0 newly ignored; 1 newly passing; 0 another message; 0 still failing; 0 unchanged; 0 slower; 0 faster
  $ report 'failed a: x' 'failed a: y' >old; report 'ok a' 'failed a: y' >new; compare
  newly passing: a
  0 new failure; 0 regressed; 0 missing; 0 not run; 0 new; 0 not run before; 0 newly ignored; 1 newly passing; 0 another message; 0 still failing; 0 unchanged; 0 slower; 0 faster
  $ report 'failed a: x' >old; report 'bench a: 5' >new; compare
  newly passing: a
  0 new failure; 0 regressed; 0 missing; 0 not run; 0 new; 0 not run before; 0 newly ignored; 1 newly passing; 0 another message; 0 still failing; 0 unchanged; 0 slower; 0 faster
  $ report 'failed a: x' >old; report 'failed a: y' >new; compare
  another message: a: y
  0 new failure; 0 regressed; 0 missing; 0 not run; 0 new; 0 not run before; 0 newly ignored; 0 newly passing; 1 another message; 0 still failing; 0 unchanged; 0 slower; 0 faster
  $ report 'failed a: x' >old; report 'failed a' >new; compare
  another message: a
  0 new failure; 0 regressed; 0 missing; 0 not run; 0 new; 0 not run before; 0 newly ignored; 0 newly passing; 1 another message; 0 still failing; 0 unchanged; 0 slower; 0 faster
  $ report 'failed a: ' >old; report 'failed a' >new; compare
  another message: a
  0 new failure; 0 regressed; 0 missing; 0 not run; 0 new; 0 not run before; 0 newly ignored; 0 newly passing; 1 another message; 0 still failing; 0 unchanged; 0 slower; 0 faster
  $ report 'failed a: x' 'failed a: x' 'failed a: y' >old; report 'failed a: x' 'failed a: y' 'failed a: y' >new; compare
  another message: a: x
  0 new failure; 0 regressed; 0 missing; 0 not run; 0 new; 0 not run before; 0 newly ignored; 0 newly passing; 1 another message; 0 still failing; 0 unchanged; 0 slower; 0 faster
  $ report 'failed a: x' 'failed a: x' >old; report 'failed a: y' 'failed a: x' >new; compare
  another message: a: y
  0 new failure; 0 regressed; 0 missing; 0 not run; 0 new; 0 not run before; 0 newly ignored; 0 newly passing; 1 another message; 0 still failing; 0 unchanged; 0 slower; 0 faster

The order of rows makes no difference.

  $ report 'failed a: x' 'failed a: x' 'failed a: y' >old; report 'failed a: x' 'failed a: y' 'failed a: x' >new; compare
  0 new failure; 0 regressed; 0 missing; 0 not run; 0 new; 0 not run before; 0 newly ignored; 0 newly passing; 0 another message; 1 still failing; 0 unchanged; 0 slower; 0 faster
  $ report 'failed a: x' 'failed a: y' >old; report 'failed a: y' 'failed a: x' >new; compare
  0 new failure; 0 regressed; 0 missing; 0 not run; 0 new; 0 not run before; 0 newly ignored; 0 newly passing; 0 another message; 1 still failing; 0 unchanged; 0 slower; 0 faster
  $ report 'failed a: x' 'ok a' >old; report 'ok a' 'failed a: x' >new; compare
  0 new failure; 0 regressed; 0 missing; 0 not run; 0 new; 0 not run before; 0 newly ignored; 0 newly passing; 0 another message; 1 still failing; 0 unchanged; 0 slower; 0 faster
  $ report 'failed a: x' 'failed b: y' >old; report 'failed b: y' 'failed a: x' >new; compare
  0 new failure; 0 regressed; 0 missing; 0 not run; 0 new; 0 not run before; 0 newly ignored; 0 newly passing; 0 another message; 2 still failing; 0 unchanged; 0 slower; 0 faster

All classes at once. Among equal changes those of the older report come first.

  $ report 'ok gone' 'ok worse' 'failed better: x' 'ok [k] same' 'ignored [k] gone' >old
  $ report 'ok fresh' 'failed worse: y' 'ok better' 'ok [k] same' 'failed bad: z' >new
  $ compare
  new failure: bad: z
  regressed: worse: y
  missing: gone
  missing: [k] gone
  new: fresh
  newly passing: better
  1 new failure; 1 regressed; 2 missing; 0 not run; 1 new; 0 not run before; 0 newly ignored; 1 newly passing; 0 another message; 0 still failing; 1 unchanged; 0 slower; 0 faster
  [101]
  $ report 'ok gone' 'failed better: x' 'ok worse' 'bench [k] b: 1234 5' 'failed other: x' >old
  $ report 'ok fresh' 'failed other: y' 'bench [k] b: 2345 6' 'failed bad: x' 'failed worse: x' 'ok better' >new
  $ compare
  new failure: bad: x
  regressed: worse: x
  missing: gone
  new: fresh
  newly passing: better
  another message: other: y
  slower: [k] b: 1,234 -> 2,345 ns/iter (1.90)
  1 new failure; 1 regressed; 1 missing; 0 not run; 1 new; 0 not run before; 0 newly ignored; 1 newly passing; 1 another message; 0 still failing; 1 unchanged; 1 slower; 0 faster
  [101]

A report that is cut, wrong or absent makes the status 1, unless that is 101. What it lacks was not run.

  $ sums | head -c -1 >old; sums >new; compare
  0 new failure; 0 regressed; 0 missing; 0 not run; 0 new; 0 not run before; 0 newly ignored; 0 newly passing; 0 another message; 1 still failing; 2 unchanged; 0 slower; 0 faster
  2> reports: old: the report is cut
  [1]
  $ sums >old; sums | head -c -1 >new; compare
  0 new failure; 0 regressed; 0 missing; 0 not run; 0 new; 0 not run before; 0 newly ignored; 0 newly passing; 0 another message; 1 still failing; 2 unchanged; 0 slower; 0 faster
  2> reports: new: the report is cut
  [1]
  $ begun 1 'failed a: x' >old; report 'failed a: x' >new; compare
  0 new failure; 0 regressed; 0 missing; 0 not run; 0 new; 0 not run before; 0 newly ignored; 0 newly passing; 0 another message; 1 still failing; 0 unchanged; 0 slower; 0 faster
  2> reports: old: the report is cut
  [1]
  $ report 'ok a' >old; begun 1 'failed a: x' >new; compare
  regressed: a: x
  0 new failure; 1 regressed; 0 missing; 0 not run; 0 new; 0 not run before; 0 newly ignored; 0 newly passing; 0 another message; 0 still failing; 0 unchanged; 0 slower; 0 faster
  2> reports: new: the report is cut
  [101]
  $ report 'ok a' >old; report 'failed a: x' | head -c -1 >new; compare
  regressed: a: x
  0 new failure; 1 regressed; 0 missing; 0 not run; 0 new; 0 not run before; 0 newly ignored; 0 newly passing; 0 another message; 0 still failing; 0 unchanged; 0 slower; 0 faster
  2> reports: new: the report is cut
  [101]
  $ sums >old; : >new; compare
  0 new failure; 0 regressed; 0 missing; 3 not run; 0 new; 0 not run before; 0 newly ignored; 0 newly passing; 0 another message; 0 still failing; 0 unchanged; 0 slower; 0 faster
  --missing: not run: 1 + 1
  --missing: not run: 2 + 2
  --missing: not run: 7 + 0
  2> reports: new: the report is cut
  [1]
  $ report 'ok a' >old; : >new; compare
  0 new failure; 0 regressed; 0 missing; 1 not run; 0 new; 0 not run before; 0 newly ignored; 0 newly passing; 0 another message; 0 still failing; 0 unchanged; 0 slower; 0 faster
  --missing: not run: a
  2> reports: new: the report is cut
  [1]
  $ report 'failed a: x' >old; { begun 2 'failed a: x'; echo what; rows 'failed b'; } >new; compare
  0 new failure; 0 regressed; 0 missing; 0 not run; 0 new; 0 not run before; 0 newly ignored; 0 newly passing; 0 another message; 1 still failing; 0 unchanged; 0 slower; 0 faster
  2> reports: new: line 4: not what a report has there
  [1]
  $ rm old; sums >new; compare
  2> reports: old: No such file or directory (os error 2)
  [1]
  $ rm new; compare
  2> reports: old: No such file or directory (os error 2)
  2> reports: new: No such file or directory (os error 2)
  [1]
  $ sums >old; compare
  2> reports: new: No such file or directory (os error 2)
  [1]
  $ begun 3 >begun; report >none; reports compare --missing begun none
  0 new failure; 0 regressed; 0 missing; 0 not run; 0 new; 0 not run before; 0 newly ignored; 0 newly passing; 0 another message; 0 still failing; 0 unchanged; 0 slower; 0 faster
  2> reports: begun: the report is cut
  [1]
  $ sums | sed '7,$d' >killed; sums >sums; reports compare --missing killed sums
  not run before: 7 + 0
  0 new failure; 0 regressed; 0 missing; 0 not run; 0 new; 1 not run before; 0 newly ignored; 0 newly passing; 0 another message; 1 still failing; 1 unchanged; 0 slower; 0 faster
  2> reports: killed: the report is cut
  [1]
  $ { begun 2 'ok a'; echo what; } >old; report 'failed a: x' 'failed b: y' >new; compare
  new failure: b: y
  regressed: a: x
  1 new failure; 1 regressed; 0 missing; 0 not run; 0 new; 0 not run before; 0 newly ignored; 0 newly passing; 0 another message; 0 still failing; 0 unchanged; 0 slower; 0 faster
  2> reports: old: line 4: not what a report has there
  [101]

Nothing is printed if nothing of the older report could be read.

  $ mkdir folder; report 'failed a: x' 'ok b' >new; reports compare folder new
  2> reports: folder: Is a directory (os error 21)
  [1]
  $ echo what >old; compare
  2> reports: old: line 1: not what a report has there; does the program run with --format json?
  [1]
  $ : >old; compare
  2> reports: old: the report is cut
  [1]
  $ begun 1 | head -c -1 >old; compare
  2> reports: old: the report is cut
  [1]
  $ begun 1 'failed a: x' >new; reports compare folder new
  2> reports: folder: Is a directory (os error 21)
  2> reports: new: the report is cut
  [1]
  $ reports compare folder folder
  2> reports: folder: Is a directory (os error 21)
  2> reports: folder: Is a directory (os error 21)
  [1]
  $ report 'ok a' >old; reports compare old folder
  0 new failure; 0 regressed; 0 missing; 1 not run; 0 new; 0 not run before; 0 newly ignored; 0 newly passing; 0 another message; 0 still failing; 0 unchanged; 0 slower; 0 faster
  2> reports: folder: Is a directory (os error 21)
  [1]

One of them may be standard input.

  $ report 'ok a' >old; report 'failed a: x' >new
  $ reports compare - new <old
  regressed: a: x
  0 new failure; 1 regressed; 0 missing; 0 not run; 0 new; 0 not run before; 0 newly ignored; 0 newly passing; 0 another message; 0 still failing; 0 unchanged; 0 slower; 0 faster
  [101]
  $ reports compare old - <new
  regressed: a: x
  0 new failure; 1 regressed; 0 missing; 0 not run; 0 new; 0 not run before; 0 newly ignored; 0 newly passing; 0 another message; 0 still failing; 0 unchanged; 0 slower; 0 faster
  [101]
  $ reports compare - - <old
  2> reports: standard input can be read once only
  [2]
  $ reports compare old
  2> error: the following required arguments were not provided:
  2>   <NEW>
  2> 
  2> Usage: reports compare <OLD> <NEW>
  2> 
  2> For more information, try '--help'.
  [2]
  $ reports compare old new old
  2> error: unexpected argument 'old' found
  2> 
  2> Usage: reports compare [OPTIONS] <OLD> <NEW>
  2> 
  2> For more information, try '--help'.
  [2]
  $ reports compare --help
  Print what is not in a report as in an older one
  
  Usage: reports compare [OPTIONS] <OLD> <NEW>
  
  Arguments:
    <OLD>  A report in JSON; - is standard input
    <NEW>  A later report in JSON; - is standard input
  
  Options:
        --slower <FACTOR>  Print times that changed by more than this factor [default: 1.25]
        --missing          Print also what a report lacks since it is cut or trials were filtered out
    -h, --help             Print help
