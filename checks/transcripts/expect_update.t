`reports expect --update` brings a file of known failures up to date: what the reports don't meet goes, and what isn't known
comes.

  $ sums >sums; head -c -1 sums >cut
  $ { printf '# first\n\n#xxxxxxxxxxxxxxxxxxxx\n'; failures '7 + 0' '2 + 2'; printf '# last'; } >known
  $ chmod 640 known; cp known before

If a report is cut or absent, the file stays as it is.

  $ reports expect --update known cut
  passed, line 4 can go: 7 + 0
  1 known failures; 0 failed; 1 passed; 0 with another message; 0 absent
  2> reports: cut: the report is cut
  [1]
  $ reports expect --update known sums nowhere
  passed, line 4 can go: 7 + 0
  1 known failures; 0 failed; 1 passed; 0 with another message; 0 absent
  2> reports: nowhere: No such file or directory (os error 2)
  [1]
  $ cmp before known

With `--lax` a failure that passed stays. The last line gets an end.

  $ reports expect --update known --lax sums
  passed, line 4 can go: 7 + 0
  1 known failures; 0 failed; 1 passed; 0 with another message; 0 absent
  $ { cat before; echo; } | cmp - known

The new file takes the name of the old one, and has its mode. If nothing changes, the old one stays.

  $ number() { stat --format %i "$1"; }; old=$(number known)
  $ reports expect --update --lines known sums
  passed, line 4 can go: { "type": "test", "name": "7 + 0", "event": "failed" }
  1 known failures; 0 failed; 1 passed; 0 with another message; 0 absent
  $ cat known
  # first
  
  #xxxxxxxxxxxxxxxxxxxx
  { "type": "test", "name": "2 + 2", "event": "failed" }
  # last
  $ stat --format %a known; [ $(number known) != $old ]
  640
  $ old=$(number known); reports expect --update known - <sums
  1 known failures; 0 failed; 0 passed; 0 with another message; 0 absent
  $ cat known; [ $(number known) = $old ]
  # first
  
  #xxxxxxxxxxxxxxxxxxxx
  { "type": "test", "name": "2 + 2", "event": "failed" }
  # last

A link stays one, and the file that it leads to is written.

  $ report 'failed a: x' 'failed a' 'failed a: y' 'ok b' 'ignored c' >twice
  $ ln -s known link; reports expect --update link twice
  failed: a: x
  failed: a
  failed: a: y
  absent, line 4 can go: 2 + 2
  0 known failures; 3 failed; 0 passed; 0 with another message; 1 absent
  $ [ -L link ] && cat known
  # first
  
  #xxxxxxxxxxxxxxxxxxxx
  # last
  { "type": "test", "name": "a", "event": "failed", "stdout": "Error: \"x\"\n" }
  { "type": "test", "name": "a", "event": "failed" }
  { "type": "test", "name": "a", "event": "failed", "stdout": "Error: \"y\"\n" }
  $ reports expect known twice
  3 known failures; 0 failed; 0 passed; 0 with another message; 0 absent

A file that isn't there is made, also without a line.

  $ report 'ok a' >passed; reports expect --update empty passed; wc -c <empty; rm empty passed
  0 known failures; 0 failed; 0 passed; 0 with another message; 0 absent
  0
  $ reports expect --update made sums
  failed: 2 + 2: assertion `left == right` failed
  0 known failures; 1 failed; 0 passed; 0 with another message; 0 absent
  $ cat made
  { "type": "test", "name": "2 + 2", "event": "failed", "stdout": "Error: \"assertion `left == right` failed\n  left: 4\n right: 5\"\n" }
  $ reports expect --update no/made sums
  failed: 2 + 2: assertion `left == right` failed
  0 known failures; 1 failed; 0 passed; 0 with another message; 0 absent
  2> reports: no/made: No such file or directory (os error 2)
  [1]
  $ mkdir folder; reports expect --update folder sums
  2> reports: folder: not a regular file
  [1]
  $ ln -s nowhere dangling; reports expect --update dangling sums
  failed: 2 + 2: assertion `left == right` failed
  0 known failures; 1 failed; 0 passed; 0 with another message; 0 absent
  2> reports: dangling: No such file or directory (os error 2)
  [1]
  $ reports expect --update /dev/null sums
  2> reports: /dev/null: not a regular file
  [1]
  $ reports expect --update - sums
  2> reports: expect --update can't write standard input, so KNOWN must be a file
  [2]
  $ ls
  before
  cut
  dangling
  folder
  known
  link
  made
  sums
  twice

If there is no room for the new file, the old one stays, and nothing is beside it.

  $ mkdir full; cp sums full; { printf '#%.0s' {1..5000}; echo; } >full/known; cp full/known before; cd full
  $ (trap '' XFSZ; ulimit -f 4; exec reports expect --update known sums)
  failed: 2 + 2: assertion `left == right` failed
  0 known failures; 1 failed; 0 passed; 0 with another message; 0 absent
  2> reports: known: File too large (os error 27)
  [1]
  $ cmp known ../before; ls
  known
  sums
  $ (trap '' XFSZ; ulimit -f 0; exec reports expect --update made sums)
  failed: 2 + 2: assertion `left == right` failed
  0 known failures; 1 failed; 0 passed; 0 with another message; 0 absent
  2> reports: made: File too large (os error 27)
  [1]
  $ ls
  known
  sums

A new file that is there already stays as it is.

  $ (echo mine >.reports.$BASHPID.new; exec reports expect --update known sums)
  failed: 2 + 2: assertion `left == right` failed
  0 known failures; 1 failed; 0 passed; 0 with another message; 0 absent
  2> reports: known: the new file beside it, .reports.PROCESS.new, is there already
  [1]
  $ cmp known ../before; cat .reports.*; cd ..
  mine

The file may be in a folder whose name isn't UTF-8.

  $ mkdir $'\xff'; cd $'\xff'; cp ../full/known known; reports expect --update known ../sums >/dev/null; tail -n 1 known; cd ..
  { "type": "test", "name": "2 + 2", "event": "failed", "stdout": "Error: \"assertion `left == right` failed\n  left: 4\n right: 5\"\n" }

How files change. The second update changes nothing, and by the new file nothing of the same reports is unexpected.

  $ update() {
  >     reports expect --update "$@" >/dev/null && cat known && cp known once &&
  >         reports expect --update "$@" >/dev/null && cmp once known && reports expect "$@" >/dev/null && cmp once known
  > }

A known failure keeps its line and its comments, and another message takes the place of the old one. New failures come at the
end.

  $ { printf '# Two failures of one kind\n\n'; failures 'met: x <1.5>' any; } >known
  $ { echo '# It goes'; failures 'passed: x' 'other: x' absent '[\u001b] a\n\\u{41}: x\n# y'; printf '#'; } >>known
  $ report 'failed new: \n# x\n <2>' 'failed other: y\nz' 'failed met: x' 'failed any: z' 'ok passed' \
  >     'failed [\u001b] a\n\\u{41}: x\n# y' 'failed [k] new' >now
  $ update known now
  # Two failures of one kind
  
  { "type": "test", "name": "met", "event": "failed", "exec_time": 1.5, "stdout": "Error: \"x\"\n" }
  { "type": "test", "name": "any", "event": "failed" }
  # It goes
  { "type": "test", "name": "other", "event": "failed", "stdout": "Error: \"y\nz\"\n" }
  { "type": "test", "name": "a\n\\u{41}", "kind": "\u001b", "event": "failed", "stdout": "Error: \"x\n# y\"\n" }
  #
  { "type": "test", "name": "new", "event": "failed", "stdout": "Error: \"\n# x\n\"\n" }
  { "type": "test", "name": "new", "kind": "k", "event": "failed" }
  $ : >known; report >none; update known none
  $ report 'failed a: y' 'failed a: x' >now; update known now
  { "type": "test", "name": "a", "event": "failed", "stdout": "Error: \"y\"\n" }
  { "type": "test", "name": "a", "event": "failed", "stdout": "Error: \"x\"\n" }
  $ failures a | head -c -1 >known; report 'failed a: x' >x; report 'failed a: y' 'failed b' >y; update known x y
  { "type": "test", "name": "a", "event": "failed" }
  { "type": "test", "name": "a", "event": "failed", "stdout": "Error: \"y\"\n" }
  { "type": "test", "name": "b", "event": "failed" }
  $ printf '# why' >known; update known none
  # why

A failure of a known kind and name comes behind it.

  $ failures 'a: x' >known; cp x twice; update known x twice y
  { "type": "test", "name": "a", "event": "failed", "stdout": "Error: \"x\"\n" }
  { "type": "test", "name": "a", "event": "failed", "stdout": "Error: \"x\"\n" }
  { "type": "test", "name": "a", "event": "failed", "stdout": "Error: \"y\"\n" }
  { "type": "test", "name": "b", "event": "failed" }

What isn't judged stays.

  $ failures 'a: z' >known; report 'ignored a' >now; update known now
  { "type": "test", "name": "a", "event": "failed", "stdout": "Error: \"z\"\n" }
  $ failures 'a: z' c >known; report --out 1 >some; update known none some
  { "type": "test", "name": "a", "event": "failed", "stdout": "Error: \"z\"\n" }
  { "type": "test", "name": "c", "event": "failed" }
  $ failures 'a: z' c >known; update known x some
  { "type": "test", "name": "a", "event": "failed", "stdout": "Error: \"x\"\n" }
  { "type": "test", "name": "c", "event": "failed" }

What passed goes. With `--lax` it may pass, and stays, but what is absent goes.

  $ failures a >known; report 'ok a' >now; update known now
  $ failures a >known; update --lax known now
  { "type": "test", "name": "a", "event": "failed" }
  $ failures c 'a: z' >known; update --lax known x
  { "type": "test", "name": "a", "event": "failed", "stdout": "Error: \"x\"\n" }

What can't be replaced is refused before it is read, and a first line without an end while it is. The file's name may be as long as
names can be.

  $ mkfifo pipe; reports expect --update pipe sums
  2> reports: pipe: not a regular file
  [1]
  $ head -c 1048577 /dev/zero | tr '\0' x >long; reports expect --update long sums
  2> reports: long: its first line is too long for a known failure
  [1]
  $ name=$(printf 'k%.0s' {1..255}); : >$name; reports expect --update $name sums >/dev/null; wc -l <$name
  1
