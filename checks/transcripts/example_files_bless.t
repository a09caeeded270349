`example_files --bless` writes the outputs of the selected cases that differ or are missing, and no others.

  $ mkdir -p bless/k; cd bless; echo a >a.in; echo A >a.out; echo b >b.in; : >b.out; echo c >k/c.in
  $ echo d >d.in; printf '\377' >d.out; cd ..
  $ stamp() { stat --format '%i %Y' bless/a.out; }; before=$(stamp)
  $ example_files --bless bless -- --list
  a: test
  b: test
  d: test
  [k] c: test
  $ example_files --bless bless -- nothing
  2> example_files: --bless: no case is selected
  [2]
  $ example_files --bless bless -- c
  1 of 1 outputs were written
  $ example_files --bless bless nowhere
  2> example_files: cannot read the folder nowhere: No such file or directory (os error 2)
  [1]
  $ example_files --bless bless
  2 of 4 outputs were written
  $ example_files --bless bless
  0 of 4 outputs were written
  $ example_files bless -- --list
  a: test
  b: test
  d: test
  [k] c: test
  $ head bless/*.out bless/k/c.out
  ==> bless/a.out <==
  A
  
  ==> bless/b.out <==
  B
  
  ==> bless/d.out <==
  D
  
  ==> bless/k/c.out <==
  C

A new file takes the name of the old output, and has its mode. A link stays one, and the file that it leads to is written. An
output's name may be as long as names can be.

  $ mkdir kept; cd kept; echo a >a.in; echo b >b.in; touch a.out real; ln -s real b.out; chmod 640 a.out; chmod 604 real
  $ name=$(printf 'k%.0s' {1..251}); echo k >$name.in; touch $name.out; cp -l a.out before
  $ example_files --bless .
  3 of 3 outputs were written
  $ [ -L b.out ] && cat a.out b.out $name.out before
  A
  B
  K
  $ stat --format %a a.out real; find . -name '.mimic.*'; cd ..
  640
  604

If there is no room for an output, the old one stays, and nothing is beside it. The others are written.

  $ mkdir full; cd full; printf 'x%.0s' {1..5000} >a.in; echo old >a.out; cp a.in b.in; echo c >c.in
  $ (trap '' XFSZ; ulimit -f 4; exec example_files --bless .)
  1 of 3 outputs were written
  2> example_files: cannot write a.out: File too large (os error 27)
  2> example_files: cannot write b.out: File too large (os error 27)
  [1]
  $ cat a.out c.out; ls -A
  old
  C
  a.in
  a.out
  b.in
  c.in
  c.out

A new file that is there already stays as it is. Its name has the SipHash-1-3 of the output's path, so that other outputs can be
written.

  $ (echo mine >.mimic.3d1ca258a0c6b174.$BASHPID.new; exec example_files --bless .)
  1 of 3 outputs were written
  2> example_files: cannot write a.out: the new file beside it, .mimic.3d1ca258a0c6b174.PROCESS.new, is there already
  [1]
  $ cat a.out .mimic.*; wc -c <b.out; cd ..
  old
  mine
  5000

What can't be written or read is printed.

  $ ln -sf nowhere/c bless/k/c.out; example_files --bless bless
  0 of 4 outputs were written
  2> example_files: cannot write k/c.out: No such file or directory (os error 2)
  [1]
  $ [ "$(stamp)" = "$before" ]
  $ mkdir no; cd no; touch {dangling,folder,null,pipe}.in; ln -s nowhere dangling.out; mkdir folder.out; ln -s /dev/null null.out
  $ mkfifo pipe.out; example_files --bless .
  0 of 4 outputs were written
  2> example_files: cannot write dangling.out: No such file or directory (os error 2)
  2> example_files: cannot read folder.out: it is no file
  2> example_files: cannot read null.out: it is no file
  2> example_files: cannot read pipe.out: it is no file
  [1]
  $ ls -F; cd ..
  dangling.in
  dangling.out@
  folder.in
  folder.out/
  null.in
  null.out@
  pipe.in
  pipe.out|
  $ mkdir odd odd/x.in; touch odd/x.in/case.{in,out} odd/{half,lost}.out; mkfifo odd/{half,pipe}.in; ln -s . odd/round.in
  $ echo ab >odd/link.in; echo AB >odd/link.out; ln -s nowhere odd/gone.in; ln -s nowhere odd/lost.in; ln -s /dev/zero odd/zero.in
  $ example_files --bless odd
  0 of 8 outputs were written
  2> example_files: cannot read gone.in: No such file or directory (os error 2)
  2> example_files: cannot read half.in: it is no file
  2> example_files: cannot read lost.in: No such file or directory (os error 2)
  2> example_files: cannot read pipe.in: it is no file
  2> example_files: cannot read round.in: it is no file
  2> example_files: cannot read zero.in: it is no file
  [1]
