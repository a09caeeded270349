`reports join --by-name` puts reports in the order of the numbers in their names, which may be in any place, and count from 0 or
1.

  $ letters=({a..t})
  $ shard() {
  >     local trials=() place
  >     for ((place = $1; place < 20; place += $2)); do trials+=("ok ${letters[place]}"); done
  >     report "${trials[@]}"
  > }
  $ for number in {0..10}; do shard $number 11 >s$number; done; echo s*
  s0 s1 s10 s2 s3 s4 s5 s6 s7 s8 s9
  $ report ok\ {a..t} >whole
  $ reports join --by-name --shards 11 s* | cmp - whole
  $ reports join --by-name --cut --shards 11 s* | cmp - whole
  $ mkdir part0 part1; shard 0 2 >part0/sums.json; shard 1 2 >part1/sums.json
  $ reports join --by-name --shards 2 part1/sums.json part0/sums.json | cmp - whole
  $ mkdir run7; for number in {0..3}; do shard $number 4 >run7/8-$((number + 1)).json; done
  $ reports join --by-name --shards 4 run7/8-3.json run7/8-1.json run7/8-4.json run7/8-2.json | cmp - whole

By these numbers it knows of which shards there is no report, and prints up to twenty of them.

  $ reports join --by-name --cut --shards 11 s0 s1 s10 s2 | diff - <(begun 7 ok\ {a,b,c,k,l,m,n})
  2> reports: no report of 7 of 11 shards: 3, 4, 5, 6, 7, 8, 9
  [1]
  $ reports join --by-name --cut --shards 4 run7/8-4.json run7/8-2.json | diff - <(begun 10 ok\ {b,d,f,h,j,l,n,p,r,t})
  2> reports: no report of 2 of 4 shards: 1, 3
  [1]
  $ reports join --by-name --shards 4 run7/8-4.json run7/8-2.json
  2> reports: the number of shards is 4, but that of reports is 2
  2> reports: no report of 2 of 4 shards: 1, 3
  [1]
  $ reports join --by-name --shards 4 s2 s0
  2> reports: the number of shards is 4, but that of reports is 2
  2> reports: no report of 2 of 4 shards: 1, 3
  [1]
  $ reports join --by-name --shards 1 s1 s0
  2> reports: the number of shards is 1, but that of reports is 2
  [1]
  $ begun 6 ok\ {a,b,c,l,m,n} >three
  $ reports join --by-name --cut --shards 23 s0 s1 s2 | cmp - three
  2> reports: no report of 20 of 23 shards: 3, 4, 5, 6, 7, 8, 9, 10, 11, 12, 13, 14, 15, 16, 17, 18, 19, 20, 21, 22
  [1]
  $ reports join --by-name --cut --shards 24 s0 s1 s2 | cmp - three
  2> reports: no report of 21 of 24 shards: 3, 4, 5, 6, 7, 8, 9, 10, 11, 12, 13, 14, 15, 16, 17, 18, 19, 20, 21, 22, ..
  [1]
  $ reports join --by-name --cut --shards 18446744073709551615 s0 s1 s2 | cmp - three
  2> reports: no report of 18446744073709551612 of 18446744073709551615 shards: 3, 4, 5, 6, 7, 8, 9, 10, 11, 12, 13, 14, 15, 16, 17, 18, 19, 20, 21, 22, ..
  [1]

It doesn't know them of one file, of numbers that count from neither 0 nor 1, of those of other shards, and of one number in two
names.

  $ reports join --by-name --cut --shards 4 s0 | diff - <(begun 2 ok\ {a,l})
  2> reports: no report of 3 of 4 shards
  [1]
  $ reports join --by-name --cut --shards 4 s2 s1 | diff - <(begun 4 ok\ {b,c,m,n})
  2> reports: no report of 2 of 4 shards
  [1]
  $ reports join --by-name --cut --shards 10 s0 s10 | diff - <(begun 3 ok\ {a,k,l})
  2> reports: no report of 8 of 10 shards
  [1]
  $ cp s0 0of1; cp s0 1of1; cp s0 0of2
  $ reports join --by-name --cut --shards 4 0of1 1of1 0of2 | diff - <(begun 6 ok\ {a,a,a,l,l,l})
  2> reports: no report of 1 of 4 shards
  [1]
  $ report 'ok 1 + 1' 'ok 7 + 0' | sed '5,$d' >killed
  $ reports join --by-name --cut --shards 3 s0 killed | diff - <(begun 4 'ok 1 + 1' ok\ {a,l})
  2> reports: killed: the report is cut; running: 7 + 0
  2> reports: no report of 1 of 3 shards
  [1]

Names that give no order.

  $ cp s1 t1; reports join --by-name --shards 2 s1 t1
  2> reports: --by-name can't order s1 and t1, whose names have the same numbers or none
  [2]
  $ reports join --by-name --cut --shards 3 nowhere/t01 s0 nowhere/s1
  2> reports: --by-name can't order nowhere/t01 and nowhere/s1, whose names have the same numbers or none
  [2]
  $ reports join --by-name --shards 2 nowhere/a nowhere/b
  2> reports: --by-name can't order nowhere/a and nowhere/b, whose names have the same numbers or none
  [2]
  $ reports join --by-name --shards 2 x99999999999999999999 x100000000000000000000
  2> reports: --by-name can't order x99999999999999999999 and x100000000000000000000, whose names have the same numbers or none
  [2]
  $ reports join --by-name --cut --shards 2 - s0 <s0
  2> reports: --by-name can't order standard input, which has no name
  [2]

Reports that can't be those of shards in this order.

  $ report 'ok a' >t0; report --out 1 'ok b' >t1; reports join --by-name --shards 2 t1 t0
  2> reports: t1: its number of trials doesn't fit those of the reports before it; reports are taken in the order of the numbers in their files' names
  [1]
